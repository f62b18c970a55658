//! Counting, random numbers, and the first difference of each test.

/// What a test is handed: random numbers, and a place for its comparisons.
pub struct Test {
    seed: u64,
    compared: u64,
    differs: u64,
}

impl Test {
    /// A random number (splitmix64).
    pub fn random(&mut self) -> u64 {
        self.seed = self.seed.wrapping_add(0x9e37_79b9_7f4a_7c15);
        let z = (self.seed ^ (self.seed >> 30)).wrapping_mul(0xbf58_476d_1ce4_e5b9);
        let z = (z ^ (z >> 27)).wrapping_mul(0x94d0_49bb_1331_11eb);
        z ^ (z >> 31)
    }

    /// The library's answer against the second implementation's, with the input that shows a difference.
    pub fn same<A: PartialEq + std::fmt::Debug>(&mut self, input: impl Fn() -> String, ours: &A, second: &A) {
        self.compared += 1;
        if ours != second {
            if self.differs == 0 {
                println!("  differs at {}:\n    library {:?}\n    second  {:?}", input(), ours, second);
            }
            self.differs += 1;
        }
    }
}

pub struct Run {
    only: String,
    seed: u64,
    passed: u32,
    failed: u32,
}

impl Run {
    pub fn start() -> Run {
        let given = std::env::var("ZK_SEED").ok();
        let seed = given.map_or(0x5a69_6b6f_6d62_6172, |s| s.parse().expect("ZK_SEED is a decimal number"));
        println!("seed {}", seed);
        Run { only: std::env::args().nth(1).unwrap_or_default(), seed, passed: 0, failed: 0 }
    }

    /// A test, unless the first argument asks for others.
    pub fn test(&mut self, name: &str, test: fn(&mut Test)) {
        if !name.contains(&self.only) {
            return;
        }
        let mut t = Test { seed: self.seed, compared: 0, differs: 0 };
        test(&mut t);
        if t.differs == 0 && t.compared != 0 {
            println!("ok     {} ({} comparisons)", name, t.compared);
            self.passed += 1;
        } else {
            println!("FAILED {} ({} of {} comparisons differ)", name, t.differs, t.compared);
            self.failed += 1;
        }
    }

    pub fn finish(self) {
        println!("{} passed, {} failed", self.passed, self.failed);
        std::process::exit(i32::from(self.failed != 0 || self.passed == 0));
    }
}
