//! Both implementations on the same calls: single calls on any chip, and runs of calls on one chip.
use crate::answer::Answer;
use crate::check::Test;
use crate::gen::{self, Random};
use crate::{chip_a, chip_b, chip_c, library_a, library_b, library_c};
use std::fmt::Debug;

/// How many single calls and how many runs of how many calls a test takes; ZK_TIMES multiplies them.
const SINGLE: usize = 12_000;
const RUNS: usize = 60;
const RUN_LENGTH: usize = 400;

pub fn times() -> usize {
    std::env::var("ZK_TIMES").map_or(1, |n| n.parse().expect("ZK_TIMES is a decimal number"))
}

/// The same chip in the hands of both.
struct Pair<C> {
    library: C,
    second: C,
}

/// A chip's text without the long middle of its tables.
fn short<C: Debug>(chip: &C) -> String {
    let text = format!("{:?}", chip);
    if text.len() < 2_000 {
        text
    } else {
        format!("{}..{}", &text[..1_500], &text[text.len() - 300..])
    }
}

/// What calls promise of a chip that they leave.
trait Left: Clone + PartialEq + Debug {
    fn alike(&self, other: &Self) -> bool {
        self == other
    }
}

impl Left for chip_a::Chip {}
impl Left for chip_c::Chip {}

/// Of the queue the entries that wait, the oldest first: the other places hold anything.
impl Left for chip_b::Chip {
    fn alike(&self, other: &Self) -> bool {
        let waiting = |c: &Self| -> Vec<u64> {
            c.queue.iter().cycle().skip(c.state.first.into()).take(c.state.waiting.into()).copied().collect()
        };
        let rest = |c: &Self| (c.state, c.queue.len());
        rest(self) == rest(other) && self.map == other.map && waiting(self) == waiting(other)
    }
}

/// One call on both: the answers, and all that is promised of what they leave, must be the same; a refusal leaves every
/// place and byte as it was.
fn both<C: Left, K: Copy + Debug>(
    t: &mut Test,
    pair: &mut Pair<C>,
    call: K,
    library: fn(&mut C, K) -> Answer,
    second: fn(&mut C, K) -> Answer,
) -> Answer {
    let before = pair.library.clone();
    let ours = library(&mut pair.library, call);
    let theirs = second(&mut pair.second, call);
    t.same(|| format!("the answer of {:?}, which leaves {}", call, short(&pair.second)), &ours, &theirs);
    let same = pair.library.alike(&pair.second) && (ours.refusal == 0 || pair.library == before);
    let left = || format!("{:?}, which leaves {} and {}", call, short(&pair.library), short(&pair.second));
    t.same(left, &same, &true);
    theirs
}

macro_rules! compared {
    ($name:ident, $library:ident, $any:ident, $fit:ident, $call:ident, $run:ident, $refusals:expr) => {
        /// Single calls on any chips, and runs on chips in range; each refusal that the chip has must have been met.
        /// A run is made once more by the library without its looks: that must answer and leave the same.
        pub fn $name(t: &mut Test) {
            let mut r = Random::new(t.random());
            let mut met = [0usize; 10];
            for _ in 0..SINGLE * times() {
                let (chip, call) = (gen::$any(&mut r), gen::$call(&mut r));
                let mut pair = Pair { library: chip.clone(), second: chip };
                let answer = both(t, &mut pair, call, $library::make, $name::Chip::make);
                met[usize::from(answer.refusal)] += 1;
            }
            for _ in 0..RUNS * times() {
                let chip = gen::$fit(&mut r);
                let mut without = chip.clone();
                let mut pair = Pair { library: chip.clone(), second: chip };
                for call in gen::$run(&mut r, RUN_LENGTH) {
                    let answer = both(t, &mut pair, call, $library::make, $name::Chip::make);
                    if !matches!(call, $name::Call::Look { .. }) {
                        let ours = $library::make(&mut without, call);
                        t.same(|| format!("the answer of {:?} in a run without its looks", call), &ours, &answer);
                    }
                }
                t.same(|| "what a run without its looks leaves".to_string(), &without.alike(&pair.second), &true);
            }
            for refusal in $refusals {
                t.same(|| format!("refusal {} met often", refusal), &(met[refusal] > 20), &true);
            }
        }
    };
}

compared!(chip_a, library_a, any_a, fit_a, call_a, run_a, [0, 1, 3, 9]);
compared!(chip_b, library_b, any_b, fit_b, call_b, run_b, [0, 1, 3, 5, 6, 9]);
compared!(chip_c, library_c, any_c, fit_c, call_c, run_c, [0, 1, 3, 4, 9]);
