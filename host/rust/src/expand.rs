//! The expander, from document 02's words: a component's bits, and from the top again until ten are filled.
use crate::check::Test;

extern "C" {
    fn zk_expand(width: u32, value: u32) -> u64;
}

/// Refusal and value of a component of so many bits.
fn expanded(width: u32, component: u32) -> (u64, u64) {
    let text = format!("{:0width$b}", component, width = (width % 64) as usize);
    if !(4..=8).contains(&width) || text.len() > width as usize {
        return (9, 0);
    }
    let ten: String = text.chars().cycle().take(10).collect();
    (0, u64::from_str_radix(&ten, 2).unwrap())
}

fn compare(t: &mut Test, width: u32, component: u32) {
    let answer = unsafe { zk_expand(width, component) };
    let (refusal, value) = expanded(width, component);
    // refusal in bits 0 to 7, value in bits 16 to 31, nothing elsewhere
    t.same(|| format!("width {}, component {}", width, component), &answer, &(refusal | value << 16));
}

pub fn all(t: &mut Test) {
    for width in 0..40 {
        for component in 0..2000 {
            compare(t, width, component);
        }
        for _ in 0..5_000 {
            let far = t.random() as u32;
            compare(t, width, far);
            compare(t, width, far % 300);
            compare(t, far, far % 40);
        }
    }
}
