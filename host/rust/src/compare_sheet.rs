//! Both implementations on the same sheets, good and damaged, and on the same chips to be written as sheets.
use crate::check::Test;
use crate::compare::times;
use crate::gen::{self, Random};
use crate::{gen_sheet, library_sheet, sheet};

const SHEETS: usize = 4_000;

fn text(sheet: &[u8]) -> String {
    String::from_utf8_lossy(sheet).into_owned()
}

/// Sheets to calls, with buffers of many lengths; every byte of the buffer is compared.
pub fn to_calls(t: &mut Test) {
    let mut r = Random::new(t.random());
    let mut met = [0usize; 10];
    for _ in 0..SHEETS * times() {
        let sheet = gen_sheet::any_sheet(&mut r);
        let needed = sheet::parse(&sheet).map_or(0, |s| 2 * sheet::calls(&s).len());
        let room = r.buffer(needed);
        let mut ours = r.bytes(room);
        let mut theirs = ours.clone();
        let told = library_sheet::to_calls(&sheet, &mut ours);
        let answer = sheet::to_calls(&sheet, &mut theirs);
        t.same(
            || format!("the answer of a buffer of {} and the sheet\n{}", ours.len(), text(&sheet)),
            &told,
            &answer,
        );
        t.same(|| format!("the buffer of the sheet\n{}", text(&sheet)), &ours, &theirs);
        met[usize::from(answer.refusal)] += 1;
    }
    for refusal in [0, 7, 8] {
        t.same(|| format!("refusal {} met often", refusal), &(met[refusal] > 20), &true);
    }
}

/// Chips to sheets, with buffers of many lengths.
pub fn from_chip(t: &mut Test) {
    let mut r = Random::new(t.random());
    let mut met = [0usize; 10];
    for _ in 0..SHEETS * times() {
        let chip = if r.one_in(2) { gen::any_a(&mut r) } else { gen::fit_a(&mut r) };
        let room = r.buffer(2_134);
        let mut ours = r.bytes(room);
        let mut theirs = ours.clone();
        let told = library_sheet::from_chip(&chip, &mut ours);
        let answer = sheet::from_chip(&chip.state, &chip.colours, &chip.overlays, &mut theirs);
        t.same(|| format!("the answer of a buffer of {} and {:?}", ours.len(), chip), &told, &answer);
        t.same(|| format!("the buffer of {:?}", chip), &ours, &theirs);
        met[usize::from(answer.refusal)] += 1;
    }
    for refusal in [0, 1, 2, 7, 9] {
        t.same(|| format!("refusal {} met often", refusal), &(met[refusal] > 20), &true);
    }
}
