//! Random sheets for the comparison.
//!
//! No page decides here. Sheets are good, damaged (a byte flipped, lost or put in, lines swapped, lost or doubled, a
//! cut, CR, upper case) or no sheet at all.
use crate::gen::Random;

/// A sheet without a fault: of each table no entry, some, half, most or all.
pub fn good_sheet(r: &mut Random) -> Vec<u8> {
    let mut text = String::from("chip=153108\n");
    for key in ["readmask", "blinkmask", "overlay", "timing"] {
        let register = if key == "overlay" { r.byte() & 0x4f } else { r.byte() };
        text += &format!("{}={:02x}\n", key, register);
    }
    let shares = [0, 1, 8, 15, 16];
    let (overlays, colours) = (r.pick(&shares), r.pick(&shares));
    for n in (0..4).filter(|_| r.below(16) < overlays).collect::<Vec<u32>>() {
        text += &format!("o{}={:03x}\n", n, r.below(4_096));
    }
    for n in (0..256).filter(|_| r.below(16) < colours).collect::<Vec<u32>>() {
        text += &format!("c{:02x}={:03x}\n", n, r.below(4_096));
    }
    text.into_bytes()
}

/// A place in so many, often near the start or the end.
fn spot(r: &mut Random, length: usize) -> usize {
    let near = r.below(length.min(70));
    let any = r.below(length);
    r.pick(&[near, length - 1 - near, any])
}

/// One fault, or a change that happens to be none.
pub fn damage(r: &mut Random, text: &mut Vec<u8>) {
    if text.is_empty() {
        return;
    }
    let at = spot(r, text.len());
    if r.one_in(2) {
        match r.below(7) {
            0 => text[at] ^= 1 << r.below(8),
            1 => text[at] = r.pick(b"0123456789abcdefABCDEF=oc \n\r\0\xff+-xg"),
            2 => text.insert(at, r.pick(b"0af=\n\r \0")),
            3 => text[at].make_ascii_uppercase(),
            4 => text.truncate(at),
            5 => text.truncate(text.len() - 1),
            _ => {
                text.remove(at);
            }
        }
        return;
    }
    let mut lines: Vec<Vec<u8>> = text.split_inclusive(|b| *b == b'\n').map(|line| line.to_vec()).collect();
    let (line, other) = (spot(r, lines.len()), spot(r, lines.len()));
    let end = lines[line].len() - 1;
    match r.below(6) {
        0 => lines.swap(line, other),
        1 => lines.insert(line, lines[other].clone()),
        2 => lines.insert(line, lines[line].clone()),
        3 => lines.insert(line, vec![b'\n']),
        4 => lines[line].insert(end, b'\r'),
        _ => {
            lines.remove(line);
        }
    }
    *text = lines.concat();
}

/// A good sheet, a damaged one, or no sheet at all.
pub fn any_sheet(r: &mut Random) -> Vec<u8> {
    let mut text = good_sheet(r);
    match r.below(16) {
        0 => Vec::new(),
        1 => {
            let length = r.below(200);
            r.bytes(length)
        }
        2 => {
            let more = r.below(5_000);
            text.extend((0..more).map(|_| r.pick(b"c0f=\n")));
            text
        }
        3..=5 => text,
        kind => {
            damage(r, &mut text);
            if kind < 9 {
                damage(r, &mut text);
            }
            text
        }
    }
}

#[cfg(test)]
mod tests {
    use super::*;
    use crate::gen::any_a;
    use crate::sheet;
    use std::collections::BTreeSet;

    #[test]
    fn sheets_good_and_bad() {
        let mut r = Random::new(5);
        let (mut longest, mut lines) = (0, BTreeSet::new());
        for _ in 0..300 {
            let good = sheet::parse(&good_sheet(&mut r)).unwrap();
            longest = longest.max(sheet::calls(&good).len());
            lines.insert(sheet::parse(&any_sheet(&mut r)).err().unwrap_or(0));
        }
        assert_eq!(longest, 786);
        assert!((0..=6).all(|line| lines.contains(&line)) && lines.len() > 30, "{:?}", lines);
    }

    #[test]
    fn calls_and_writer_meet_their_refusals() {
        let mut r = Random::new(6);
        let (mut to_calls, mut from_chip) = (BTreeSet::new(), BTreeSet::new());
        for _ in 0..300 {
            let text = any_sheet(&mut r);
            let exact = sheet::parse(&text).map_or(1_572, |good| 2 * sheet::calls(&good).len());
            let mut buffer = vec![0; r.buffer(exact)];
            to_calls.insert(sheet::to_calls(&text, &mut buffer).refusal);
            let chip = any_a(&mut r);
            let mut buffer = vec![0; r.buffer(2_134)];
            from_chip.insert(sheet::from_chip(&chip.state, &chip.colours, &chip.overlays, &mut buffer).refusal);
        }
        assert_eq!(to_calls, BTreeSet::from([0, 7, 8]));
        assert_eq!(from_chip, BTreeSet::from([0, 1, 2, 7, 9]));
    }
}
