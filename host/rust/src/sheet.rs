//! The sheet, its list of port calls, and the sheet writer.
//!
//! Document 01, "The sheet and its calls" and "The nine refusals", decides; then the rulings under "Sheet and calls".
//!
//! Doubts and choices:
//! - LF alone ends a line; any other byte, CR and NUL too, is part of it.
//! - A text that ends within one of the first five lines, and one that ends before it, report the same number.
//! - The writer's count is the 2,134 bytes; its buffer past them keeps its bytes, as the call list's does.
use crate::answer::{count, refused, Answer};
use crate::chip_a;
use std::collections::BTreeMap;
use std::fmt::Write;

/// A good sheet. A missing entry is not in its map.
#[derive(Clone, Debug, Default, PartialEq, Eq)]
pub struct Sheet {
    /// Read mask, blink mask, overlay control, blink timing.
    pub registers: [u8; 4],
    pub overlays: BTreeMap<u8, [u8; 3]>,
    pub colours: BTreeMap<u8, [u8; 3]>,
}

/// One line of a sheet. The derived order is the order of the lines.
#[derive(Clone, Copy, PartialEq, Eq, PartialOrd, Ord)]
enum Key {
    Chip,
    Register(u8),
    Overlay(u8),
    Colour(u8),
}

/// The number that these lower-case hex digits write; none if there are not so many, or others among them.
pub fn hex(digits: &[u8], width: usize) -> Option<u32> {
    let lower_case = |d: &u8| matches!(d, b'0'..=b'9' | b'a'..=b'f');
    if digits.len() != width || !digits.iter().all(lower_case) {
        return None;
    }
    u32::from_str_radix(std::str::from_utf8(digits).ok()?, 16).ok()
}

fn key(name: &[u8]) -> Option<Key> {
    Some(match name {
        b"chip" => Key::Chip,
        b"readmask" => Key::Register(0),
        b"blinkmask" => Key::Register(1),
        b"overlay" => Key::Register(2),
        b"timing" => Key::Register(3),
        [b'o', number @ b'0'..=b'3'] => Key::Overlay(number - b'0'),
        [b'c', number @ ..] => Key::Colour(hex(number, 2)? as u8),
        _ => return None,
    })
}

/// Puts a line, its LF taken off, into the sheet and answers its key; none if it has no good key or no good value.
fn take(sheet: &mut Sheet, line: &[u8]) -> Option<Key> {
    let equals = line.iter().position(|b| *b == b'=')?;
    let (key, value) = (key(&line[..equals])?, &line[equals + 1..]);
    let colour = || hex(value, 3).map(|v| [(v >> 8) as u8, (v >> 4) as u8 % 16, v as u8 % 16]);
    match key {
        Key::Chip if value == b"153108" => {}
        Key::Chip => return None,
        Key::Register(n) => {
            let register = hex(value, 2)? as u8;
            if n == 2 && register & 0b1011_0000 != 0 {
                return None;
            }
            sheet.registers[usize::from(n)] = register;
        }
        Key::Overlay(n) => {
            sheet.overlays.insert(n, colour()?);
        }
        Key::Colour(n) => {
            sheet.colours.insert(n, colour()?);
        }
    }
    Some(key)
}

/// The sheet that the text is, or the number, from 1, of the first bad or missing line.
pub fn parse(text: &[u8]) -> Result<Sheet, u32> {
    let first = [Key::Chip, Key::Register(0), Key::Register(1), Key::Register(2), Key::Register(3)];
    let mut sheet = Sheet::default();
    let mut keys: Vec<Key> = Vec::new();
    for line in text.split_inclusive(|b| *b == b'\n') {
        let at = keys.len();
        let number = at as u32 + 1;
        let key = line.strip_suffix(b"\n").and_then(|line| take(&mut sheet, line)).ok_or(number)?;
        let in_order = if at < 5 { key == first[at] } else { key > keys[at - 1] };
        if !in_order {
            return Err(number);
        }
        keys.push(key);
    }
    if keys.len() < 5 {
        return Err(keys.len() as u32 + 1);
    }
    Ok(sheet)
}

/// The pairs of select and byte that load the sheet.
pub fn calls(sheet: &Sheet) -> Vec<(u8, u8)> {
    let mut calls: Vec<(u8, u8)> = (4..).zip(sheet.registers).collect();
    for (select, table) in [(3, &sheet.overlays), (1, &sheet.colours)] {
        let mut next = None;
        for (number, colour) in table {
            if next != Some(*number) {
                calls.push((0, *number));
            }
            calls.extend(colour.iter().map(|component| (select, *component)));
            next = number.checked_add(1);
        }
    }
    calls
}

/// The sheet-to-calls step: two bytes a call into the buffer, nothing past the list; the count is of calls.
pub fn to_calls(text: &[u8], buffer: &mut [u8]) -> Answer {
    let sheet = match parse(text) {
        Ok(sheet) => sheet,
        Err(line) => return Answer { line, ..refused(8) },
    };
    let calls = calls(&sheet);
    if buffer.len() < 2 * calls.len() {
        return refused(7);
    }
    for (to, (select, byte)) in buffer.chunks_exact_mut(2).zip(&calls) {
        to.copy_from_slice(&[*select, *byte]);
    }
    count(calls.len())
}

/// The sheet of chip A's registers and tables, every entry listed: 265 lines. Tables of the right length only.
fn full(s: &chip_a::State, colours: &[u8], overlays: &[u8]) -> String {
    let mut text = String::from("chip=153108\n");
    let registers = [s.read_mask, s.blink_mask, s.overlay, s.clock.timing];
    for (key, register) in ["readmask", "blinkmask", "overlay", "timing"].iter().zip(registers) {
        writeln!(text, "{}={:02x}", key, register).unwrap();
    }
    for (n, c) in overlays.chunks(3).enumerate() {
        writeln!(text, "o{}={:x}{:x}{:x}", n, c[0], c[1], c[2]).unwrap();
    }
    for (n, c) in colours.chunks(3).enumerate() {
        writeln!(text, "c{:02x}={:x}{:x}{:x}", n, c[0], c[1], c[2]).unwrap();
    }
    text
}

/// The sheet writer: the sheet's bytes into the buffer, nothing past them; the count is of bytes.
pub fn from_chip(s: &chip_a::State, colours: &[u8], overlays: &[u8], buffer: &mut [u8]) -> Answer {
    let unfit = chip_a::unfit(s, colours, overlays);
    if unfit != 0 {
        return refused(unfit);
    }
    if colours.iter().chain(overlays).any(|byte| *byte > 15) {
        return refused(2);
    }
    let text = full(s, colours, overlays);
    if buffer.len() < text.len() {
        return refused(7);
    }
    buffer[..text.len()].copy_from_slice(text.as_bytes());
    count(text.len())
}

/// What the program `loadlist` prints for its input.
pub fn loadlist(input: &[u8]) -> String {
    match parse(&input[..input.len().min(4_096)]) {
        Ok(sheet) => calls(&sheet).iter().map(|(select, byte)| format!("w{}={:02x}\n", select, byte)).collect(),
        Err(line) => format!("refused=8\nline={}\n", line),
    }
}

#[cfg(test)]
mod tests {
    use super::*;
    use crate::chip_a::{Call, Chip};

    const HEAD: &str = "chip=153108\nreadmask=00\nblinkmask=ff\noverlay=40\ntiming=31\n";
    const EXAMPLE: &str = "o1=f00\nc10=0a5\nc11=fff\nc20=123\n";

    fn line(text: impl AsRef<[u8]>) -> u32 {
        let mut buffer = [0xee; 1572];
        let answer = to_calls(text.as_ref(), &mut buffer);
        assert_eq!(answer, Answer { line: answer.line, ..refused(8) });
        assert_eq!(buffer, [0xee; 1572]);
        answer.line
    }

    fn good(text: &str) -> usize {
        let sheet = parse(text.as_bytes()).unwrap();
        calls(&sheet).len()
    }

    #[test]
    fn the_example_prints_19_lines() {
        let lines = "w4=00 w5=ff w6=40 w7=31 w0=01 w3=0f w3=00 w3=00 w0=10 w1=00 w1=0a w1=05 w1=0f w1=0f w1=0f \
                     w0=20 w1=01 w1=02 w1=03 ";
        let text = format!("{}{}", HEAD, EXAMPLE);
        assert_eq!(loadlist(text.as_bytes()), lines.replace(' ', "\n"));
        assert_eq!(good(&text), 19);
    }

    #[test]
    fn the_buffer_is_compared_with_the_very_length() {
        let text = format!("{}{}", HEAD, EXAMPLE);
        for (length, answer) in [(37, refused(7)), (0, refused(7)), (38, count(19)), (40, count(19))] {
            let mut buffer = vec![0xee; length];
            assert_eq!(to_calls(text.as_bytes(), &mut buffer), answer);
            if answer.refusal == 0 {
                assert_eq!(buffer[..12], [4, 0, 5, 0xff, 6, 0x40, 7, 0x31, 0, 1, 3, 15]);
                assert_eq!(buffer[36..], [1, 3, 0xee, 0xee][..length - 36]);
            } else {
                assert_eq!(buffer, vec![0xee; length]);
            }
        }
        // 8 is found first
        assert_eq!(to_calls(b"chip", &mut []), Answer { line: 1, ..refused(8) });
    }

    #[test]
    fn missing_lines_have_the_number_where_they_should_stand() {
        assert_eq!(loadlist(b""), "refused=8\nline=1\n");
        for end in 0..HEAD.len() {
            let before = HEAD[..end].matches('\n').count() as u32;
            assert_eq!(line(&HEAD[..end]), before + 1, "the first {} bytes", end);
        }
        assert_eq!(good(HEAD), 4);
        let lines: Vec<&str> = HEAD.split_inclusive('\n').collect();
        for missing in 0..5 {
            let mut rest = lines.clone();
            rest.remove(missing);
            assert_eq!(line(rest.concat()), missing as u32 + 1);
            assert_eq!(line(rest.concat() + EXAMPLE), missing as u32 + 1);
        }
    }

    #[test]
    fn bad_lines() {
        assert_eq!(line(format!("\n{}", HEAD)), 1);
        for bad in "chip=622424,chip=153108\r,chip=1531080,chip=,chip,Chip=153108, chip=153108,".split(',') {
            assert_eq!(line(HEAD.replace("chip=153108", bad)), 1, "{}", bad);
        }
        for bad in "readmask=0,readmask=000,readmask=0A,readmask=+1,readmask==00,blinkmask=00,".split(',') {
            assert_eq!(line(HEAD.replace("readmask=00", bad)), 2, "{}", bad);
        }
        for bad in "overlay=80,overlay=20,overlay=10,overlay=4 ,timing=31".split(',') {
            assert_eq!(line(HEAD.replace("overlay=40", bad)), 4, "{}", bad);
        }
        let bad_entries = ",o4=000,o=000,o00=000,c0=000,c000=000,c0A=000,c+1=000,c00=00,c00=0000,c00=0F0,c00=+00,\
                           c00 =000,c00=000 ,c00=000\r,c00=,timing=31,chip=153108,x,=,\0,c00=00\0";
        for bad in bad_entries.split(',') {
            assert_eq!(line(format!("{}{}\n", HEAD, bad)), 6, "{:?}", bad);
            assert_eq!(line(format!("{}o0=000\n{}\n", HEAD, bad)), 7, "{:?}", bad);
        }
        assert_eq!(line(format!("{}c00=000", HEAD)), 6);
        for pair in "o1,o1 o1,o0 c00,o0 c01,c01 c01,c00 cff,c00 o3,o2".split(' ') {
            let entries = pair.replace(',', "=000\n") + "=000\n";
            assert_eq!(line(format!("{}{}", HEAD, entries)), 7, "{}", pair);
        }
        assert_eq!(line(format!("{}o0=000\nc00=000\nc01=000\n\n", HEAD)), 9);
        let mut bytes = HEAD.as_bytes().to_vec();
        bytes[3] = 0xff;
        assert_eq!(line(bytes), 1);
    }

    #[test]
    fn address_writes_only_where_needed() {
        let lists = [("o0,o1,o2,o3", 13), ("o0,o2", 8), ("o3,c04", 8), ("c00", 4), ("cfe,cff", 7), ("c00,cff", 8)];
        for (keys, calls) in lists {
            let entries = keys.replace(',', "=000\n") + "=000\n";
            assert_eq!(good(&format!("{}{}", HEAD, entries)), 4 + calls, "{}", keys);
        }
    }

    #[test]
    fn the_writer_lists_all_and_its_sheet_loads() {
        let mut chip = Chip::fresh();
        for (n, byte) in chip.colours.iter_mut().chain(&mut chip.overlays).enumerate() {
            *byte = (n * 7 % 16) as u8;
        }
        chip.state.read_mask = 0x12;
        chip.state.blink_mask = 0xab;
        chip.state.overlay = 0x4f;
        chip.state.clock.timing = 0xf0;
        let mut buffer = vec![0xee; 2_136];
        assert_eq!(from_chip(&chip.state, &chip.colours, &chip.overlays, &mut buffer), count(2_134));
        assert_eq!(buffer[2_134..], [0xee, 0xee]);
        let text = &buffer[..2_134];
        assert_eq!(text.iter().filter(|b| **b == b'\n').count(), 265);
        let sheet = parse(text).unwrap();
        assert_eq!(calls(&sheet).len(), 786);
        let mut again = Chip::fresh();
        for (select, data) in calls(&sheet) {
            assert_eq!(again.make(Call::Write { select, data }).refusal, 0);
        }
        assert_eq!((again.colours, again.overlays), (chip.colours, chip.overlays));
        // one line more is line 266
        assert_eq!(line([text, b"cff=000\n"].concat()), 266);
        assert_eq!(line(&text[..2_133]), 265);
    }

    #[test]
    fn the_writer_refuses_1_9_2_7() {
        let mut chip = Chip::fresh();
        let mut short = [0xee; 2_133];
        let mut writer = |chip: &Chip| {
            let answer = from_chip(&chip.state, &chip.colours, &chip.overlays, &mut short);
            assert_eq!(short, [0xee; 2_133]);
            answer
        };
        assert_eq!(writer(&chip), refused(7));
        chip.colours[767] = 16;
        assert_eq!(writer(&chip), refused(2));
        chip.colours[767] = 0;
        chip.overlays[0] = 255;
        assert_eq!(writer(&chip), refused(2));
        chip.state.clock.position = 8;
        assert_eq!(writer(&chip), refused(9));
        chip.overlays.push(0);
        assert_eq!(writer(&chip), refused(1));
        chip.overlays.pop();
        chip.colours.pop();
        assert_eq!(writer(&chip), refused(1));
    }

    #[test]
    fn only_the_first_4096_bytes_decide() {
        let mut text = HEAD.as_bytes().to_vec();
        text.resize(5_000, b'x');
        assert_eq!(loadlist(&text), "refused=8\nline=6\n");
        assert_eq!(loadlist(&[b'\n'; 5_000]), "refused=8\nline=1\n");
    }
}
