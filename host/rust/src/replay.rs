//! The port log and its answers: what the program `replay` prints.
//!
//! The replay's description decides the lines and the answers, document 01 what the calls do.
//!
//! Doubts and choices:
//! - Every answer line ends in LF, also the answer to a last log line that lacks it.
//! - The parts of a line stand together without spaces, as `w4=00` in document 01's list shows.
//! - A select digit of 8 to f is well formed: its call refuses 3. So is an overlay number or mode digit over 3, a word
//!   over 24 bits, a number of slots over 16 bits, a width of `expand=` that is not there, and a component wider than
//!   that: their calls refuse 9.
//! - B's reset answers `ok`, as every reset; every accepted write on B tells its count, whatever the select.
//! - Any five digits are a well formed `look=`: a place that is not there is refused by its call.
use crate::answer::Answer;
use crate::sheet::{from_chip, hex};
use crate::{chip_a, chip_b, chip_c};

#[derive(Clone, Copy, PartialEq, Eq)]
enum Chosen {
    A,
    B,
    C,
}

pub struct Board {
    a: chip_a::Chip,
    b: chip_b::Chip,
    c: chip_c::Chip,
    chosen: Chosen,
}

/// A call that a log line asks for, and how its acceptance is told.
enum Told {
    Ok(Answer),
    Moved(Answer),
    Value(Answer),
    Look(Answer),
    Colour(Answer),
    Sync(Answer),
    Ten(Answer),
    Sheet(Answer, Vec<u8>),
    /// A choice of chip, which calls nothing.
    Choice,
}

impl Board {
    fn new() -> Board {
        let (a, b, c) = (chip_a::Chip::fresh(), chip_b::Chip::fresh(3, 5), chip_c::Chip::fresh());
        Board { a, b, c, chosen: Chosen::A }
    }

    fn write(&mut self, select: u8, data: u8) -> Told {
        match self.chosen {
            Chosen::A => Told::Ok(self.a.make(chip_a::Call::Write { select, data })),
            Chosen::B => Told::Moved(self.b.make(chip_b::Call::Write { select, data })),
            Chosen::C => Told::Ok(self.c.make(chip_c::Call::Write { port: select, data })),
        }
    }

    fn read(&mut self, select: u8) -> Told {
        Told::Value(match self.chosen {
            Chosen::A => self.a.make(chip_a::Call::Read { select }),
            Chosen::B => self.b.make(chip_b::Call::Read { select }),
            Chosen::C => self.c.make(chip_c::Call::Read { port: select }),
        })
    }

    fn look(&mut self, place: u32) -> Told {
        Told::Look(match self.chosen {
            Chosen::A => self.a.make(chip_a::Call::Look { place }),
            Chosen::B => self.b.make(chip_b::Call::Look { place }),
            Chosen::C => self.c.make(chip_c::Call::Look { place }),
        })
    }

    fn reset(&mut self) -> Told {
        Told::Ok(match self.chosen {
            Chosen::A => self.a.make(chip_a::Call::Reset),
            Chosen::B => self.b.make(chip_b::Call::Reset),
            Chosen::C => self.c.make(chip_c::Call::Reset),
        })
    }

    fn pixel(&mut self, digits: &[u8]) -> Option<Told> {
        match (self.chosen, digits) {
            (Chosen::A, [enable @ b'0'..=b'1', number, byte @ ..]) => {
                let number = hex(&[*number], 1)? as u8;
                let byte = hex(byte, 2)? as u8;
                Some(Told::Colour(self.a.make(chip_a::Call::Pixel { enable: enable - b'0', number, byte })))
            }
            (Chosen::B, [mode, word @ ..]) => {
                let mode = hex(&[*mode], 1)? as u8;
                let word = hex(word, 8)?;
                Some(Told::Colour(self.b.make(chip_b::Call::Pixel { mode, word })))
            }
            _ => None,
        }
    }

    fn sheet(&self) -> Told {
        let mut buffer = vec![0; 2_134];
        let answer = from_chip(&self.a.state, &self.a.colours, &self.a.overlays, &mut buffer);
        Told::Sheet(answer, buffer)
    }

    /// Makes the call that a line asks for; none if the line is bad.
    fn line(&mut self, line: &[u8]) -> Option<Told> {
        let (a, b) = (self.chosen == Chosen::A, self.chosen == Chosen::B);
        if let Some(name) = line.strip_prefix(b"chip=") {
            self.chosen = match name {
                b"153108" => Chosen::A,
                b"622424" => Chosen::B,
                b"640" => Chosen::C,
                _ => return None,
            };
            return Some(Told::Choice);
        }
        if let Some(digits) = line.strip_prefix(b"pixel=") {
            return self.pixel(digits);
        }
        if let Some(digits) = line.strip_prefix(b"blank=") {
            let slots = hex(digits, 8)?;
            return b.then(|| Told::Moved(self.b.make(chip_b::Call::Blank { slots })));
        }
        if let Some(digits) = line.strip_prefix(b"sync=") {
            let signals = hex(digits, 1)? as u8;
            return b.then(|| Told::Sync(self.b.make(chip_b::Call::Sync { signals })));
        }
        if let Some(digits) = line.strip_prefix(b"look=") {
            return Some(self.look(hex(digits, 5)?));
        }
        match line {
            [b'w', select, b'=', data @ ..] => {
                let select = hex(&[*select], 1)? as u8;
                let data = hex(data, 2)? as u8;
                Some(self.write(select, data))
            }
            [b'r', select] => Some(self.read(hex(&[*select], 1)? as u8)),
            b"reset" => Some(self.reset()),
            b"tick" => a.then(|| Told::Ok(self.a.make(chip_a::Call::Tick))),
            b"sheet" => a.then(|| self.sheet()),
            [b'e', b'x', b'p', b'a', b'n', b'd', b'=', width, component @ ..] => {
                Some(Told::Ten(chip_c::expand(hex(&[*width], 1)?, hex(component, 4)?)))
            }
            _ => None,
        }
    }
}

/// An answer's line, or a sheet's lines, with LF.
fn answer(told: Option<Told>) -> Vec<u8> {
    let (answer, accepted) = match told {
        None => return b"bad\n".to_vec(),
        Some(Told::Choice) => return b"ok\n".to_vec(),
        Some(Told::Ok(answer)) => (answer, b"ok\n".to_vec()),
        Some(Told::Moved(answer)) => (answer, format!("moved={}\n", answer.count).into_bytes()),
        Some(Told::Value(answer)) => (answer, format!("value={:02x}\n", answer.value).into_bytes()),
        Some(Told::Look(answer)) => (answer, format!("look={:04x}\n", answer.value).into_bytes()),
        Some(Told::Colour(answer)) => {
            let [red, green, blue] = answer.colour;
            (answer, format!("colour={:02x}{:02x}{:02x}\n", red, green, blue).into_bytes())
        }
        Some(Told::Sync(answer)) => (answer, format!("sync={:x}\n", answer.value).into_bytes()),
        Some(Told::Ten(answer)) => (answer, format!("ten={:03x}\n", answer.value).into_bytes()),
        Some(Told::Sheet(answer, sheet)) => (answer, sheet),
    };
    match answer.refusal {
        0 => accepted,
        refusal => format!("refused={}\n", refusal).into_bytes(),
    }
}

/// The bytes of a log to its answers, one for each line of the log.
pub fn replay(log: &[u8]) -> Vec<Vec<u8>> {
    let mut board = Board::new();
    let lines = log.split_inclusive(|b| *b == b'\n');
    lines.map(|line| answer(board.line(line.strip_suffix(b"\n").unwrap_or(line)))).collect()
}

#[cfg(test)]
mod tests {
    use super::*;
    use crate::sheet::loadlist;

    /// What is printed for a log.
    fn printed(log: &[u8]) -> Vec<u8> {
        replay(log).concat()
    }

    /// The log's lines and its answers, both written with spaces for LF.
    fn check(log: &str, answers: &str) {
        let text = String::from_utf8(printed(log.replace(' ', "\n").as_bytes())).unwrap();
        assert_eq!(text.trim_end().replace('\n', " "), answers, "{}", log);
    }

    #[test]
    fn lines_and_their_ends() {
        assert_eq!(printed(b""), b"");
        assert_eq!(printed(b"r0"), b"value=00\n");
        assert_eq!(printed(b"r0\n"), b"value=00\n");
        assert_eq!(printed(b"\n"), b"bad\n");
        assert_eq!(printed(b"r0\n\nr0"), b"value=00\nbad\nvalue=00\n");
        assert_eq!(printed(b"r0\r\n"), b"bad\n");
        assert_eq!(printed(b"\xff\xfe\n\0\n"), b"bad\nbad\n");
        assert_eq!(printed(&vec![b'r'; 100_000]), b"bad\n");
        assert_eq!(printed(b" r0\nr0 \nw0 =00\nR0\nr00\nr\nr8=\n"), b"bad\n".repeat(7));
    }

    #[test]
    fn chip_a_vectors() {
        check(
            "w0=10 w1=03 r0 w1=07 w1=02 w1=01 w0=10 r1 r1 r1",
            "ok ok value=10 ok ok ok ok value=07 value=02 value=01",
        );
        check("w2=00 r2 w8=00 rf pixel=1400 pixel=0f00", &("refused=3 ".repeat(4) + "refused=9 refused=9"));
        check(
            "w1=01 w1=02 w1=f3 pixel=0000 pixel=0300 pixel=1000",
            "ok ok ok colour=010203 colour=010203 colour=000000",
        );
        check("w7=00 tick tick tick tick", "ok ok ok ok ok");
    }

    #[test]
    fn the_blink_shows_in_the_answers() {
        let ticks = "tick ".repeat(4);
        let log = format!("w0=01 w1=09 w1=08 w1=07 pixel=0001 {0}pixel=0001 {0}pixel=0001", ticks);
        let oks = "ok ".repeat(4);
        check(&log, &format!("{0}colour=090807 {0}colour=000000 {0}colour=090807", oks));
    }

    #[test]
    fn chip_b_starts_reset_with_revision_3_and_board_5() {
        check("chip=622424 r6 r4 r3 reset r6", "ok value=53 value=18 value=03 ok value=53");
        check(
            "chip=622424 w2=01 w2=02 w2=03 w7=00 r2 blank=00000005 r2 w0=00 r2 r2 r2 r7",
            "ok moved=0 moved=0 moved=0 moved=0 refused=6 moved=1 value=00 \
             moved=0 value=01 value=02 value=03 value=00",
        );
        check("chip=622424 sync=f sync=0 sync=5 w3=0c sync=3", "ok sync=f sync=0 sync=5 moved=0 sync=c");
        check(
            "chip=622424 pixel=000000000 pixel=001000000 pixel=400000000 blank=0000ffff blank=00010000 \
             w4=00 w8=00 w2=1 r2",
            "ok colour=000000 refused=9 refused=9 moved=0 refused=9 refused=3 refused=3 bad refused=5",
        );
        let filled = "w2=aa ".repeat(192);
        let zeros = "moved=0 ".repeat(192);
        check(&format!("chip=622424 {}r4 w2=00 r4", filled), &format!("ok {}value=04 moved=4 value=15", zeros));
    }

    #[test]
    fn chip_c_vectors() {
        check(
            "chip=640 w4=ff w5=43 w6=ff w6=80 w6=00 r4 r5 w4=ff w5=83 r6 r6 r6 r6 w6=00 r3 w7=00",
            "ok ok ok ok ok ok value=00 value=40 ok ok value=ff value=80 value=00 value=00 \
             refused=4 refused=3 refused=3",
        );
        check("chip=640 w4=0e w6=a5 r6 reset r6 r4", "ok ok ok value=a5 ok refused=4 value=00");
    }

    #[test]
    fn looks_on_each_chip() {
        check(
            "w0=10 w1=03 look=00000 look=00001 look=00002 w1=07 w1=02 look=01030 look=01031 look=01032 look=00000",
            "ok ok look=0010 look=0001 look=0003 ok ok look=0003 look=0007 look=0002 look=0011",
        );
        check(
            "look=00008 look=00009 look=0010b look=0010c look=012ff look=01300",
            "look=0000 refused=3 look=0000 refused=3 look=0000 refused=3",
        );
        check(
            "chip=622424 w2=0a w2=0b w2=0c look=00008 look=10001 w7=00 look=10001 look=00005 blank=00000001 look=10001 \
             look=00008 look=00007 look=00006 look=15fff look=16000 look=0ffff look=fffff",
            "ok moved=0 moved=0 moved=0 look=0001 look=0000 moved=0 look=0000 look=0001 moved=1 look=000b \
             look=0000 look=0005 look=0003 look=0000 refused=3 refused=3 refused=3",
        );
        check(
            "chip=640 w4=ff w5=43 w6=ff w6=80 w6=00 look=10bfd look=10bfe look=10bff look=10c00 look=00000 look=00002 \
             look=00003 look=00007 look=00008",
            "ok ok ok ok ok ok look=03ff look=0202 look=0000 refused=3 look=4000 look=03ff \
             look=0202 look=0000 refused=3",
        );
    }

    #[test]
    fn choosing_a_chip_changes_nothing_on_it() {
        check(
            "w0=07 w1=01 chip=640 chip=153108 w1=02 w1=03 chip=622424 r0 chip=153108 w0=07 r1",
            "ok ok ok ok ok ok ok value=00 ok ok value=01",
        );
    }

    #[test]
    fn expand_on_any_chip() {
        let log = "expand=80080 expand=800ff expand=60004 expand=6003f expand=60040 expand=80100 expand=40003 \
                   expand=50001 expand=70010 expand=30000 expand=90000 expand=00000 expand=f0000 expand=40010";
        let answers = "ten=202 ten=3ff ten=041 ten=3ff refused=9 refused=9 ten=0cc \
                       ten=021 ten=081 refused=9 refused=9 refused=9 refused=9 refused=9";
        for chip in ["153108", "622424", "640"] {
            check(&format!("chip={} {}", chip, log), &format!("ok {}", answers));
        }
        for line in "expand=g0000 expand=A0000 expand=6000 expand=600000 expand=6003F expand= expand=9".split(' ') {
            check(line, "bad");
        }
    }

    #[test]
    fn bad_lines() {
        let bad = "chip=153109 chip= chip=64 chip=6400 chip W0=00 w0=0 w0=000 w0=0G w0=0A wA=00 w=00 w00=00 w0 w \
                   rA resets tick1 pixel=2000 pixel=f000 pixel=000 pixel=00000 pixel=00A0 pixel=000000000 \
                   blank=00000001 sync=0 sheet= sheets reset= tick= \t \
                   look look= look=0 look=0000 look=000000 look=0000A look=0000g look=00000= LOOK=00000 looks=00000";
        for line in bad.split(' ') {
            check(line, "bad");
        }
        let not_for_b = "tick sheet pixel=0000 pixel=0000000000 pixel=00000000 blank=0000001 blank=000000001 \
                         sync=00 sync= sync=A";
        for line in not_for_b.split(' ') {
            check(&format!("chip=622424 {}", line), "ok bad");
        }
        for line in "tick sheet pixel=0000 pixel=000000000 blank=00000001 sync=0".split(' ') {
            check(&format!("chip=640 {}", line), "ok bad");
        }
        // a bad choice leaves the choice as it was
        check("chip=622424 chip=641 r6", "ok bad value=53");
    }

    #[test]
    fn a_sheet_loads_and_prints() {
        let sheet = "chip=153108 readmask=00 blinkmask=ff overlay=40 timing=31 o1=f00 c10=0a5 c11=fff c20=123 ";
        let sheet = sheet.replace(' ', "\n");
        let log = loadlist(sheet.as_bytes()) + "sheet";
        let answers = String::from_utf8(printed(log.as_bytes())).unwrap();
        let lines: Vec<&str> = answers.split_inclusive('\n').collect();
        assert_eq!(lines.len(), 19 + 265);
        assert!(lines[..19].iter().all(|line| *line == "ok\n"));
        let printed = &lines[19..];
        assert_eq!(printed.concat().len(), 2_134);
        for line in sheet.split_inclusive('\n') {
            assert!(printed.contains(&line));
        }
        assert_eq!(printed.iter().filter(|line| line.ends_with("=000\n")).count(), 256);
    }
}
