//! Random port logs for the comparison.
//!
//! No page decides here. A log's lines are the calls of gen.rs's runs, load lists, components to expand and malformed
//! lines, on the chip chosen or on another.
use crate::gen::{run_a, run_b, run_c, Random};
use crate::gen_sheet::{any_sheet, damage, good_sheet};
use crate::{chip_a, chip_b, chip_c, sheet};

fn look_line(place: u32) -> String {
    format!("look={:05x}", place)
}

/// The log line of a call; a call that the log cannot say becomes a bad line.
fn line_a(call: chip_a::Call) -> String {
    match call {
        chip_a::Call::Write { select, data } => format!("w{:x}={:02x}", select, data),
        chip_a::Call::Read { select } => format!("r{:x}", select),
        chip_a::Call::Look { place } => look_line(place),
        chip_a::Call::Reset => "reset".to_string(),
        chip_a::Call::Tick => "tick".to_string(),
        chip_a::Call::Pixel { enable, number, byte } => format!("pixel={:x}{:x}{:02x}", enable, number, byte),
    }
}

fn line_b(call: chip_b::Call) -> String {
    match call {
        chip_b::Call::Write { select, data } => format!("w{:x}={:02x}", select, data),
        chip_b::Call::Read { select } => format!("r{:x}", select),
        chip_b::Call::Look { place } => look_line(place),
        chip_b::Call::Blank { slots } => format!("blank={:08x}", slots),
        chip_b::Call::Pixel { mode, word } => format!("pixel={:x}{:08x}", mode, word),
        chip_b::Call::Sync { signals } => format!("sync={:x}", signals),
        chip_b::Call::Reset => "reset".to_string(),
    }
}

fn line_c(call: chip_c::Call) -> String {
    match call {
        chip_c::Call::Write { port, data } => format!("w{:x}={:02x}", port, data),
        chip_c::Call::Read { port } => format!("r{:x}", port),
        chip_c::Call::Look { place } => look_line(place),
        chip_c::Call::Reset => "reset".to_string(),
    }
}

fn expand_line(r: &mut Random) -> String {
    let limit = r.pick(&[20, 70, 300, 65_536]);
    let any = r.below(16);
    format!("expand={:x}{:04x}", r.pick(&[4, 5, 6, 7, 8, 8, 3, 9, any]), r.below(limit))
}

/// Some lines of a log, after the choice of a chip: mostly the chip that they are for.
fn task_lines(r: &mut Random) -> Vec<String> {
    let length = 1 + r.below(20);
    let (chip, mut lines): (&str, Vec<String>) = match r.below(12) {
        0..=2 => ("153108", run_a(r, length).into_iter().map(line_a).collect()),
        3..=6 => ("622424", run_b(r, length).into_iter().map(line_b).collect()),
        7 | 8 => ("640", run_c(r, length).into_iter().map(line_c).collect()),
        9 => {
            let sheet = if r.one_in(4) { any_sheet(r) } else { good_sheet(r) };
            ("153108", (sheet::loadlist(&sheet) + "sheet").lines().map(String::from).collect())
        }
        10 => ("640", (0..length).map(|_| expand_line(r)).collect()),
        _ => {
            let all = "tick sheet reset sync=5 blank=00000003 pixel=0012 pixel=000000012 r0 w0=00 r f chip= chip=64 \
                       look=00004 look=00009 look=0000c look=10000 look= look=0000 look=000000 look=0000F look=1000g \
                       look=fffff";
            ("622424", all.split(' ').filter(|_| r.one_in(3)).map(String::from).collect())
        }
    };
    match r.below(12) {
        0 => {}
        1 => lines.insert(0, format!("chip={}", r.pick(&["153108", "622424", "640"]))),
        _ => lines.insert(0, format!("chip={}", chip)),
    }
    lines
}

/// A log of at least so many tasks. One log in three is good; else about one line in a hundred is damaged.
pub fn log(r: &mut Random, tasks: usize) -> Vec<u8> {
    let good = r.one_in(3);
    let mut log = Vec::new();
    for line in (0..tasks).flat_map(|_| task_lines(r)).collect::<Vec<String>>() {
        let mut line = (line + "\n").into_bytes();
        if !good && r.one_in(100) {
            damage(r, &mut line);
        }
        if !good && r.one_in(2_000) {
            line = r.bytes(300);
        }
        log.extend(line);
    }
    if r.one_in(2) {
        log.pop();
    }
    log
}

#[cfg(test)]
mod tests {
    use super::*;
    use crate::replay::replay;
    use std::collections::BTreeSet;

    #[test]
    fn logs_meet_every_answer() {
        let mut r = Random::new(7);
        let mut seen = BTreeSet::new();
        for _ in 0..20 {
            let log = log(&mut r, 40);
            let answers = String::from_utf8(replay(&log).concat()).unwrap();
            let sheets = answers.matches("chip=153108\n").count();
            let log_lines = log.split_inclusive(|b| *b == b'\n').count();
            assert_eq!(answers.lines().count(), log_lines + 264 * sheets);
            for line in answers.lines() {
                let long_move = line.starts_with("moved=") && line.len() == 8;
                seen.insert(if long_move { "moved=NN" } else { line }.to_string());
                seen.insert(line.split('=').next().unwrap().to_string());
            }
        }
        let expected = "ok moved=0 moved=4 moved=NN value look colour sync ten chip=153108 cff bad \
                        refused=3 refused=4 refused=5 refused=6 refused=9";
        for answer in expected.split(' ') {
            assert!(seen.contains(answer), "{}", answer);
        }
        for refusal in [1, 2, 7, 8] {
            assert!(!seen.contains(&format!("refused={}", refusal)));
        }
    }
}
