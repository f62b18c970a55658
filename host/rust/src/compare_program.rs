//! The programs `replay` and `loadlist`, run on the same logs and sheets as the second implementation.
use crate::check::Test;
use crate::compare::times;
use crate::gen::Random;
use crate::{gen_log, gen_sheet, replay, sheet};
use std::collections::BTreeMap;
use std::fs::{create_dir_all, remove_file, write, File};
use std::process::Command;

const LOGS: usize = 24;
const LOG_TASKS: usize = 400;
const SHEETS: usize = 60;

/// What a program does with the input in a file: what it prints, what it says on standard error, and its status.
struct Ran {
    printed: Vec<u8>,
    said: String,
    status: i32,
}

fn run(program: &str, input: &str) -> Ran {
    let input = File::open(input).expect("the input just written");
    let run = Command::new("./zikombaru").arg(program).stdin(input).output().expect("./zikombaru runs");
    let said = String::from_utf8_lossy(&run.stderr).into_owned();
    Ran { printed: run.stdout, said, status: run.status.code().unwrap_or(-1) }
}

/// An input in a file, which stays there where the two differ on it.
fn kept(name: &str, number: usize, input: &[u8]) -> String {
    create_dir_all("target/test").expect("target/test");
    let file = format!("target/test/{}_{}", name, number);
    write(&file, input).expect("a file in target/test");
    file
}

fn text(bytes: &[u8]) -> String {
    let start = &bytes[..bytes.len().min(80)];
    String::from_utf8_lossy(start).into_owned()
}

/// The kind of an answer: its line, without a value or a colour.
fn kind(answer: &[u8]) -> String {
    let line = text(answer.split(|b| *b == b'\n').next().unwrap());
    match line.split_once('=') {
        Some(("refused" | "moved" | "chip", _)) | None => line,
        Some((name, _)) => name.to_string(),
    }
}

/// One log: its answers line by line.
fn log(t: &mut Test, number: usize, log: &[u8], met: &mut BTreeMap<String, usize>) {
    let file = kept("log", number, log);
    let Ran { printed: ours, said, status } = run("replay", &file);
    t.same(|| format!("standard error and status for {}", file), &(said, status), &(String::new(), 0));
    let (mut at, mut same) = (0, true);
    for (i, (line, answer)) in log.split_inclusive(|b| *b == b'\n').zip(replay::replay(log)).enumerate() {
        let told = &ours[at..ours.len().min(at + answer.len())];
        t.same(|| format!("line {} of {}, {:?}", i + 1, file, text(line)), &text(told), &text(&answer));
        t.same(|| format!("the whole answer to line {} of {}", i + 1, file), &(told == answer), &true);
        same &= told == answer;
        at += told.len();
        *met.entry(kind(&answer)).or_insert(0) += 1;
    }
    t.same(|| format!("what is printed after the answers to {}", file), &text(&ours[at..]), &String::new());
    if same {
        remove_file(&file).expect("the file just read");
    }
}

/// Random logs: they fill the queue, tear colours, cross the wraps and switch modes; each answer must have been met.
pub fn logs(t: &mut Test) {
    let mut r = Random::new(t.random());
    let mut met = BTreeMap::new();
    for number in 0..LOGS * times() {
        log(t, number, &gen_log::log(&mut r, LOG_TASKS), &mut met);
    }
    let kinds = "ok moved=0 moved=4 value look colour sync ten chip=153108 bad \
                 refused=3 refused=4 refused=5 refused=6 refused=9";
    for kind in kinds.split(' ') {
        t.same(|| format!("{} met often", kind), &(met.get(kind).map_or(0, |n| *n) > 20), &true);
    }
}

/// Status and standard error: of a good sheet 0 and nothing, of a refused one 1 and its line with a reason.
fn told(t: &mut Test, file: &str, ran: &Ran, second: &str) {
    let (status, line) = match second.strip_prefix("refused=8\nline=") {
        Some(line) => (1, format!("zikombaru: standard input, line {}: ", line.trim_end())),
        None => (0, String::new()),
    };
    let reason = ran.said.strip_prefix(line.as_str()).unwrap_or("").trim_end();
    let fits = !reason.is_empty() && !reason.ends_with("no line of a sheet");
    let told = if status == 0 { ran.said.is_empty() } else { fits };
    t.same(|| format!("the status for {}", file), &ran.status, &status);
    t.same(|| format!("a reason for {}, in {:?}", file, ran.said), &told, &true);
}

/// Random sheets, as `loadlist` prints their calls or their first bad line.
pub fn sheets(t: &mut Test) {
    let mut r = Random::new(t.random());
    let (mut good, mut bad) = (0, 0);
    for number in 0..SHEETS * times() {
        let input = gen_sheet::any_sheet(&mut r);
        let file = kept("sheet", number, &input);
        let second = sheet::loadlist(&input).into_bytes();
        let ran = run("loadlist", &file);
        told(t, &file, &ran, &text(&second));
        let ours = ran.printed;
        t.same(|| format!("the start of what is printed for {}", file), &text(&ours), &text(&second));
        t.same(|| format!("all that is printed for {}", file), &(ours == second), &true);
        if ours == second {
            remove_file(&file).expect("the file just read");
        }
        *if second.starts_with(b"refused") { &mut bad } else { &mut good } += 1;
    }
    t.same(|| "good and bad sheets met often".to_string(), &(good > 10, bad > 10), &(true, true));
}
