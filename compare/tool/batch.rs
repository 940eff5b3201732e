//! Comparisons with commands that speak the batch protocol or that read one script.

use crate::reduce;
use crate::scripts::Tally;
use crate::sides::{self, Answer, Side};
use generate::parts::join;
use generate::{batch, case, cases, Case};
use std::io::{BufReader, BufWriter, Read, Write};
use std::process::{Child, Command, ExitStatus, Stdio};
use std::time::Instant;

fn words_of(bytes: &[u8]) -> impl Iterator<Item = i32> + '_ {
    bytes.chunks_exact(4).map(|four| i32::from_le_bytes([four[0], four[1], four[2], four[3]]))
}

fn start(command: &str, rest: &[&str]) -> Child {
    let started = Command::new(command).args(rest).stdin(Stdio::piped()).stdout(Stdio::piped()).spawn();
    started.unwrap_or_else(|error| crate::cannot(&format!("{command}: {error}")))
}

/// Ends the tool where a command says by its status that it cannot run here, as tools/x86 does.
fn must_have_run(command: &str, status: ExitStatus) {
    if status.code() == Some(crate::CANNOT) {
        crate::cannot(&format!("{command} cannot run here"));
    }
}

/// How many cases with a difference are shown.
const SHOWN: u64 = 5;

/// Keeps the counts, and shows the first cases on which the other side differs from the model, or
/// the model from the Rust.
struct Judge {
    tally: Tally,
    oracle: Side,
    judged: u64,
    differ: u64,
    began: Instant,
}

impl Judge {
    fn new() -> Judge {
        Judge {
            tally: Tally::new(vec!["other/model", "other/Rust", "model/Rust"]),
            oracle: sides::oracle(),
            judged: 0,
            differ: 0,
            began: Instant::now(),
        }
    }

    /// Judges an answer beside those of the model and the Rust, which `answer` gives.
    fn judge(&mut self, case: &Case, number: u64, other: &Answer, answer: impl Fn(Side) -> Answer) {
        let (ours, theirs) = (answer(sides::MODEL), answer(self.oracle));
        let differ = [*other != ours, *other != theirs, ours != theirs];
        self.tally.note(case.family, other.number, &differ);
        self.judged += 1;
        if differ[0] || differ[2] {
            self.differ += 1;
            if self.differ <= SHOWN {
                println!(
                    "Case {number} differs{}:",
                    if differ[2] { ", and the model from the Rust" } else { " from the model" }
                );
                println!("  other     answers {} at {}: {}", other.number, other.place, join(&other.words));
                reduce::show(case, &[sides::MODEL, self.oracle]);
            }
        }
    }

    fn end(&self) -> bool {
        self.tally.print();
        println!("{} scripts in {:.1} s.", self.judged, self.began.elapsed().as_secs_f64());
        self.differ == 0
    }
}

/// Sends the cases to a command that speaks the batch protocol and hands its answers on until told to stop.
fn each_answer(
    seed: u64,
    count: u64,
    command: &str,
    rest: &[&str],
    mut take: impl FnMut(u64, Case, Answer) -> bool,
) -> bool {
    let mut child = start(command, rest);
    let to = child.stdin.take().unwrap();
    let mut from = BufReader::new(child.stdout.take().unwrap());
    let writer = std::thread::spawn(move || {
        let mut to = BufWriter::new(to);
        for case in cases(seed, count) {
            if to.write_all(&batch::request(&case)).is_err() {
                return;
            }
        }
    });
    let mut stopped = None;
    for (number, case) in (0..).zip(cases(seed, count)) {
        let mut bytes = vec![0; 8 + 4 * case.room];
        if from.read_exact(&mut bytes).is_err() {
            stopped = Some(number);
            break;
        }
        let mut words = words_of(&bytes);
        let answer = Answer { number: words.next().unwrap(), place: words.next().unwrap(), words: words.collect() };
        if !take(number, case, answer) {
            break;
        }
    }
    drop(from);
    let _ = writer.join();
    let status = child.wait().expect("a command that was started ends");
    if let Some(number) = stopped {
        must_have_run(command, status);
        println!("The other side gave no answer to case {number}; it ended with {status}.");
    }
    stopped.is_none()
}

/// Compares such a command with the model and the Rust.
pub fn against(seed: u64, count: u64, command: &str, rest: &[&str]) -> bool {
    let mut judge = Judge::new();
    let whole = each_answer(seed, count, command, rest, |number, case, other| {
        judge.judge(&case, number, &other, |side| side.answer(&case));
        true
    });
    judge.end() && whole
}

/// Says on which case such a command first differs from the Rust or stops.
pub fn detect(seed: u64, count: u64, command: &str, rest: &[&str]) -> bool {
    let mut found = false;
    let oracle = sides::oracle();
    let whole = each_answer(seed, count, command, rest, |number, case, other| {
        found = other != oracle.answer(&case);
        if found {
            println!("seen at case {number}, in {}", generate::FAMILIES[case.family]);
        }
        !found
    });
    found || !whole
}

/// Stands for the number and the place where a program gave none or did not end well.
const NONE: i32 = -1;

/// Compares a program that reads one script and lends the program's room with the model and the Rust.
pub fn program(seed: u64, count: u64, command: &str, rest: &[&str]) -> bool {
    let mut judge = Judge::new();
    for number in 0..count {
        let case = Case { room: sides::PROGRAM_ROOM, ..case(seed, number) };
        let mut child = start(command, rest);
        // A program that has read enough of an overlong script may stop reading.
        let _ = child.stdin.take().unwrap().write_all(&case.script);
        let output = child.wait_with_output().expect("the program's output can be read");
        must_have_run(command, output.status);
        let sound = output.status.success() && output.stdout.len() % 4 == 0;
        let mut words = words_of(if sound { &output.stdout } else { &[] });
        let other = Answer {
            number: words.next().unwrap_or(NONE),
            place: words.next().unwrap_or(NONE),
            words: words.collect(),
        };
        let written = |side: Side| {
            let mut answer = side.answer(&case);
            let length = if answer.number == 0 { 4 + answer.words[3] as usize } else { 0 };
            answer.words.truncate(length);
            answer
        };
        judge.judge(&case, number, &other, written);
    }
    judge.end()
}
