//! Leaner ways into the Rust file than the comparison's driver, into whose crate this module is put. That driver makes
//! a list for each command that has records, and copies it; here records go straight into the lent words.

use super::{fault, hint, word_at, Fixed, LENGTHS};
use read_fonts::ps::{charstring::CommandSink, Blues};

/// Writes records into the lent words until one does not fit.
pub(super) struct Plain<'a> {
    pub(super) out: &'a mut [i32],
    pub(super) used: usize,
    pub(super) records: i32,
    pub(super) full: bool,
}

impl Plain<'_> {
    #[inline]
    fn put<const N: usize>(&mut self, words: [i32; N]) {
        match self.out.get_mut(self.used..self.used + N) {
            Some(room) => {
                room.copy_from_slice(&words);
                self.used += N;
                self.records += 1;
            }
            None => self.full = true,
        }
    }
}

impl CommandSink for Plain<'_> {
    fn move_to(&mut self, x: Fixed, y: Fixed) {
        self.put([1, x.to_bits(), y.to_bits()]);
    }

    fn line_to(&mut self, x: Fixed, y: Fixed) {
        self.put([2, x.to_bits(), y.to_bits()]);
    }

    fn curve_to(&mut self, x1: Fixed, y1: Fixed, x2: Fixed, y2: Fixed, x: Fixed, y: Fixed) {
        self.put([3, x1.to_bits(), y1.to_bits(), x2.to_bits(), y2.to_bits(), x.to_bits(), y.to_bits()]);
    }

    fn close(&mut self) {
        self.put([4]);
    }

    fn finish(&mut self) {
        self.put([5]);
    }
}

/// One command, its operands taken from the script.
#[derive(Clone, Copy)]
enum Step<'a> {
    Stem(Fixed, Fixed),
    Mask(&'a [u8]),
    Counter(&'a [u8]),
    Clear,
    Move(Fixed, Fixed),
    Line(Fixed, Fixed),
    Curve([Fixed; 6]),
    Close,
    Finish,
}

fn fixed(script: &[u8], place: usize) -> Fixed {
    Fixed::from_bits(word_at(script, place) as i32)
}

/// The command at a place of a script that passes all checks, and the place of the next.
#[inline]
fn step_at(script: &[u8], place: usize, end: usize) -> (Step<'_>, usize) {
    let kind = word_at(script, place) as usize;
    let value = |number: usize| fixed(script, place + number);
    let mask = || {
        let start = end * 4 + word_at(script, place + 1) as usize;
        &script[start..start + word_at(script, place + 2) as usize]
    };
    let step = match kind {
        1 => Step::Stem(value(1), value(2)),
        2 => Step::Mask(mask()),
        3 => Step::Counter(mask()),
        4 => Step::Clear,
        5 => Step::Move(value(1), value(2)),
        6 => Step::Line(value(1), value(2)),
        7 => Step::Curve([value(1), value(2), value(3), value(4), value(5), value(6)]),
        8 => Step::Close,
        _ => Step::Finish,
    };
    (step, place + LENGTHS[kind])
}

#[inline]
fn take(hinter: &mut impl CommandSink, step: Step) {
    match step {
        Step::Stem(min, max) => hinter.hstem(min, max),
        Step::Mask(mask) => hinter.hint_mask(mask),
        Step::Counter(mask) => hinter.counter_mask(mask),
        Step::Clear => hinter.clear_hints(),
        Step::Move(x, y) => hinter.move_to(x, y),
        Step::Line(x, y) => hinter.line_to(x, y),
        Step::Curve([x1, y1, x2, y2, x, y]) => hinter.curve_to(x1, y1, x2, y2, x, y),
        Step::Close => hinter.close(),
        Step::Finish => hinter.finish(),
    }
}

/// The zones of a script that passes all checks.
fn zones(script: &[u8]) -> hint::HintState {
    let mut from = 16;
    let mut list = |place: usize| {
        let past = from + 2 * word_at(script, place) as usize;
        let blues = Blues::new((from..past).map(|at| fixed(script, at)));
        from = past;
        blues
    };
    let params = hint::HintParams {
        blues: list(12),
        other_blues: list(13),
        family_blues: list(14),
        family_other_blues: list(15),
        blue_scale: fixed(script, 8),
        blue_shift: fixed(script, 9),
        blue_fuzz: fixed(script, 10),
        language_group: word_at(script, 11) as i32,
    };
    hint::HintState::new(&params, fixed(script, 1))
}

fn ended(sink: Plain) -> bool {
    let Plain { out, used, records, full } = sink;
    out[..4].copy_from_slice(&[1, records, 4, used as i32 - 4]);
    !full
}

/// Checks a script, makes its zones and runs its commands as they are read. Says whether all went well; the lent
/// words must be 4 or more.
pub fn whole(script: &[u8], out: &mut [i32]) -> bool {
    if fault(script).is_some() {
        return false;
    }
    let state = zones(script);
    let mut sink = Plain { out, used: 4, records: 0, full: false };
    let mut hinter = hint::HintingSink::new(&state, &mut sink);
    let end = word_at(script, 6) as usize;
    let mut place = word_at(script, 4) as usize;
    while place < end {
        let (step, next) = step_at(script, place, end);
        take(&mut hinter, step);
        place = next;
    }
    ended(sink)
}

/// A script that was checked and taken apart, with its zones.
pub struct Parsed<'a> {
    state: hint::HintState,
    steps: Vec<Step<'a>>,
}

pub fn parse(script: &[u8]) -> Parsed<'_> {
    assert!(fault(script).is_none());
    let end = word_at(script, 6) as usize;
    let mut place = word_at(script, 4) as usize;
    let mut steps = Vec::new();
    while place < end {
        let (step, next) = step_at(script, place, end);
        steps.push(step);
        place = next;
    }
    Parsed { state: zones(script), steps }
}

/// Runs the hinter alone. The lent words must be 4 or more.
pub fn hinter_alone(parsed: &Parsed, out: &mut [i32]) -> bool {
    let mut sink = Plain { out, used: 4, records: 0, full: false };
    let mut hinter = hint::HintingSink::new(&parsed.state, &mut sink);
    for &step in &parsed.steps {
        take(&mut hinter, step);
    }
    ended(sink)
}
