//! A label run through the Rust file, in the same steps as ours: lengths, scale and counts, then the commands and the
//! record words of all glyphs, then zones that are made once, and a new hinter for each glyph.

use super::lean::Plain;
use super::{hint, Fixed, LENGTHS};
use read_fonts::ps::{charstring::CommandSink, Blues};

/// The words of a result before the first offset.
const HEADER: usize = 2;
const MOST_GLYPHS: usize = 64;
const MOST_PAIRS: i32 = 7;
/// Where the lists stand among the parameters, and how many words each takes.
const LISTS: usize = 8;
const LIST: usize = 14;

pub struct Label<'a> {
    pub scale: i32,
    pub params: &'a [i32; 64],
    pub commands: &'a [i32],
    pub masks: &'a [u8],
    pub lengths: &'a [i32],
}

impl<'a> Label<'a> {
    /// Whether the lengths are those of glyphs that fill both lists.
    fn is_counted(&self) -> bool {
        let sum = |first: usize| self.lengths.iter().skip(first).step_by(2).map(|&length| length as usize).sum();
        self.lengths.len() % 2 == 0
            && self.lengths.len() <= 2 * MOST_GLYPHS
            && self.lengths.iter().all(|&length| length >= 0)
            && self.commands.len() == sum(0)
            && self.masks.len() == sum(1)
    }

    fn has_numbers(&self) -> bool {
        self.scale >= 1 && self.params[4..LISTS].iter().all(|count| (0..=MOST_PAIRS).contains(count))
    }

    /// The command words and the mask bytes of each glyph.
    fn glyphs(&self) -> impl Iterator<Item = (&'a [i32], &'a [u8])> {
        let (mut commands, mut masks) = (self.commands, self.masks);
        self.lengths.chunks_exact(2).map(move |lengths| {
            let (words, bytes);
            (words, commands) = commands.split_at(lengths[0] as usize);
            (bytes, masks) = masks.split_at(lengths[1] as usize);
            (words, bytes)
        })
    }

    fn zones(&self) -> hint::HintState {
        let fixed = |place: usize| Fixed::from_bits(self.params[place]);
        let list = |number: usize| {
            let first = LISTS + LIST * number;
            Blues::new((first..first + 2 * self.params[4 + number] as usize).map(fixed))
        };
        let params = hint::HintParams {
            blues: list(0),
            other_blues: list(1),
            family_blues: list(2),
            family_other_blues: list(3),
            blue_scale: fixed(0),
            blue_shift: fixed(1),
            blue_fuzz: fixed(2),
            language_group: self.params[3],
        };
        hint::HintState::new(&params, Fixed::from_bits(self.scale))
    }
}

/// The points that decide how many words a glyph's records have.
#[derive(Default)]
struct Trail {
    start: Option<[i32; 2]>,
    waiting: Option<[i32; 2]>,
}

impl Trail {
    fn closed(&mut self) -> usize {
        match (self.start.take(), self.waiting.take()) {
            (Some(start), Some(line)) if line != start => 4,
            (Some(_), _) => 1,
            _ => 0,
        }
    }

    /// The words of a command's records.
    fn words(&mut self, command: &[i32]) -> usize {
        let waited = |line: Option<[i32; 2]>| if line.is_some() { 3 } else { 0 };
        match *command {
            [5, x, y] => {
                let words = self.closed() + 3;
                self.start = Some([x, y]);
                words
            }
            [6, x, y] => waited(self.waiting.replace([x, y])),
            [7, ..] => waited(self.waiting.take()) + 7,
            [9] => self.closed() + 1,
            _ => 0,
        }
    }
}

/// The record words of a glyph, or nothing if it has a fault.
fn record_words(commands: &[i32], masks: &[u8]) -> Option<usize> {
    let mut trail = Trail::default();
    let mut words = 0;
    let mut place = 0;
    while place < commands.len() {
        let kind = commands[place];
        if !(1..=9).contains(&kind) {
            return None;
        }
        let command = commands.get(place..place + LENGTHS[kind as usize])?;
        if let [2 | 3, start, length] = *command {
            if start < 0 || length < 0 || start as usize + length as usize > masks.len() {
                return None;
            }
        }
        words += trail.words(command);
        place += command.len();
    }
    Some(words)
}

/// The words of header and records, or nothing if a glyph has a fault.
fn result_words(label: &Label) -> Option<usize> {
    let mut words = HEADER + label.lengths.len();
    for (commands, masks) in label.glyphs() {
        words += record_words(commands, masks)?;
    }
    Some(words)
}

/// One command of a glyph that passes all checks.
#[inline]
fn take(hinter: &mut impl CommandSink, command: &[i32], masks: &[u8]) {
    let fixed = Fixed::from_bits;
    let mask = |start: i32, length: i32| &masks[start as usize..][..length as usize];
    match *command {
        [1, min, max] => hinter.hstem(fixed(min), fixed(max)),
        [2, start, length] => hinter.hint_mask(mask(start, length)),
        [3, start, length] => hinter.counter_mask(mask(start, length)),
        [4] => hinter.clear_hints(),
        [5, x, y] => hinter.move_to(fixed(x), fixed(y)),
        [6, x, y] => hinter.line_to(fixed(x), fixed(y)),
        [7, x1, y1, x2, y2, x, y] => {
            hinter.curve_to(fixed(x1), fixed(y1), fixed(x2), fixed(y2), fixed(x), fixed(y))
        }
        [8] => hinter.close(),
        _ => hinter.finish(),
    }
}

/// Says whether all went well.
pub fn whole(label: &Label, out: &mut [i32]) -> bool {
    if !label.is_counted() || !label.has_numbers() {
        return false;
    }
    if !result_words(label).is_some_and(|words| words <= out.len()) {
        return false;
    }
    let state = label.zones();
    let mut sink = Plain { out, used: HEADER + label.lengths.len(), records: 0, full: false };
    sink.out[..HEADER].copy_from_slice(&[1, label.lengths.len() as i32 / 2]);
    for (number, (commands, masks)) in label.glyphs().enumerate() {
        let first = sink.used;
        let mut hinter = hint::HintingSink::new(&state, &mut sink);
        let mut place = 0;
        while place < commands.len() {
            let next = place + LENGTHS[commands[place] as usize];
            take(&mut hinter, &commands[place..next], masks);
            place = next;
        }
        let words = sink.used - first;
        sink.out[HEADER + 2 * number..][..2].copy_from_slice(&[first as i32, words as i32]);
    }
    !sink.full
}
