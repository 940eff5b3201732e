//! Runs the Rust file on our scripts. The checks of a script and of the room are 01's, not the Rust's;
//! they are written here a second time, apart from the model's.

#[allow(dead_code)]
#[path = "HINT_SOURCE"]
mod hint;

pub use read_fonts::types::Fixed;
use read_fonts::ps::{charstring::CommandSink, Blues};
use std::cell::RefCell;
use std::rc::Rc;

/// Writes down what the hinter hands on, as the words of path records.
#[derive(Clone, Default)]
struct Recorder(Rc<RefCell<Vec<i32>>>);

impl Recorder {
    fn put(&self, kind: i32, values: &[Fixed]) {
        let mut words = self.0.borrow_mut();
        words.push(kind);
        words.extend(values.iter().map(|value| value.to_bits()));
    }
}

impl CommandSink for Recorder {
    fn move_to(&mut self, x: Fixed, y: Fixed) {
        self.put(1, &[x, y]);
    }

    fn line_to(&mut self, x: Fixed, y: Fixed) {
        self.put(2, &[x, y]);
    }

    fn curve_to(&mut self, x1: Fixed, y1: Fixed, x2: Fixed, y2: Fixed, x: Fixed, y: Fixed) {
        self.put(3, &[x1, y1, x2, y2, x, y]);
    }

    fn close(&mut self) {
        self.put(4, &[]);
    }

    fn finish(&mut self) {
        self.put(5, &[]);
    }
}

const LENGTHS: [usize; 10] = [0, 3, 3, 3, 1, 3, 3, 7, 1, 1];

fn word_at(script: &[u8], place: usize) -> i64 {
    let mut bytes = [0; 4];
    bytes.copy_from_slice(&script[place * 4..place * 4 + 4]);
    i32::from_le_bytes(bytes) as i64
}

/// The first fault that 01's table finds, as number and place.
fn fault(script: &[u8]) -> Option<(i32, usize)> {
    if script.len() < 32 || script.len() > 65_536 || script.len() & 3 != 0 {
        return Some((1, 0));
    }
    let size = (script.len() / 4) as i64;
    let w: Vec<i64> = (0..8).map(|place| word_at(script, place)).collect();
    let header = [
        (w[0] == 1, 0),
        (w[2] == 8, 2),
        (w[3] >= 8 && w[3] <= 64, 3),
        (w[4] == w[3] + 8, 4),
        (w[5] >= 0 && w[5] <= size - w[4], 5),
        (w[6] == w[4] + w[5], 6),
        (w[7] >= 0 && w[6] + w[7].div_euclid(4) + (w[7] % 4 != 0) as i64 == size, 7),
    ];
    if let Some(&(_, place)) = header.iter().find(|(holds, _)| !holds) {
        return Some((1, place));
    }
    let mask_bytes = &script[w[6] as usize * 4..];
    if mask_bytes[w[7] as usize..].iter().any(|&byte| byte > 0) {
        return Some((1, 7));
    }
    if w[1] <= 0 {
        return Some((2, 1));
    }
    let mut parameters = 8;
    for place in 12..=15 {
        let pairs = word_at(script, place);
        if pairs < 0 || pairs > 7 {
            return Some((3, place));
        }
        parameters += 2 * pairs;
    }
    if parameters != w[3] {
        return Some((1, 3));
    }
    let end = w[6] as usize;
    let mut place = w[4] as usize;
    while place < end {
        let kind = word_at(script, place);
        if kind < 1 || kind > 9 || end - place < LENGTHS[kind as usize] {
            return Some((4, place));
        }
        if kind == 2 || kind == 3 {
            let from = word_at(script, place + 1);
            let count = word_at(script, place + 2);
            if from < 0 || count < 0 || from > w[7] - count {
                return Some((5, place));
            }
        }
        place += LENGTHS[kind as usize];
    }
    None
}

/// Runs a script into the lent words and answers number and place.
pub fn run(script: &[u8], out: &mut [i32]) -> (i32, i32) {
    if let Some((number, place)) = fault(script) {
        return (number, place as i32);
    }
    let word = |place: usize| word_at(script, place) as i32;
    let fixed = |place: usize| Fixed::from_bits(word(place));
    let first = word(4) as usize;
    let end = word(6) as usize;
    if out.len() < 4 {
        return (6, first as i32);
    }
    let mut from = 16;
    let mut list = |count: i32| {
        let past = from + 2 * count as usize;
        let blues = Blues::new((from..past).map(fixed));
        from = past;
        blues
    };
    let params = hint::HintParams {
        blues: list(word(12)),
        other_blues: list(word(13)),
        family_blues: list(word(14)),
        family_other_blues: list(word(15)),
        blue_scale: fixed(8),
        blue_shift: fixed(9),
        blue_fuzz: fixed(10),
        language_group: word(11),
    };
    let state = hint::HintState::new(&params, fixed(1));
    let recorder = Recorder::default();
    let mut lent_recorder = recorder.clone();
    let mut hinter = hint::HintingSink::new(&state, &mut lent_recorder);
    let mut used = 4;
    let mut records = 0;
    let mut place = first;
    while place < end {
        let kind = word(place);
        let value = |number: usize| fixed(place + number);
        let mask = || {
            let start = end * 4 + word(place + 1) as usize;
            &script[start..start + word(place + 2) as usize]
        };
        match kind {
            1 => hinter.hstem(value(1), value(2)),
            2 => hinter.hint_mask(mask()),
            3 => hinter.counter_mask(mask()),
            4 => hinter.clear_hints(),
            5 => hinter.move_to(value(1), value(2)),
            6 => hinter.line_to(value(1), value(2)),
            7 => hinter.curve_to(value(1), value(2), value(3), value(4), value(5), value(6)),
            8 => hinter.close(),
            _ => hinter.finish(),
        }
        let words = recorder.0.take();
        if words.len() > out.len() - used {
            return (6, place as i32);
        }
        let mut at = 0;
        while at < words.len() {
            records += 1;
            at += [0, 3, 3, 7, 1, 1][words[at] as usize];
        }
        for word in words {
            out[used] = word;
            used += 1;
        }
        place += LENGTHS[kind as usize];
    }
    out[0] = 1;
    out[1] = records;
    out[2] = 4;
    out[3] = used as i32 - 4;
    (0, 0)
}
