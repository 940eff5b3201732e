//! A word of labels as each side runs it: by one label run, by a script for each label, and by the Rust.

use crate::library;
use crate::timing::Case;
use crate::words::Word;
use generate::Script;
use rust_label_side::lean_label;

pub const SIDES: [&str; 3] = ["label run", "ours, a script for each label", "the Rust, label run"];
/// How many words are run between two looks at the clock.
pub const BLOCK: usize = 2;
const RESULT_HEADER: usize = 4;

/// The results of the scripts stand one behind the other, each in room of its own.
pub struct Labels {
    word: Word,
    scripts: Vec<Vec<u8>>,
    rooms: Vec<usize>,
    room: usize,
}

impl Labels {
    pub fn of(letters: &[Script]) -> Labels {
        let rooms: Vec<usize> = letters.iter().map(Script::most_words).collect();
        Labels {
            word: Word::of(letters),
            scripts: letters.iter().map(Script::bytes).collect(),
            room: rooms.iter().sum(),
            rooms,
        }
    }

    fn run_scripts(&self, mut out: &mut [i32]) -> bool {
        for (script, &room) in self.scripts.iter().zip(&self.rooms) {
            let (own, rest) = out.split_at_mut(room);
            if !library::run(script, own) {
                return false;
            }
            out = rest;
        }
        true
    }

    fn run_rust(&self, out: &mut [i32]) -> bool {
        let Word { scale, ref params, ref commands, ref masks, ref lengths } = self.word;
        lean_label::whole(&lean_label::Label { scale, params, commands, masks, lengths }, out)
    }

    /// The records of each label, from the results of the scripts.
    fn of_scripts<'a>(&self, mut out: &'a [i32]) -> Vec<&'a [i32]> {
        let mut next = |&room: &usize| {
            let (own, rest) = out.split_at(room);
            out = rest;
            &own[RESULT_HEADER..][..own[3] as usize]
        };
        self.rooms.iter().map(&mut next).collect()
    }

    /// All sides must answer OK. The Rust must leave the same words as the label run, those past the result included,
    /// and the scripts the same records.
    pub fn agree(&self) -> bool {
        let [Some(run), Some(scripts), Some(rust)] = [0, 1, 2].map(|side| self.left(side)) else {
            return false;
        };
        run == rust && of_label_run(&run) == self.of_scripts(&scripts)
    }
}

/// The records of each label, from the result of a label run.
fn of_label_run(out: &[i32]) -> Vec<&[i32]> {
    let places = out[2..].chunks_exact(2).take(out[1] as usize);
    places.map(|place| &out[place[0] as usize..][..place[1] as usize]).collect()
}

impl Case for Labels {
    fn room(&self) -> usize {
        self.room
    }

    fn run(&self, side: usize, out: &mut [i32]) -> bool {
        match side {
            0 => library::run_labels(&self.word, out),
            1 => self.run_scripts(out),
            _ => self.run_rust(out),
        }
    }
}
