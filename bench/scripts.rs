//! Writes the scripts of one shape (0 to 3) to standard output as cases of the batch protocol, or the words (4) as
//! bench/copies.c reads them, and the points of one on average to standard error.

#[allow(dead_code)]
mod shapes;
mod words;

use generate::{batch, Case, Script};
use std::io::Write;
use words::Word;

const USAGE: i32 = 2;
const FAILED: i32 = 1;
/// The words lent to each, which is enough for all of them.
const ROOM: usize = 65_536;

fn script_case(script: &Script) -> Vec<u8> {
    batch::request(&Case { family: 0, script: script.bytes(), room: ROOM, fill: 0 })
}

/// The lengths of the lists and of the output, the scale, and the lists.
fn word_case(letters: &Vec<Script>) -> Vec<u8> {
    let Word { scale, params, commands, masks, lengths } = Word::of(letters);
    let sizes = [commands.len(), masks.len(), lengths.len(), ROOM].map(|size| size as i32);
    let bytes = |words: &[i32]| words.iter().flat_map(|word| word.to_le_bytes()).collect::<Vec<u8>>();
    [bytes(&sizes), bytes(&[scale]), bytes(&params), bytes(&commands), masks, bytes(&lengths)].concat()
}

/// The cases of a shape or of the words, how many there are, and their points in all.
fn cases(number: usize) -> Option<(Vec<u8>, usize, usize)> {
    let shapes = shapes::shapes();
    if let Some(shape) = shapes.get(number) {
        let points = shape.scripts.iter().map(shapes::points).sum();
        return Some((shape.scripts.iter().flat_map(script_case).collect(), shape.scripts.len(), points));
    }
    let words = (number == shapes.len()).then(shapes::words)?;
    let points = words.iter().flatten().map(shapes::points).sum();
    Some((words.iter().flat_map(word_case).collect(), words.len(), points))
}

fn main() {
    let number = std::env::args().nth(1).and_then(|word| word.parse::<usize>().ok());
    let Some((bytes, count, points)) = number.and_then(cases) else {
        eprintln!("usage: scripts SHAPE");
        std::process::exit(USAGE)
    };
    if std::io::stdout().write_all(&bytes).is_err() {
        std::process::exit(FAILED);
    }
    eprintln!("{:.1}", points as f64 / count as f64);
}
