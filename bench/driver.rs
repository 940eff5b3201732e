//! Runs the same scripts through the static library and through the Rust, in turn, and prints the ratio of their times;
//! and the same words of labels by one label run, by a script for each label, and through the Rust.
//!     driver [ROUNDS [WAY]]  the ratios
//!     driver only SHAPE N    N turns of one shape (0 to 3), or of the words by label runs (4), through the static
//!                            library alone, for a profiler
//! WAY says how the sides take turns on a block of scripts or of words:
//!     two      the first and one other at a time; the way without a word
//!     twice    the same, where each runs the block twice in its turn, and the second time counts
//!     four     all of them. Of scripts three of the four share the Rust hinter's code, and ours shares none

mod labels;
mod library;
mod shapes;
mod timing;
mod words;

use generate::Script;
use labels::Labels;
use rust_side::lean;
use shapes::{masks, points, shapes, stems, Shape};
use std::hint::black_box;
use timing::{Case, Timing};
use words::Word;

const SIDES: [&str; 4] = ["ours", "the Rust, whole script", "the Rust, hinter alone", "the Rust, comparison's driver"];

/// A script as each side runs it.
struct Single<'a> {
    bytes: &'a [u8],
    parsed: lean::Parsed<'a>,
    room: usize,
}

impl Case for Single<'_> {
    fn room(&self) -> usize {
        self.room
    }

    fn run(&self, side: usize, out: &mut [i32]) -> bool {
        match side {
            0 => library::run(self.bytes, out),
            1 => lean::whole(self.bytes, out),
            2 => lean::hinter_alone(&self.parsed, out),
            _ => rust_side::run(self.bytes, out).0 == 0,
        }
    }
}

fn singles<'a>(shape: &Shape, bytes: &'a [Vec<u8>]) -> Vec<Single<'a>> {
    let made = |(script, bytes): (&Script, &'a Vec<u8>)| Single {
        bytes,
        parsed: lean::parse(bytes),
        room: script.most_words(),
    };
    shape.scripts.iter().zip(bytes).map(made).collect()
}

/// All sides must answer OK and leave the same words, those past the records included.
fn agree(case: &Single) -> bool {
    let first = case.left(0);
    first.is_some() && (1..SIDES.len()).all(|side| case.left(side) == first)
}

fn range(counts: impl Iterator<Item = usize> + Clone) -> String {
    format!("{} to {}", counts.clone().min().unwrap(), counts.max().unwrap())
}

/// How many points, stems and masks one of the scripts has.
fn ranges(scripts: &[&Script]) -> String {
    let of = |count: fn(&Script) -> usize| range(scripts.iter().map(move |script| count(script)));
    format!("{} points, {} stems, {} masks", of(points), of(stems), of(masks))
}

fn stop_unless(same: bool) {
    if !same {
        println!("    the sides answer differently");
        std::process::exit(1);
    }
}

fn ratios_of_scripts(rounds: usize, way: &str) {
    for shape in shapes() {
        let bytes: Vec<Vec<u8>> = shape.scripts.iter().map(Script::bytes).collect();
        let cases = singles(&shape, &bytes);
        println!("{}: {} scripts, {}", shape.name, bytes.len(), ranges(&shape.scripts.iter().collect::<Vec<_>>()));
        stop_unless(cases.iter().all(agree));
        Timing { each: "script", cases: &cases, block: shape.block, rounds, way }.print(&SIDES);
    }
}

fn ratios_of_words(rounds: usize, way: &str) {
    let words = shapes::words();
    let cases: Vec<Labels> = words.iter().map(|letters| Labels::of(letters)).collect();
    let letters: Vec<&Script> = words.iter().flatten().collect();
    println!("words of {} short labels: {} words, {}", words[0].len(), words.len(), ranges(&letters));
    stop_unless(cases.iter().all(Labels::agree));
    Timing { each: "word", cases: &cases, block: labels::BLOCK, rounds, way }.print(&labels::SIDES);
}

/// Turns of one shape, or of the words, through our side alone.
fn only(shape: usize, turns: usize) {
    let mut out = vec![0; 65536];
    if let Some(shape) = shapes().get(shape) {
        let bytes: Vec<Vec<u8>> = shape.scripts.iter().map(Script::bytes).collect();
        for script in bytes.iter().cycle().take(turns * bytes.len()) {
            black_box(library::run(black_box(script), &mut out));
        }
    } else {
        let words: Vec<Word> = shapes::words().iter().map(|letters| Word::of(letters)).collect();
        for word in words.iter().cycle().take(turns * words.len()) {
            black_box(library::run_labels(black_box(word), &mut out));
        }
    }
}

fn main() {
    let words: Vec<String> = std::env::args().skip(1).collect();
    let number = |at: usize| words.get(at).and_then(|word| word.parse::<usize>().ok());
    match words.first().map(String::as_str) {
        Some("only") => only(number(1).unwrap_or(0), number(2).unwrap_or(1)),
        _ => {
            let way = words.get(1).map_or("two", String::as_str);
            if !["two", "twice", "four"].contains(&way) {
                eprintln!("usage: driver [ROUNDS [two|twice|four]]");
                std::process::exit(2);
            }
            let rounds = number(0).unwrap_or(400);
            ratios_of_scripts(rounds, way);
            ratios_of_words(rounds, way);
        }
    }
}
