//! Keeps the cases of a stored sample, adds those that it needs to show all that a whole run shows, and writes them
//! with their answers.

use crate::coverage::bits;
use crate::sides::{self, Answer};
use generate::{case, Case, FAMILIES, IN_TURN};
use model::branch;
use std::collections::{BTreeMap, BTreeSet};
use std::fs;

/// How many of the shortest cases are kept for each thing that a case can show.
const KEPT: usize = 3;
/// The most bytes of a script, and the most words of a room, of a case in the sample; the program
/// `test_scripts` has place for no less.
const SCRIPT: usize = 16_384;
const ROOM: usize = 4_096;
/// The most bytes of a script and its room together among the cases that fill the sample up.
const SHORT: usize = 4_096;

/// What a case can show.
#[derive(Clone, PartialEq, Eq, PartialOrd, Ord)]
enum Shown {
    /// A branch of the model.
    Branch(usize),
    /// A block of the Rust file, by its line.
    Block(usize),
    /// An answer's number, what stands at its place, and in which family.
    Ending(i32, i32, usize),
}

/// A word of a script or a sample.
fn word(bytes: &[u8], place: i32) -> i32 {
    let at = 4 * place as usize;
    i32::from_le_bytes(bytes[at..at + 4].try_into().unwrap())
}

/// What tells refusals of one number apart: the place, or the kind of command at it.
fn ending(case: &Case, answer: &Answer) -> i32 {
    let kind = || word(&case.script, answer.place);
    let operand = |next| word(&case.script, answer.place + next);
    match answer.number {
        // Whether the result takes the whole room.
        0 => (4 + answer.words[3] == case.room as i32) as i32,
        // Whether the kind is known, and if so which one is cut off.
        4 => {
            if (1..=9).contains(&kind()) {
                kind()
            } else {
                0
            }
        }
        // Which mask, and whether its start or its length is negative.
        5 => 100 * kind() + 10 * (operand(1) < 0) as i32 + (operand(2) < 0) as i32,
        // Which command, or that there is no room for the header.
        6 => {
            if case.room < 4 {
                0
            } else {
                kind()
            }
        }
        _ => answer.place,
    }
}

/// All that a case shows, and its answer.
fn shown(case: &Case) -> (BTreeSet<Shown>, Answer) {
    let entered = || oracle_counted::PLACES.iter().map(|&line| (line, oracle_counted::reached::count(line)));
    let before: Vec<(usize, u64)> = entered().collect();
    oracle_counted::run(&case.script, &mut case.lent());
    let mut all: BTreeSet<Shown> =
        entered().zip(before).filter(|(now, then)| now != then).map(|(now, _)| Shown::Block(now.0)).collect();
    branch::take();
    let ours = sides::MODEL.answer(case);
    all.extend(bits(&branch::take()).into_iter().map(Shown::Branch));
    all.insert(Shown::Ending(ours.number, ending(case, &ours), case.family));
    (all, ours)
}

fn length(case: &Case) -> usize {
    case.script.len() + 4 * case.room
}

/// Keeps the shortest few.
fn keep(list: &mut Vec<(usize, u64)>, entry: (usize, u64)) {
    let place = list.partition_point(|other| other <= &entry);
    if place < KEPT {
        list.insert(place, entry);
        list.truncate(KEPT);
    }
}

/// Adds the first short cases of each family, until it has its share or there are no more.
fn fill_up(chosen: &mut BTreeSet<u64>, seed: u64, count: u64, share: usize) {
    let of = |number: &u64| (number % IN_TURN as u64) as usize;
    let mut have = vec![0; IN_TURN];
    chosen.iter().for_each(|number| have[of(number)] += 1);
    for number in 0..count {
        if have[of(&number)] < share && length(&case(seed, number)) <= SHORT && chosen.insert(number) {
            have[of(&number)] += 1;
        }
    }
}

/// A case with its answer, as words.
fn written(case: &Case, mark: i32, answer: &Answer) -> Vec<i32> {
    let mut words =
        vec![case.script.len() as i32, case.room as i32, case.fill as i32, mark, answer.number, answer.place];
    for four in case.script.chunks(4) {
        let mut bytes = [0; 4];
        bytes[..four.len()].copy_from_slice(four);
        words.push(i32::from_le_bytes(bytes));
    }
    words.extend(&answer.words);
    words
}

/// What tells a case from all others: script, room and fill.
type Given = (Vec<u8>, usize, u32);

/// The cases of a stored sample. A file that is empty has none.
fn stored(file: &str) -> BTreeSet<Given> {
    let bytes = fs::read(file).unwrap_or_else(|error| crate::cannot(&format!("sample: {file}: {error}")));
    let mut found = BTreeSet::new();
    let mut at = 4;
    while at < bytes.len() {
        let head = |next: i32| word(&bytes[at..], next);
        let (size, room) = (head(0) as usize, head(1) as usize);
        let script = at + 24;
        found.insert((bytes[script..script + size].to_vec(), room, head(2) as u32));
        at = script + 4 * (size.div_ceil(4) + room);
    }
    found
}

pub fn write(seed: u64, count: u64, size: usize, stored_file: &str, file: &str) -> bool {
    let kept = stored(stored_file);
    let mut chosen = BTreeSet::new();
    let mut shown_by_kept = BTreeSet::new();
    let mut shortest: BTreeMap<Shown, Vec<(usize, u64)>> = BTreeMap::new();
    let mut too_long = BTreeSet::new();
    for number in 0..count {
        let case = case(seed, number);
        let fits = case.script.len() <= SCRIPT && case.room <= ROOM;
        let all = shown(&case).0;
        if kept.contains(&(case.script.clone(), case.room, case.fill)) {
            chosen.insert(number);
            shown_by_kept.extend(all.clone());
        }
        for each in all {
            if fits {
                keep(shortest.entry(each).or_default(), (length(&case), number));
            } else {
                too_long.insert(each);
            }
        }
    }
    if chosen.len() != kept.len() {
        crate::cannot(&format!("sample: {stored_file} has cases that are not among these scripts"));
    }
    let missing = shortest.iter().filter(|(each, _)| !shown_by_kept.contains(each));
    chosen.extend(missing.flat_map(|(_, entries)| entries.iter().map(|entry| entry.1)));
    let needed = chosen.len() - kept.len();
    fill_up(&mut chosen, seed, count, size.div_ceil(IN_TURN));
    let mut words = vec![chosen.len() as i32];
    let mut marked = 0;
    let mut families = vec![0; IN_TURN];
    let mut covered: BTreeSet<Shown> = BTreeSet::new();
    for &number in &chosen {
        let case = case(seed, number);
        let (all, ours) = shown(&case);
        let mark = (ours != sides::oracle().answer(&case)) as i32;
        covered.extend(all);
        families[case.family] += 1;
        marked += mark;
        words.extend(written(&case, mark, &ours));
    }
    let bytes: Vec<u8> = words.iter().flat_map(|word| word.to_le_bytes()).collect();
    if let Err(error) = fs::write(file, &bytes) {
        crate::cannot(&format!("sample: {file}: {error}"));
    }
    let of = |kind: fn(&Shown) -> bool| covered.iter().filter(|each| kind(each)).count();
    println!(
        "{} cases in {} bytes: {} kept, {needed} for what {count} scripts show, the rest to fill each family up.",
        chosen.len(),
        bytes.len(),
        kept.len()
    );
    println!(
        "They show {} branches of the model, {} blocks of the Rust file and {} endings; the Rust differs on {marked}.",
        of(|each| matches!(each, Shown::Branch(_))),
        of(|each| matches!(each, Shown::Block(_))),
        of(|each| matches!(each, Shown::Ending(..)))
    );
    println!("Only scripts that are too long for the sample show {} more.", too_long.difference(&covered).count());
    for (name, cases) in FAMILIES.iter().zip(families) {
        println!("  {name}: {cases}");
    }
    covered.len() == shortest.len() && marked == 0
}
