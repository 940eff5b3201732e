//! The sides of a comparison, each a function from a script and a lent output to number and place.

use generate::Case;
use std::io::{Read, Write};

/// The words that the program `hint` lends to a script.
pub const PROGRAM_ROOM: usize = 16_384;

#[derive(Copy, Clone)]
pub struct Side {
    pub name: &'static str,
    pub run: fn(&[u8], &mut [i32]) -> (i32, i32),
}

#[derive(Clone, PartialEq)]
pub struct Answer {
    pub number: i32,
    pub place: i32,
    pub words: Vec<i32>,
}

/// The paper, with what change requests amended.
pub const MODEL: Side = Side { name: "model", run: model::run };
/// The Rust file over numbers after 01.
pub const STAND_IN: Side = Side { name: "stand-in", run: oracle_stand_in::run };
/// The Rust file over the fetched packages.
#[cfg(fetched)]
pub const FETCHED: Option<Side> = Some(Side { name: "fetched", run: oracle_fetched::run });
#[cfg(not(fetched))]
pub const FETCHED: Option<Side> = None;

pub fn oracle() -> Side {
    FETCHED.unwrap_or(STAND_IN)
}

pub fn by_name(name: &str) -> Option<Side> {
    [Some(MODEL), Some(STAND_IN), FETCHED].into_iter().flatten().find(|side| side.name == name)
}

impl Side {
    pub fn answer(&self, case: &Case) -> Answer {
        let mut words = case.lent();
        let (number, place) = (self.run)(&case.script, &mut words);
        Answer { number, place, words }
    }
}

/// Reads one script, lends the program's room and writes number, place and, if all is well, the result.
pub fn once(side: Side) -> bool {
    let mut script = Vec::new();
    if std::io::stdin().read_to_end(&mut script).is_err() {
        return false;
    }
    let mut words = vec![0; PROGRAM_ROOM];
    let (number, place) = (side.run)(&script, &mut words);
    let length = if number == 0 { 4 + words[3] as usize } else { 0 };
    let answer = [number, place].into_iter().chain(words[..length].iter().copied());
    let bytes: Vec<u8> = answer.flat_map(|word| word.to_le_bytes()).collect();
    std::io::stdout().write_all(&bytes).is_ok()
}
