//! Makes a script on which two sides differ as small as it can, and prints it.

use crate::sides::{self, Side};
use generate::parts::join;
use generate::{Case, Script};

/// How far from simple a case is; smaller is simpler.
pub fn size(case: &Case) -> (usize, u64) {
    let weight = |word: &[u8]| i32::from_le_bytes([word[0], word[1], word[2], word[3]]).unsigned_abs() as u64;
    (case.script.len() + 4 * case.room, case.script.chunks_exact(4).map(weight).sum())
}

fn passes(script: &[u8]) -> bool {
    model::script::check(script).is_ok()
}

/// Values to try in place of one, the simplest first; a whole number of units stays whole.
fn simpler_values(value: i32, heights: bool) -> Vec<i32> {
    let step = if heights && value % 65536 == 0 { 65536 } else { 1 };
    let units = value / step;
    let mut list = vec![0];
    if heights && step == 1 {
        list.extend([100, 10, 1].map(|tens| value / (tens * 65536) * (tens * 65536)));
    }
    let parts =
        [1, units.signum(), units / 100 * 100, units / 10 * 10, units / 2, units - units / 4, units - units.signum()];
    list.extend(parts.map(|other| other * step));
    list.retain(|&other| (other.unsigned_abs(), other < 0) < (value.unsigned_abs(), value < 0));
    list.dedup();
    list
}

/// Scripts one step simpler than a sound one.
fn simpler_scripts(script: &Script) -> Vec<Script> {
    let mut list = Vec::new();
    let length = script.commands.len();
    let mut chunk = length.div_ceil(2);
    while chunk > 0 {
        for first in (0..length).step_by(chunk) {
            let mut other = script.clone();
            other.commands.drain(first..(first + chunk).min(length));
            list.push(other);
        }
        chunk /= 2;
    }
    for which in 0..4 {
        for place in 0..script.lists[which].len() {
            let mut other = script.clone();
            other.lists[which].remove(place);
            list.push(other);
        }
    }
    if !script.commands.iter().any(|command| command.kind == 2 || command.kind == 3) && !script.masks.is_empty() {
        let mut other = script.clone();
        other.masks.clear();
        list.push(other);
    }
    for place in 0..script.masks.len() {
        let mut other = script.clone();
        other.masks.remove(place);
        for command in &mut other.commands {
            if command.kind == 2 || command.kind == 3 {
                let (start, count) = (command.operands[0] as usize, command.operands[1] as usize);
                if place < start {
                    command.operands[0] -= 1;
                } else if place < start + count {
                    command.operands[1] -= 1;
                }
            }
        }
        list.push(other);
        for byte in [0, 0x80, 0xFF] {
            if byte < script.masks[place] {
                let mut other = script.clone();
                other.masks[place] = byte;
                list.push(other);
            }
        }
    }
    for place in 0..length {
        // A curve may do as a line, and a line as a move.
        let command = &script.commands[place];
        if command.kind == 7 || command.kind == 6 {
            let mut other = script.clone();
            other.commands[place].kind = command.kind - 1;
            other.commands[place].operands.truncate(2);
            list.push(other);
        }
    }
    for (usual, field) in [(2597, 0), (458_752, 1), (65_536, 2), (0, 3)] {
        let value = [script.blue_scale, script.shift, script.fuzz, script.group][field];
        if value != usual {
            let mut other = script.clone();
            *[&mut other.blue_scale, &mut other.shift, &mut other.fuzz, &mut other.group][field] = usual;
            list.push(other);
        }
    }
    let scales = [1024, 2048, 4096, 32_768, 65_536];
    let rank = |scale: i32| scales.iter().position(|&other| other == scale).unwrap_or(scales.len());
    for value in scales {
        if rank(value) < rank(script.scale) {
            let mut other = script.clone();
            other.scale = value;
            list.push(other);
        }
    }
    for which in 0..4 {
        for place in 0..script.lists[which].len() {
            let pair = script.lists[which][place];
            for value in simpler_values(pair.0, true) {
                let mut other = script.clone();
                other.lists[which][place].0 = value;
                list.push(other);
            }
            for value in simpler_values(pair.1, true) {
                let mut other = script.clone();
                other.lists[which][place].1 = value;
                list.push(other);
            }
        }
    }
    for place in 0..length {
        for operand in 0..script.commands[place].operands.len() {
            let whole = !matches!(script.commands[place].kind, 2 | 3);
            for value in simpler_values(script.commands[place].operands[operand], whole) {
                let mut other = script.clone();
                other.commands[place].operands[operand] = value;
                list.push(other);
            }
        }
    }
    list
}

/// Scripts one step simpler than one that is refused.
fn simpler_bytes(script: &[u8]) -> Vec<Vec<u8>> {
    let mut list = Vec::new();
    for length in [script.len() / 2, script.len().saturating_sub(4), script.len().saturating_sub(1)] {
        if length < script.len() {
            list.push(script[..length].to_vec());
        }
    }
    for place in (0..script.len()).step_by(4) {
        let end = (place + 4).min(script.len());
        if script[place..end].iter().any(|&byte| byte != 0) {
            let mut other = script.to_vec();
            other[place..end].fill(0);
            list.push(other);
        }
    }
    list
}

/// The smallest case that greedy steps find from one on which two sides differ.
pub fn smallest(case: &Case, left: Side, right: Side) -> Case {
    let differs = |case: &Case| left.answer(case) != right.answer(case);
    let mut best = case.clone();
    if !differs(&best) {
        return best;
    }
    let mut rounds = 0;
    'search: while rounds < 5000 {
        rounds += 1;
        let candidates: Vec<Case> = if passes(&best.script) {
            simpler_scripts(&Script::parse(&best.script))
                .into_iter()
                .map(|script| Case { room: script.most_words().min(best.room), script: script.bytes(), ..best.clone() })
                .collect()
        } else {
            simpler_bytes(&best.script).into_iter().map(|script| Case { script, ..best.clone() }).collect()
        };
        for candidate in candidates {
            if differs(&candidate) {
                best = candidate;
                continue 'search;
            }
        }
        for room in [0, best.room / 2, best.room.saturating_sub(1)] {
            let candidate = Case { room, ..best.clone() };
            if room < best.room && differs(&candidate) {
                best = candidate;
                continue 'search;
            }
        }
        break;
    }
    best
}

pub fn show(case: &Case, sides: &[Side]) {
    if passes(&case.script) {
        println!("  {}", Script::parse(&case.script).text());
    } else {
        println!("  bytes: {:?}", case.script);
    }
    println!("  room {}", case.room);
    for side in sides {
        let answer = side.answer(case);
        println!("  {:<9} answers {} at {}: {}", side.name, answer.number, answer.place, join(&answer.words));
    }
}

/// Reads a script as bytes, or as words in text, and reduces it.
pub fn file(name: &str) -> bool {
    let bytes = std::fs::read(name).unwrap_or_else(|error| crate::cannot(&format!("reduce: {name}: {error}")));
    let text = String::from_utf8(bytes.clone()).unwrap_or_default();
    let words: Option<Vec<i32>> =
        text.split_whitespace().filter(|word| *word != "|").map(|word| word.parse().ok()).collect();
    let script = match words {
        Some(words) if !words.is_empty() => words.iter().flat_map(|word| word.to_le_bytes()).collect(),
        _ => bytes,
    };
    let case = Case { family: 0, script, room: sides::PROGRAM_ROOM, fill: 0 };
    let (left, right) = (sides::MODEL, sides::oracle());
    if left.answer(&case) == right.answer(&case) {
        println!("Model and Rust agree on it.");
        return true;
    }
    show(&smallest(&case, left, right), &[left, right]);
    false
}
