//! Says which blocks of the Rust file and which branches of the model the generated scripts reach.

use crate::sides;
use generate::case;
use model::branch;
use std::collections::BTreeMap;

pub fn print(seed: u64, count: u64) -> bool {
    let mut hits: BTreeMap<usize, u64> = BTreeMap::new();
    for number in 0..count {
        let case = case(seed, number);
        oracle_counted::run(&case.script, &mut case.lent());
        branch::take();
        sides::MODEL.answer(&case);
        for bit in bits(&branch::take()) {
            *hits.entry(bit).or_default() += 1;
        }
    }
    let places = oracle_counted::PLACES;
    let missed: Vec<usize> = places.iter().copied().filter(|&line| oracle_counted::reached::count(line) == 0).collect();
    println!("{count} scripts enter {} of {} blocks of the Rust file.", places.len() - missed.len(), places.len());
    println!("Never entered, by the line where the block opens: {missed:?}");
    let mut rare: Vec<(u64, usize)> = places
        .iter()
        .map(|&line| (oracle_counted::reached::count(line), line))
        .filter(|&(times, _)| times > 0)
        .collect();
    rare.sort();
    println!("Entered least often (times, line): {:?}", &rare[..rare.len().min(8)]);
    let all: Vec<usize> = (0..branch::COUNT).filter(|&bit| branch::can_be(bit)).collect();
    println!("\nThe model's branches, each condition with both outcomes: {} of {} are seen.", hits.len(), all.len());
    for &bit in all.iter().filter(|bit| !hits.contains_key(bit)) {
        println!("  never: {}", branch::name(bit));
    }
    let mut few: Vec<(u64, usize)> = hits.iter().map(|(&bit, &cases)| (cases, bit)).collect();
    few.sort();
    for (cases, bit) in few.iter().take(12) {
        println!("  in {cases} scripts: {}", branch::name(*bit));
    }
    true
}

pub fn bits(set: &branch::Set) -> Vec<usize> {
    (0..branch::COUNT).filter(|bit| set[bit / 64] >> (bit % 64) & 1 == 1).collect()
}
