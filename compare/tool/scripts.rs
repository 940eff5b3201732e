//! Compares the model with the Rust on generated scripts, and counts by family.

use crate::reduce;
use crate::sides::{self, Side};
use generate::{cases, Case, FAMILIES};
use std::time::Instant;

/// What one family came to.
#[derive(Clone, Default)]
struct Row {
    cases: u64,
    numbers: [u64; 7],
    differ: Vec<u64>,
}

pub struct Tally {
    rows: Vec<Row>,
    columns: Vec<&'static str>,
}

impl Tally {
    pub fn new(columns: Vec<&'static str>) -> Tally {
        let row = Row { differ: vec![0; columns.len()], ..Row::default() };
        Tally { rows: vec![row; FAMILIES.len()], columns }
    }

    pub fn note(&mut self, family: usize, number: i32, differ: &[bool]) {
        let row = &mut self.rows[family];
        row.cases += 1;
        if let Some(count) = row.numbers.get_mut(number as usize) {
            *count += 1;
        }
        for (count, &differs) in row.differ.iter_mut().zip(differ) {
            *count += differs as u64;
        }
    }

    pub fn print(&self) {
        print!("{:<26}{:>8}{:>8}", "family", "cases", "OK");
        for name in ["SCRIPT", "SCALE", "BLUES", "COMMAND", "MASK", "ROOM"] {
            print!("{name:>8}");
        }
        for name in &self.columns {
            print!("  {name}");
        }
        println!();
        let mut sum = Row { differ: vec![0; self.columns.len()], ..Row::default() };
        for row in &self.rows {
            sum.cases += row.cases;
            for (to, from) in sum.numbers.iter_mut().zip(&row.numbers) {
                *to += from;
            }
            for (to, from) in sum.differ.iter_mut().zip(&row.differ) {
                *to += from;
            }
        }
        let rows = self.rows.iter().zip(FAMILIES.iter().copied()).chain([(&sum, "all")]);
        for (row, name) in rows {
            print!("{name:<26}{:>8}", row.cases);
            for count in row.numbers {
                print!("{count:>8}");
            }
            for (count, name) in row.differ.iter().zip(&self.columns) {
                print!("  {count:>width$}", width = name.len());
            }
            println!();
        }
    }
}

/// Prints the smallest script found near some cases on which two sides differ.
pub fn show_smallest(cases: &[Case], left: Side, right: Side) {
    let smallest = cases.iter().map(|case| reduce::smallest(case, left, right)).min_by_key(|case| reduce::size(case));
    if let Some(case) = smallest {
        reduce::show(&case, &[left, right]);
    }
}

pub fn compare(seed: u64, count: u64) -> bool {
    let began = Instant::now();
    let oracle = sides::oracle();
    let both = sides::FETCHED.is_some();
    println!(
        "The Rust runs over {}.",
        if both { "the fetched packages, and again over stand-ins" } else { "stand-ins" }
    );
    let mut columns = vec!["model/Rust"];
    if both {
        columns.push("packages/stand-ins");
    }
    let mut tally = Tally::new(columns);
    let mut from_the_rust = Vec::new();
    let mut between_oracles = Vec::new();
    let mut compared = 0;
    for case in cases(seed, count) {
        compared += 1;
        let theirs = oracle.answer(&case);
        let mut differ = vec![sides::MODEL.answer(&case) != theirs];
        if both {
            differ.push(sides::STAND_IN.answer(&case) != theirs);
            if differ[1] && between_oracles.len() < 20 {
                between_oracles.push(case.clone());
            }
        }
        tally.note(case.family, theirs.number, &differ);
        if differ[0] && from_the_rust.len() < 20 {
            from_the_rust.push(case);
        }
    }
    tally.print();
    println!("{compared} scripts in {:.1} s.", began.elapsed().as_secs_f64());
    if !from_the_rust.is_empty() {
        println!("\nThe model and the Rust differ. Smallest script:");
        show_smallest(&from_the_rust, sides::MODEL, oracle);
    }
    if !between_oracles.is_empty() {
        println!("\nThe Rust over the packages and over the stand-ins differ. Smallest script:");
        show_smallest(&between_oracles, sides::STAND_IN, oracle);
    }
    from_the_rust.is_empty() && between_oracles.is_empty()
}
