//! Runs the same cases on several sides, which take turns, and prints the ratio of the first one's time to each
//! other's.

use std::hint::black_box;
use std::time::Instant;

/// What stands in words that are lent, and in no result.
const LENT: i32 = -77;

/// What is run on each side, such as a script.
pub trait Case {
    /// How many words a side is lent.
    fn room(&self) -> usize;

    /// Whether a side, by its number, answers OK.
    fn run(&self, side: usize, out: &mut [i32]) -> bool;

    /// What a side leaves in the words that it is lent, if it answers OK.
    fn left(&self, side: usize) -> Option<Vec<i32>> {
        let mut out = vec![LENT; self.room()];
        self.run(side, &mut out).then_some(out)
    }
}

/// Cases of one kind, what each is called, how many of them are run between two looks at the clock, how many rounds
/// there are, and the way of taking turns.
pub struct Timing<'a, C> {
    pub each: &'a str,
    pub cases: &'a [C],
    pub block: usize,
    pub rounds: usize,
    pub way: &'a str,
}

/// Which of so many sides comes at a turn of a round: each comes first in its time, and every other round goes
/// backwards.
fn order(round: usize, turn: usize, sides: usize) -> usize {
    let turn = if round % 2 == 0 { turn } else { sides - 1 - turn };
    (turn + round / 2) % sides
}

/// The sum over the blocks of the least and of the middle time of each.
fn least_and_middle(blocks: &mut [Vec<u64>]) -> [f64; 2] {
    let mut sums = [0.0; 2];
    for times in blocks {
        times.sort_unstable();
        sums[0] += times[0] as f64;
        sums[1] += times[times.len() / 2] as f64;
    }
    sums
}

impl<C: Case> Timing<'_, C> {
    /// Nanoseconds of each of some sides for each block of cases, round after round.
    fn measure(&self, rounds: usize, sides: &[usize]) -> Vec<Vec<Vec<u64>>> {
        let blocks: Vec<&[C]> = self.cases.chunks(self.block).collect();
        let mut out = vec![0; self.cases.iter().map(|case| case.room()).max().unwrap()];
        let mut pass = |side: usize, block: &[C]| {
            let start = Instant::now();
            for case in block {
                black_box(black_box(case).run(side, &mut out[..case.room()]));
            }
            start.elapsed().as_nanos() as u64
        };
        let mut times = vec![vec![Vec::with_capacity(rounds); blocks.len()]; sides.len()];
        for round in 0..rounds {
            for (number, block) in blocks.iter().enumerate() {
                for turn in 0..sides.len() {
                    let which = order(round, turn, sides.len());
                    if self.way == "twice" {
                        pass(sides[which], block);
                    }
                    times[which][number].push(pass(sides[which], block));
                }
            }
        }
        times
    }

    /// The least and the middle times of some sides, after some rounds that do not count.
    fn sums(&self, sides: &[usize]) -> Vec<[f64; 2]> {
        self.measure(self.rounds / 10 + 1, sides);
        let mut times = self.measure(self.rounds, sides);
        times.iter_mut().map(|blocks| least_and_middle(blocks)).collect()
    }

    /// Prints a line for each side but the first.
    pub fn print(&self, sides: &[&str]) {
        let each = format!("ns/{}", self.each);
        println!("    {:32}{:>12}{:>12}{:>16}{:>16}", "", each, sides[0], "ratio, least", "ratio, median");
        let together = (self.way == "four").then(|| self.sums(&(0..sides.len()).collect::<Vec<_>>()));
        for (other, name) in sides.iter().enumerate().skip(1) {
            let (first, second) = match &together {
                Some(all) => (all[0], all[other]),
                None => {
                    let both = self.sums(&[0, other]);
                    (both[0], both[1])
                }
            };
            let each = |least: f64| least / self.cases.len() as f64;
            print!("    {:32}{:12.0}{:12.0}", name, each(second[0]), each(first[0]));
            println!("{:16.2}{:16.2}", first[0] / second[0], first[1] / second[1]);
        }
    }
}
