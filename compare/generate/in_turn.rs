//! Scripts whose family lists have a few heights, every such list in turn. Lists that are drawn seldom have two edges
//! at one distance, or one at a distance of 0 before one whose distance wraps.

use crate::families::IN_TURN;
use crate::{Case, Script};

type Pair = (i32, i32);

const UNIT: i32 = 65536;
/// The zones: a bottom zone that is flat at 0, and a top zone that is flat at 500.
const BLUES: [Pair; 2] = [(-10 * UNIT, 0), (TOP_FLAT, 512 * UNIT)];
const TOP_FLAT: i32 = 500 * UNIT;
/// A pixel has some 25 units, and overshoot is suppressed with next to no boost.
const SCALE: i32 = 2596;
const BLUE_SCALE: i32 = 2597;
/// Edges about the bottom zone's flat edge: at it, two at one distance, one nearer, one too far, one at a distance
/// that wraps.
const ABOUT_BOTTOM: [i32; 6] = [0, 20 * UNIT, -20 * UNIT, -14 * UNIT, 30 * UNIT, i32::MIN];
/// Edges of the second family blue: bottoms about the top zone's flat edge, tops near the bottom zone's and far.
const SECOND_BOTTOMS: [i32; 4] = [TOP_FLAT, 520 * UNIT, 480 * UNIT, 800 * UNIT];
const SECOND_TOPS: [i32; 2] = [-14 * UNIT, 800 * UNIT];

fn pairs(bottoms: &[i32], tops: &[i32]) -> Vec<Pair> {
    bottoms.iter().flat_map(|&bottom| tops.iter().map(move |&top| (bottom, top))).collect()
}

/// The lists of no pair, of one of the first, and of one of the first and one of the second.
fn lists(first: &[Pair], second: &[Pair]) -> Vec<Vec<Pair>> {
    let mut all = vec![Vec::new()];
    for &one in first {
        all.push(vec![one]);
        all.extend(second.iter().map(|&other| vec![one, other]));
    }
    all
}

/// Both zones capture a stem, and a line goes from one flat edge to the other.
fn script(family_blues: Vec<Pair>, family_others: Vec<Pair>) -> Script {
    let lists = [BLUES.to_vec(), Vec::new(), family_blues, family_others];
    let mut made = Script { scale: SCALE, blue_scale: BLUE_SCALE, fuzz: UNIT, lists, ..Script::default() };
    made.put(1, &[0, 100 * UNIT]);
    made.put(1, &[400 * UNIT, TOP_FLAT]);
    made.put(5, &[0, 0]);
    made.put(6, &[0, TOP_FLAT]);
    made.put(9, &[]);
    made
}

/// Family other blues are looked at for their tops alone. The first family blue has both ends about either flat edge.
pub fn in_turn() -> impl Iterator<Item = Case> {
    let other = pairs(&[0], &ABOUT_BOTTOM);
    let others = lists(&other, &other);
    let ends = [&ABOUT_BOTTOM[..], &[TOP_FLAT]].concat();
    let blues = lists(&pairs(&ends, &ends), &pairs(&SECOND_BOTTOMS, &SECOND_TOPS));
    blues.into_iter().flat_map(move |of_blues| {
        let made = others.clone().into_iter().map(move |of_others| script(of_blues.clone(), of_others));
        made.map(|script| Case { family: IN_TURN, room: script.most_words(), script: script.bytes(), fill: 0 })
    })
}
