//! The scripts that are measured: four shapes, each from a fixed seed, and words of short labels.

use generate::{Numbers, Script};

const UNIT: i32 = 65536;
const SEED: u64 = 0x5EED_0008;

pub struct Shape {
    pub name: &'static str,
    pub scripts: Vec<Script>,
    /// How many scripts are run between two looks at the clock.
    pub block: usize,
}

pub fn shapes() -> Vec<Shape> {
    let made = |name, count: u64, block, make: fn(&mut Numbers) -> Script, salt: u64| Shape {
        name,
        scripts: (0..count).map(|number| make(&mut Numbers::new(SEED + salt, number))).collect(),
        block,
    };
    vec![
        made("short labels", 96, 16, label, 0),
        made("long glyphs", 32, 2, long, 1),
        made("mask-heavy glyphs", 24, 1, masked, 2),
        made("complex ideographs", 24, 1, complex, 4),
    ]
}

/// How many words there are, and how many labels each has.
const WORDS: u64 = 12;
const LETTERS: usize = 8;

/// The labels of each word, which are of one face at one size.
pub fn words() -> Vec<Vec<Script>> {
    let word = |n: &mut Numbers| {
        let face = label_face(n);
        (0..LETTERS).map(|_| letter(n, face.clone())).collect()
    };
    (0..WORDS).map(|number| word(&mut Numbers::new(SEED + 3, number))).collect()
}

pub fn points(script: &Script) -> usize {
    script.commands.iter().map(|command| [0, 0, 0, 0, 0, 1, 1, 3, 0, 0][command.kind as usize]).sum()
}

pub fn stems(script: &Script) -> usize {
    script.commands.iter().filter(|command| command.kind == 1).count()
}

pub fn masks(script: &Script) -> usize {
    script.commands.iter().filter(|command| command.kind == 2 || command.kind == 3).count()
}

fn pairs(list: &[(i32, i32)]) -> Vec<(i32, i32)> {
    list.iter().map(|pair| (pair.0 * UNIT, pair.1 * UNIT)).collect()
}

/// A text face of 1000 units to the em, at so many pixels to the em.
fn text_face(pixels: i64) -> Script {
    Script {
        scale: (pixels * UNIT as i64 / 1000) as i32,
        blue_scale: 2597,
        shift: 7 * UNIT,
        fuzz: UNIT,
        lists: [
            pairs(&[(-14, 0), (486, 500), (660, 674), (712, 726)]),
            pairs(&[(-231, -217)]),
            pairs(&[(-12, 0), (484, 496), (662, 674)]),
            vec![],
        ],
        ..Script::default()
    }
}

/// Declares stems bottom up from a height, without overlap, and gives their edges.
fn declare(n: &mut Numbers, script: &mut Script, count: usize, low: i32, high: i32) -> Vec<i32> {
    let pitch = (high - low) / count as i32;
    let mut edges = Vec::new();
    for number in 0..count as i32 {
        let wide = n.between((pitch / 4).max(4) as i64, (pitch / 2).clamp(5, 90) as i64) as i32;
        let slack = (pitch - wide - 2).max(0);
        let bottom = low + number * pitch + n.between(0, slack as i64 / 2) as i32;
        script.put(1, &[bottom * UNIT, (bottom + wide) * UNIT]);
        edges.extend([bottom * UNIT, (bottom + wide) * UNIT]);
    }
    edges
}

/// The stems of a letter: its baseline, its top, and bars between them.
fn letter_stems(n: &mut Numbers, script: &mut Script, count: usize) -> Vec<i32> {
    let over = n.pick(&[0, 14]);
    let top = n.pick(&[500, 660, 712]) + over;
    let wide = n.between(36, 70) as i32;
    let mut stems = vec![(-over, wide - over)];
    if n.one_in(4) {
        stems.insert(0, (-231, wide - 231));
    }
    let bars = count.saturating_sub(stems.len() + 1) as i32;
    let pitch = (top - 2 * wide) / (bars + 1);
    for bar in 1..=bars {
        let low = bar * pitch + n.between(0, 8) as i32;
        stems.push((low, low + wide.min(pitch / 2)));
    }
    stems.push((top - wide, top));
    for &(low, high) in &stems {
        script.put(1, &[low * UNIT, high * UNIT]);
    }
    stems.iter().flat_map(|stem| [stem.0 * UNIT, stem.1 * UNIT]).collect()
}

/// Where a contour is: its height goes up or down by a few edges from point to point. Two points of three lie on an
/// edge, the others between two.
struct Outline {
    edges: Vec<i32>,
    at: usize,
}

impl Outline {
    fn new(mut edges: Vec<i32>) -> Outline {
        edges.sort_unstable();
        Outline { edges, at: 0 }
    }

    fn point(&mut self, n: &mut Numbers) -> [i32; 2] {
        let last = self.edges.len() as i64 - 1;
        self.at = (self.at as i64 + n.between(-2, 2)).clamp(0, last) as usize;
        let mut y = self.edges[self.at];
        if n.one_in(3) && self.at > 0 {
            y += (self.edges[self.at - 1] - y) / 2;
        }
        [n.between(0, 950) as i32 * UNIT, y]
    }
}

/// Contours with so many points in all; one stroke in `curves` is a curve. Before some strokes
/// `before` may put in a command.
fn contours(
    n: &mut Numbers,
    script: &mut Script,
    edges: Vec<i32>,
    count: usize,
    curves: i64,
    mut before: impl FnMut(&mut Numbers, &mut Script),
) {
    let mut outline = Outline::new(edges);
    let mut left = count;
    while left > 0 {
        let mut here = left.min(n.between(8, 40) as usize);
        if left - here < 4 {
            here = left;
        }
        left -= here;
        outline.at = n.index(outline.edges.len());
        script.put(5, &outline.point(n));
        here -= 1;
        while here > 0 {
            before(n, script);
            if here >= 3 && n.one_in(curves) {
                let operands: Vec<i32> = (0..3).flat_map(|_| outline.point(n)).collect();
                script.put(7, &operands);
                here -= 3;
            } else {
                script.put(6, &outline.point(n));
                here -= 1;
            }
        }
        script.put(8, &[]);
    }
    script.put(9, &[]);
}

fn label_face(n: &mut Numbers) -> Script {
    text_face(n.between(9, 18))
}

/// A short label, of a face that has no commands yet.
fn letter(n: &mut Numbers, mut script: Script) -> Script {
    let count = n.between(2, 6) as usize;
    let edges = letter_stems(n, &mut script, count);
    let count = n.between(10, 30) as usize;
    contours(n, &mut script, edges, count, 2, |_, _| {});
    script
}

fn label(n: &mut Numbers) -> Script {
    let face = label_face(n);
    letter(n, face)
}

fn long(n: &mut Numbers) -> Script {
    let mut script = text_face(n.between(12, 48));
    let count = n.between(8, 20) as usize;
    let edges = declare(n, &mut script, count, -14, 726);
    let count = n.between(150, 400) as usize;
    contours(n, &mut script, edges, count, 2, |_, _| {});
    script
}

/// An ideographic face: half of them with an em box, half with two narrow zones.
fn ideograph_face(n: &mut Numbers) -> Script {
    let mut script = Script {
        scale: (n.between(12, 40) * UNIT as i64 / 1000) as i32,
        blue_scale: 2597,
        shift: 7 * UNIT,
        fuzz: UNIT,
        group: 1,
        ..Script::default()
    };
    if n.one_in(2) {
        script.lists[0] = pairs(&[(-250, -238), (1100, 1112)]);
    }
    script
}

/// Puts in a mask of so many stems, some of them active.
fn put_mask(script: &mut Script, kind: i32, stems: usize, active: &[usize]) {
    let (start, bytes) = (script.masks.len(), stems.div_ceil(8));
    script.masks.resize(start + bytes, 0);
    for stem in active {
        script.masks[start + stem / 8] |= 0x80 >> (stem % 8);
    }
    script.put(kind, &[start as i32, bytes as i32]);
}

/// An ideograph. A hint mask comes every few strokes, with half of the stems active.
fn masked(n: &mut Numbers) -> Script {
    let mut script = ideograph_face(n);
    let count = n.between(15, 40) as usize;
    let edges = declare(n, &mut script, count, -80, 840);
    let mask = |n: &mut Numbers, script: &mut Script, kind: i32, part: i64| {
        let active: Vec<usize> = (0..count).filter(|_| n.one_in(part)).collect();
        put_mask(script, kind, count, &active);
    };
    for _ in 0..n.between(0, 3) {
        mask(n, &mut script, 3, 4);
    }
    mask(n, &mut script, 2, 2);
    let count = n.between(60, 180) as usize;
    let mut strokes = 0;
    contours(n, &mut script, edges, count, 5, |n, script| {
        if strokes == 0 {
            mask(n, script, 2, 2);
            strokes = n.between(2, 6);
        }
        strokes -= 1;
    });
    script
}

/// Declares stems bottom up from a height, each of which overlaps the next ones, and gives their edges.
fn declare_close(n: &mut Numbers, script: &mut Script, count: usize, low: i32, high: i32) -> Vec<i32> {
    let pitch = (high - low) / count as i32;
    let mut edges = Vec::new();
    for number in 0..count as i32 {
        let bottom = low + number * pitch + n.between(0, pitch as i64 / 2) as i32;
        let top = bottom + n.between(16, 40) as i32;
        script.put(1, &[bottom * UNIT, top * UNIT]);
        edges.extend([bottom * UNIT, top * UNIT]);
    }
    edges
}

/// How many hint masks a complex ideograph has.
const COMPLEX_MASKS: usize = 30;

/// A complex ideograph: many stems, and hint masks with few of them active, one of each part of the height.
fn complex(n: &mut Numbers) -> Script {
    let mut script = ideograph_face(n);
    let count = n.between(60, 90) as usize;
    let edges = declare_close(n, &mut script, count, -80, 840);
    let points = n.between(180, 260) as usize;
    let (mut masks, mut strokes) = (0, 0);
    contours(n, &mut script, edges, points, 5, |n, script| {
        if strokes == 0 && masks < COMPLEX_MASKS {
            let few = n.between(3, 6) as usize;
            let active: Vec<usize> = (0..few).map(|part| (part * count + n.index(count)) / few).collect();
            put_mask(script, 2, count, &active);
            masks += 1;
            strokes = n.between(2, 5);
        }
        strokes -= 1;
    });
    script
}
