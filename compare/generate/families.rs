//! The families of scripts.

use crate::parts::{operand_count, Script};
use crate::{Case, Numbers};

pub const FAMILIES: &[&str] = &[
    "plausible fonts",
    "tight counters",
    "many stems",
    "extremes of 32 bits",
    "em-box",
    "family blues",
    "masks and counter masks",
    "long paths",
    "equal heights",
    "mixed extremes",
    "damaged scripts",
    "small rooms",
    "family lists in turn",
];
/// The family whose scripts are not drawn, but written one after the other; it is the last.
pub const IN_TURN: usize = FAMILIES.len() - 1;

const UNIT: i32 = 65536;

pub fn case(seed: u64, number: u64) -> Case {
    let mut numbers = Numbers::new(seed, number);
    let n = &mut numbers;
    let family = (number % IN_TURN as u64) as usize;
    let fill = n.bits() as u32;
    let (script, room) = match family {
        0 => roomy(n, plausible),
        1 => roomy(n, tight),
        2 => roomy(n, many_stems),
        3 => roomy(n, extremes),
        4 => roomy(n, em_box),
        5 => roomy(n, family_blues),
        6 => roomy(n, masks),
        7 => roomy(n, long_paths),
        8 => roomy(n, equal_heights),
        9 => roomy(n, mixed_extremes),
        10 => damaged(n),
        _ => small_room(n),
    };
    Case { family, script, room, fill }
}

fn roomy(n: &mut Numbers, make: fn(&mut Numbers) -> Script) -> (Vec<u8>, usize) {
    let script = make(n);
    let room = script.most_words() + n.index(6);
    (script.bytes(), room)
}

/// The heights that a font's glyphs share.
struct Font {
    em: i32,
    x_height: i32,
    capital: i32,
    ascender: i32,
    descender: i32,
    overshoot: i32,
    stem: i32,
}

fn font(n: &mut Numbers) -> Font {
    let em = n.pick(&[1000, 1000, 2048]);
    let part = |n: &mut Numbers, low: i64, high: i64| (n.between(low, high) * em as i64 / 1000) as i32;
    Font {
        em,
        x_height: part(n, 430, 560),
        capital: part(n, 630, 740),
        ascender: part(n, 690, 800),
        descender: part(n, -280, -180),
        overshoot: part(n, 5, 20),
        stem: part(n, 20, 120),
    }
}

/// The scale of a size in pixels to the em.
fn scale_for(n: &mut Numbers, font: &Font) -> i32 {
    let sixty_fourths = if n.one_in(4) { n.between(64, 20_000) } else { n.between(6, 60) * 64 };
    ((sixty_fourths * UNIT as i64 / 64) / font.em as i64).max(1) as i32
}

fn blank(n: &mut Numbers, font: &Font) -> Script {
    Script {
        scale: scale_for(n, font),
        blue_scale: if n.one_in(3) { n.between(0, 6000) as i32 } else { 2597 },
        shift: if n.one_in(3) { n.between(0, 20) as i32 * UNIT } else { 7 * UNIT },
        fuzz: if n.one_in(3) { n.between(0, 3) as i32 * UNIT } else { UNIT },
        group: n.pick(&[0, 0, 0, 0, 1, 2]),
        ..Script::default()
    }
}

fn add_blues(n: &mut Numbers, script: &mut Script, font: &Font) {
    let over = font.overshoot;
    let mut blues = vec![(-over, 0), (font.x_height, font.x_height + over), (font.capital, font.capital + over)];
    if n.one_in(2) {
        blues.push((font.ascender, font.ascender + over));
    }
    while blues.len() < 7 && n.one_in(3) {
        let low = n.between(-200, 900) as i32;
        let height = n.between(-3, 25) as i32;
        blues.push((low, low + height));
    }
    let keep = if n.one_in(5) { n.index(blues.len() + 1) } else { blues.len() };
    blues.truncate(keep);
    let mut others = vec![(font.descender - over, font.descender)];
    while others.len() < 7 && n.one_in(3) {
        let low = n.between(-400, 500) as i32;
        let height = n.between(-3, 25) as i32;
        others.push((low, low + height));
    }
    if n.one_in(4) {
        others.clear();
    }
    script.lists[0] = blues.iter().map(|pair| (pair.0 * UNIT, pair.1 * UNIT)).collect();
    script.lists[1] = others.iter().map(|pair| (pair.0 * UNIT, pair.1 * UNIT)).collect();
}

/// A stem of a glyph in such a font, as min and max.
fn font_stem(n: &mut Numbers, font: &Font) -> (i32, i32) {
    let over = if n.one_in(2) { font.overshoot } else { 0 };
    let wide = font.stem + n.between(-3, 3) as i32;
    let jitter = if n.one_in(6) { n.between(-UNIT as i64, UNIT as i64) as i32 } else { 0 };
    let tops = [font.x_height, font.capital, font.ascender];
    let (min, max) = match n.index(10) {
        0 | 1 => (-over, wide - over),
        2 | 3 => {
            let top = n.pick(&tops) + over;
            (top - wide, top)
        }
        4 => (font.descender - over, font.descender - over + wide),
        5 => {
            let bottom = n.pick(&[0, font.descender, 100]);
            (bottom + 21, bottom)
        }
        6 => {
            let top = n.pick(&tops);
            (top, top - 20)
        }
        7 => {
            let low = n.between(-250, 850) as i32;
            (low + wide, low)
        }
        _ => {
            let low = n.between(-250, 850) as i32;
            (low, low + wide)
        }
    };
    let shift = jitter;
    (min * UNIT + shift, max * UNIT + shift)
}

/// Heights that are worth a point: stems' edges, their neighbourhood, and places between.
fn heights_of(script: &Script) -> Vec<i32> {
    let mut heights: Vec<i32> = script
        .commands
        .iter()
        .filter(|command| command.kind == 1)
        .flat_map(|command| command.operands.clone())
        .collect();
    heights.push(0);
    heights
}

fn height(n: &mut Numbers, known: &[i32]) -> i32 {
    let base = n.pick(known);
    match n.index(6) {
        0 | 1 => base,
        2 => base.wrapping_add(n.between(-3, 3) as i32 * UNIT),
        3 => base.wrapping_add(n.between(-2, 2) as i32),
        4 => {
            let other = n.pick(known);
            base.wrapping_add(other.wrapping_sub(base) / 2)
        }
        _ => n.between(-300 * UNIT as i64, 900 * UNIT as i64) as i32,
    }
}

fn across(n: &mut Numbers) -> i32 {
    n.between(-100, 1100) as i32 * UNIT + if n.one_in(4) { n.bits() & 0xFFFF } else { 0 }
}

fn contour(n: &mut Numbers, script: &mut Script, known: &[i32], strokes: usize) {
    let start = [across(n), height(n, known)];
    if !n.one_in(12) {
        script.put(5, &start);
    }
    for _ in 0..strokes {
        if n.one_in(3) {
            let points: Vec<i32> = (0..3).flat_map(|_| [across(n), height(n, known)]).collect();
            script.put(7, &points);
        } else {
            script.put(6, &[across(n), height(n, known)]);
        }
    }
    if n.one_in(2) {
        script.put(6, &start);
    } else if n.one_in(6) {
        script.put(6, &[start[0], start[1].wrapping_add(1)]);
    }
    if n.one_in(4) {
        script.put(8, &[]);
    }
}

/// Puts mask bytes into the script and a command that names them.
fn put_mask(n: &mut Numbers, script: &mut Script, kind: i32, stems: usize) {
    let length = match n.index(8) {
        0 => n.index(16),
        1 => 12 + n.index(3),
        _ => stems.div_ceil(8),
    };
    if n.one_in(5) && script.masks.len() >= length {
        let start = n.index(script.masks.len() - length + 1);
        script.put(kind, &[start as i32, length as i32]);
        return;
    }
    let start = script.masks.len();
    let dense = n.index(4);
    for _ in 0..length {
        let byte = n.bits() as u8;
        let more = n.bits() as u8;
        script.masks.push(match dense {
            0 => 0xFF,
            1 => byte | more,
            2 => byte & more,
            _ => byte,
        });
    }
    script.put(kind, &[start as i32, length as i32]);
}

fn glyph(n: &mut Numbers, script: &mut Script, stems: usize) {
    let known = heights_of(script);
    if stems > 0 && n.one_in(4) {
        put_mask(n, script, 3, stems);
    }
    for _ in 0..n.between(1, 3) {
        if stems > 0 && n.one_in(3) {
            put_mask(n, script, 2, stems);
        }
        let strokes = n.index(6);
        contour(n, script, &known, strokes);
        if n.one_in(10) && stems > 0 {
            put_mask(n, script, 2, stems);
            script.put(6, &[across(n), height(n, &known)]);
        }
    }
    if !n.one_in(8) {
        script.put(9, &[]);
    }
}

fn plausible(n: &mut Numbers) -> Script {
    let font = font(n);
    let mut script = blank(n, &font);
    add_blues(n, &mut script, &font);
    let stems = n.index(9);
    for _ in 0..stems {
        let (min, max) = font_stem(n, &font);
        script.put(1, &[min, max]);
    }
    glyph(n, &mut script, stems);
    if n.one_in(12) {
        // An accent over a base glyph starts with cleared hints.
        script.put(4, &[]);
        for _ in 0..stems / 2 {
            let (min, max) = font_stem(n, &font);
            script.put(1, &[min, max]);
        }
        glyph(n, &mut script, stems / 2);
    }
    script
}

/// Stems that lie about a pixel apart, so that they stand in each other's way when they are fitted.
fn tight(n: &mut Numbers) -> Script {
    let font = font(n);
    let mut script = blank(n, &font);
    script.scale = n.pick(&[512, 1024, 1500, 2048, 2731, 4096, 8192, 10_000, 65_536]);
    if n.one_in(3) {
        add_blues(n, &mut script, &font);
    }
    let pixel = (UNIT as i64 * UNIT as i64 / script.scale as i64).min(400 * UNIT as i64);
    let count = n.between(2, 12) as usize;
    let mut low = n.between(-3 * pixel, pixel);
    let mut stems = Vec::new();
    let (least, most) = n.pick(&[(2, 12), (5, 15), (8, 24), (1, 30)]);
    for _ in 0..count {
        let wide = n.between(least, most) * pixel / 16;
        let (min, max) = match n.index(8) {
            0 => (low as i32 + 21 * UNIT, low as i32),
            1 => (low as i32, low as i32 - 20 * UNIT),
            2 => ((low + wide) as i32, low as i32),
            _ => (low as i32, (low + wide) as i32),
        };
        stems.push((min, max));
        low += wide + n.between(least, most) * pixel / 16;
    }
    if n.one_in(2) {
        n.shuffle(&mut stems);
    }
    for (min, max) in stems {
        script.put(1, &[min, max]);
    }
    glyph(n, &mut script, count);
    if n.one_in(2) {
        glyph(n, &mut script, count);
    }
    script
}

fn many_stems(n: &mut Numbers) -> Script {
    let font = font(n);
    let mut script = blank(n, &font);
    if n.one_in(3) {
        add_blues(n, &mut script, &font);
    }
    if n.one_in(2) {
        script.scale = n.pick(&[16_384, 32_768, 65_536, 100_000]);
    }
    let count = if n.one_in(2) { n.between(44, 130) } else { n.between(10, 60) } as usize;
    let mut low = n.between(-2000, 0) * UNIT as i64;
    let mut stems = Vec::new();
    let singles = n.pick(&[2, 6, 30]);
    let orderly = n.one_in(2);
    for _ in 0..count {
        let wide = n.between(2, 25) * UNIT as i64;
        let (min, max) = if n.one_in(singles) {
            if n.one_in(2) {
                (low + 21 * UNIT as i64, low)
            } else {
                (low, low - 20 * UNIT as i64)
            }
        } else {
            (low, low + wide)
        };
        stems.push((min as i32, max as i32));
        let gap = if orderly { n.between(2, 12) } else { n.between(-6, 12) };
        low += wide + gap * UNIT as i64;
    }
    if n.one_in(2) {
        n.shuffle(&mut stems);
    }
    for &(min, max) in &stems {
        script.put(1, &[min, max]);
    }
    glyph(n, &mut script, count.min(96));
    if n.one_in(4) {
        script.put(1, &[0, UNIT]);
        glyph(n, &mut script, count.min(96));
    }
    script
}

fn positive_extreme(n: &mut Numbers) -> i32 {
    loop {
        let value = n.extreme();
        if value > 0 {
            return value;
        }
    }
}

fn any_command(n: &mut Numbers, script: &mut Script, value: &mut dyn FnMut(&mut Numbers) -> i32) {
    let kind = n.pick(&[1, 1, 1, 1, 2, 3, 4, 5, 5, 6, 6, 6, 7, 7, 8, 9]);
    if kind == 4 && !n.one_in(3) {
        return;
    }
    if kind == 2 || kind == 3 {
        let stems = script.commands.iter().filter(|command| command.kind == 1).count();
        put_mask(n, script, kind, stems.min(96));
        return;
    }
    let operands: Vec<i32> = (0..operand_count(kind)).map(|_| value(n)).collect();
    script.put(kind, &operands);
}

fn extremes(n: &mut Numbers) -> Script {
    let mut script = Script {
        scale: positive_extreme(n),
        blue_scale: n.extreme(),
        shift: n.extreme(),
        fuzz: n.extreme(),
        group: n.pick(&[0, 0, 0, 1, 2, i32::MIN, i32::MAX]),
        ..Script::default()
    };
    for list in 0..4 {
        for _ in 0..n.index(8) {
            let low = n.extreme();
            let high = if n.one_in(2) { low.wrapping_add(n.extreme()) } else { n.extreme() };
            script.lists[list].push((low, high));
        }
        if n.one_in(3) {
            script.lists[list].clear();
        }
    }
    for _ in 0..n.between(1, 8) {
        let (min, max) = (n.extreme(), n.extreme());
        script.put(1, &[min, max]);
    }
    for _ in 0..n.between(1, 25) {
        any_command(n, &mut script, &mut |n| n.extreme());
    }
    script
}

/// A plausible font with a few values at the ends of the field.
fn mixed_extremes(n: &mut Numbers) -> Script {
    let mut script = match n.index(5) {
        0 => plausible(n),
        1 => tight(n),
        2 => family_blues(n),
        3 => em_box(n),
        _ => equal_heights(n),
    };
    for _ in 0..n.between(1, 4) {
        let value = n.extreme();
        match n.index(9) {
            0 => script.scale = positive_extreme(n),
            1 => script.blue_scale = value,
            2 => script.shift = value,
            3 => script.fuzz = value,
            4 | 5 => {
                let list = n.index(4);
                let length = script.lists[list].len();
                if length > 0 {
                    let pair = &mut script.lists[list][n.index(length)];
                    if n.one_in(2) {
                        pair.0 = value;
                    } else {
                        pair.1 = value;
                    }
                }
            }
            _ => {
                let length = script.commands.len();
                if length == 0 {
                    continue;
                }
                let command = &mut script.commands[n.index(length)];
                if command.kind != 2 && command.kind != 3 && !command.operands.is_empty() {
                    let place = n.index(command.operands.len());
                    command.operands[place] = value;
                }
            }
        }
    }
    script
}

fn em_box(n: &mut Numbers) -> Script {
    let font = font(n);
    let mut script = blank(n, &font);
    script.group = if n.one_in(10) { n.pick(&[0, 2]) } else { 1 };
    let near = |n: &mut Numbers, base: i32| {
        base * UNIT + if n.one_in(2) { n.between(-2, 2) as i32 } else { n.between(-40, 40) as i32 * UNIT }
    };
    match n.index(4) {
        0 | 1 => {}
        2 => {
            let low = (near(n, -150), near(n, -130));
            let high = (near(n, 900), near(n, 930));
            script.lists[0] = vec![low, high];
        }
        _ => {
            let low = (near(n, -120), near(n, -120));
            let high = (near(n, 880), near(n, 880));
            script.lists[0] = vec![low, high];
            if n.one_in(4) {
                script.lists[0].push((0, UNIT));
            }
        }
    }
    if n.one_in(3) {
        script.lists[1].push((-250 * UNIT, -240 * UNIT));
    }
    let stems = n.index(8);
    for _ in 0..stems {
        let low = match n.index(5) {
            0 => near(n, -120),
            1 => near(n, 880),
            2 => near(n, 0),
            _ => n.between(-200, 1000) as i32 * UNIT,
        };
        let wide = match n.index(6) {
            0 => -21,
            1 => -20,
            2 => -(n.between(1, 90) as i32),
            3 => n.pick(&[0, 1000, 1200]),
            _ => n.between(1, 120) as i32,
        } * UNIT;
        script.put(1, &[low, low.wrapping_add(wide)]);
    }
    glyph(n, &mut script, stems);
    script
}

fn family_blues(n: &mut Numbers) -> Script {
    let font = font(n);
    let mut script = blank(n, &font);
    add_blues(n, &mut script, &font);
    if n.one_in(12) {
        script.scale = n.pick(&[1, 2, 3, 4, UNIT, i32::MAX]);
    }
    let pixel = UNIT as i64 * UNIT as i64 / script.scale as i64;
    for (own, family) in [(0, 2), (1, 3)] {
        let count = n.index(8);
        for place in 0..count {
            let base = if n.one_in(3) || script.lists[own].is_empty() {
                (n.between(-250, 800) as i32 * UNIT, n.between(-250, 800) as i32 * UNIT)
            } else {
                let length = script.lists[own].len();
                script.lists[own][if n.one_in(2) { place % length } else { n.index(length) }]
            };
            let off = match n.index(7) {
                0 => 0,
                1 => pixel + n.between(-2, 2),
                2 => -pixel + n.between(-2, 2),
                3 => pixel * n.between(-15, 15) / 16,
                4 => n.pick(&[1, -1, i32::MIN as i64, i32::MAX as i64]),
                _ => n.between(-30, 30) * UNIT as i64,
            } as i32;
            script.lists[family].push((base.0.wrapping_add(off), base.1.wrapping_add(off)));
        }
        if n.one_in(4) {
            script.lists[family].clear();
        }
    }
    let stems = n.between(1, 8) as usize;
    for _ in 0..stems {
        let (min, max) = font_stem(n, &font);
        script.put(1, &[min, max]);
    }
    glyph(n, &mut script, stems);
    script
}

fn masks(n: &mut Numbers) -> Script {
    let font = font(n);
    let mut script = blank(n, &font);
    if n.one_in(2) {
        add_blues(n, &mut script, &font);
    }
    let stems = if n.one_in(3) { n.between(1, 100) } else { n.between(1, 24) } as usize;
    for _ in 0..stems {
        let (min, max) = font_stem(n, &font);
        script.put(1, &[min, max]);
    }
    let known = heights_of(&script);
    for _ in 0..n.between(2, 10) {
        match n.index(8) {
            0 | 1 => put_mask(n, &mut script, 3, stems.min(96)),
            2 | 3 | 4 => put_mask(n, &mut script, 2, stems.min(96)),
            5 => {
                let (min, max) = font_stem(n, &font);
                script.put(1, &[min, max]);
            }
            6 => {
                if n.one_in(4) {
                    script.put(4, &[]);
                }
            }
            _ => {}
        }
        let strokes = n.index(3);
        if n.one_in(2) {
            contour(n, &mut script, &known, strokes);
        } else {
            script.put(6, &[across(n), height(n, &known)]);
        }
    }
    script.put(9, &[]);
    script
}

fn long_paths(n: &mut Numbers) -> Script {
    let mut script = if n.one_in(2) { plausible(n) } else { masks(n) };
    let known = heights_of(&script);
    let stems = script.commands.iter().filter(|command| command.kind == 1).count().min(96);
    let most = if n.one_in(200) { 16_384 } else { n.between(100, 1500) as usize };
    let mut length = script.words().len();
    loop {
        let before = script.clone();
        let strokes = n.index(20);
        contour(n, &mut script, &known, strokes);
        if n.one_in(5) && stems > 0 {
            put_mask(n, &mut script, 2, stems);
        }
        if n.one_in(30) {
            script.put(9, &[]);
        }
        if n.one_in(60) {
            script.put(4, &[]);
        }
        let now = script.words().len();
        if now > most || now == length {
            if now > 16_384 {
                script = before;
            }
            break;
        }
        length = now;
    }
    while most == 16_384 && script.words().len() < most {
        script.put(8, &[]);
    }
    script
}

/// Few heights and simple scales, so that heights, distances and device heights are often equal.
fn equal_heights(n: &mut Numbers) -> Script {
    let step = n.pick(&[8, 16, 32, 20, 21]) * UNIT;
    let mut script = Script {
        scale: n.pick(&[1024, 2048, 4096, 32_768, 65_536]),
        blue_scale: n.pick(&[0, 2048, 2597, 4096]),
        shift: n.pick(&[0, 8, 16, 7]) * UNIT,
        fuzz: n.pick(&[0, 0, 1, -1]) * UNIT,
        group: n.pick(&[0, 0, 0, 1]),
        ..Script::default()
    };
    let mut value = |n: &mut Numbers| n.between(-4, 10) as i32 * step;
    for list in 0..4 {
        if n.one_in(2) {
            for _ in 0..n.index(5) {
                let low = value(n);
                script.lists[list].push((low, low + n.between(-1, 1) as i32 * step));
            }
        }
    }
    for _ in 0..n.index(7) {
        let (min, max) = (value(n), value(n));
        script.put(1, &[min, max]);
    }
    for _ in 0..n.between(1, 20) {
        any_command(n, &mut script, &mut value);
    }
    script
}

fn sound(n: &mut Numbers) -> Script {
    match n.index(6) {
        0 => plausible(n),
        1 => tight(n),
        2 => em_box(n),
        3 => family_blues(n),
        4 => masks(n),
        _ => equal_heights(n),
    }
}

fn other_word(n: &mut Numbers, old: i32) -> i32 {
    match n.index(8) {
        0 => old.wrapping_add(1),
        1 => old.wrapping_sub(1),
        2 => old.wrapping_add(n.between(-9, 9) as i32),
        3 => 0,
        4 => -1,
        5 => n.pick(&[i32::MIN, i32::MAX, 7, 8, 9, 63, 64, 65, 66]),
        _ => n.extreme(),
    }
}

fn damaged(n: &mut Numbers) -> (Vec<u8>, usize) {
    let mut script = sound(n);
    let room = script.most_words() + n.index(6);
    let mut places = Vec::new();
    let mut at = script.words()[4] as usize;
    for command in &script.commands {
        places.push((at, command.kind));
        at += 1 + command.operands.len();
    }
    let damage = n.index(16);
    if damage == 0 && script.masks.len() % 4 == 0 {
        script.masks.push(n.bits() as u8);
    }
    let mut words = script.words();
    match damage {
        0 => {
            // The padding after the masks is not zero.
            let last = words.len() - 1;
            words[last] |= (n.bits() | 1) << (8 * (script.masks.len() % 4));
        }
        1 | 2 | 3 => {
            let place = n.index(8);
            words[place] = other_word(n, words[place]);
        }
        4 => {
            let place = 12 + n.index(4);
            words[place] = other_word(n, words[place]);
        }
        5 if !places.is_empty() => {
            let (place, _) = n.pick(&places);
            words[place] = n.pick(&[0, 10, -1, i32::MIN, i32::MAX, 11, 256]);
        }
        6 => {
            // The last command loses operands, and the header agrees.
            let mut cut = script.clone();
            while cut.commands.last().is_some_and(|command| command.operands.is_empty()) {
                cut.commands.pop();
            }
            if let Some(last) = cut.commands.last_mut() {
                let keep = n.index(last.operands.len());
                last.operands.truncate(keep);
            }
            words = cut.words();
        }
        7 | 8 => {
            let masked: Vec<usize> =
                places.iter().filter(|(_, kind)| *kind == 2 || *kind == 3).map(|(place, _)| *place).collect();
            if let Some(&place) = masked.get(n.index(masked.len().max(1))) {
                let end = words[7];
                let which = place + 1 + n.index(2);
                words[which] = match n.index(7) {
                    0 => -1,
                    1 => end,
                    2 => end + 1,
                    3 => i32::MAX,
                    4 => i32::MIN,
                    5 => end.wrapping_sub(words[place + 1]).wrapping_add(n.between(-1, 1) as i32),
                    _ => n.extreme(),
                };
            }
        }
        9 => words[1] = n.pick(&[0, -1, i32::MIN, -65_536]),
        10 => {
            let place = n.index(words.len());
            words[place] = other_word(n, words[place]);
        }
        11 => {
            // The counts move from one list to the next, which is no fault, or only one changes.
            let from = 12 + n.index(4);
            let to = 12 + n.index(4);
            words[from] -= 1;
            if n.one_in(2) {
                words[to] += 1;
            }
        }
        12 => {
            // Close commands fill the script up to its greatest length or beyond it.
            let wanted = 16_384 + n.between(-1, 1) as usize;
            while script.words().len() < wanted {
                let missing = wanted - script.words().len();
                for _ in 0..missing {
                    script.put(8, &[]);
                }
            }
            words = script.words();
        }
        _ => {}
    }
    let mut bytes: Vec<u8> = words.iter().flat_map(|word| word.to_le_bytes()).collect();
    match damage {
        13 => {
            let length = if n.one_in(2) { n.index(40) } else { n.index(bytes.len() + 1) };
            bytes.truncate(length);
        }
        14 => {
            for _ in 0..n.between(1, 8) {
                bytes.push(if n.one_in(2) { 0 } else { n.bits() as u8 });
            }
        }
        15 => {
            let place = n.index(bytes.len());
            bytes[place] ^= 1 << n.index(8);
        }
        _ => {}
    }
    (bytes, if n.one_in(10) { n.index(8) } else { room })
}

fn small_room(n: &mut Numbers) -> (Vec<u8>, usize) {
    let script = sound(n);
    let most = script.most_words();
    let room = match n.index(4) {
        0 => n.index(8),
        1 => n.index(30),
        _ => n.index(most + 2),
    };
    (script.bytes(), room)
}
