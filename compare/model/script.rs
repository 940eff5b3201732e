//! The script: its checks in order, and the run of its commands into a lent output.

use crate::branch::{see, Branch::*};
use crate::drawing::{Drawing, Records};
use crate::zones::{Parameters, Zones};

pub const OK: i32 = 0;
pub const BAD_SCRIPT: i32 = 1;
pub const BAD_SCALE: i32 = 2;
pub const BAD_BLUES: i32 = 3;
pub const BAD_COMMAND: i32 = 4;
pub const BAD_MASK: i32 = 5;
pub const NO_ROOM: i32 = 6;

/// A refusal's number and place.
pub type Refusal = (i32, i64);

pub struct Checked<'a> {
    pub scale: i32,
    pub parameters: Parameters,
    pub words: Vec<i32>,
    /// The place of the first command's kind word.
    pub first: usize,
    /// The place after the last command.
    pub end: usize,
    pub masks: &'a [u8],
}

fn operands(kind: i32) -> usize {
    match kind {
        1 | 2 | 3 | 5 | 6 => 2,
        7 => 6,
        _ => 0,
    }
}

fn must(branch: crate::branch::Branch, held: bool, number: i32, place: i64) -> Result<(), Refusal> {
    if see(branch, held) {
        Ok(())
    } else {
        Err((number, place))
    }
}

pub fn check(script: &[u8]) -> Result<Checked<'_>, Refusal> {
    let length = script.len();
    must(script_length_fits, length >= 32 && length <= 65536 && length % 4 == 0, BAD_SCRIPT, 0)?;
    let words: Vec<i32> =
        script.chunks_exact(4).map(|four| i32::from_le_bytes([four[0], four[1], four[2], four[3]])).collect();
    let total = words.len() as i64;
    let word = |place: usize| words[place] as i64;
    must(script_version_is_one, word(0) == 1, BAD_SCRIPT, 0)?;
    must(script_parameters_at_eight, word(2) == 8, BAD_SCRIPT, 2)?;
    must(script_parameter_count_fits, (8..=64).contains(&word(3)), BAD_SCRIPT, 3)?;
    must(script_commands_follow, word(4) == 8 + word(3), BAD_SCRIPT, 4)?;
    must(script_commands_end_inside, word(5) >= 0 && word(4) + word(5) <= total, BAD_SCRIPT, 5)?;
    must(script_masks_follow, word(6) == word(4) + word(5), BAD_SCRIPT, 6)?;
    must(script_masks_end_script, word(7) >= 0 && word(6) + (word(7) + 3) / 4 == total, BAD_SCRIPT, 7)?;
    let masks_at = words[6] as usize * 4;
    let masks_end = masks_at + words[7] as usize;
    must(script_padding_is_zero, script[masks_end..].iter().all(|&byte| byte == 0), BAD_SCRIPT, 7)?;
    must(script_scale_is_positive, word(1) >= 1, BAD_SCALE, 1)?;
    for place in 12..16 {
        must(script_list_counts_fit, (0..=7).contains(&word(place)), BAD_BLUES, place as i64)?;
    }
    let pairs: i64 = (12..16).map(word).sum();
    must(script_pairs_fill_parameters, word(3) == 8 + 2 * pairs, BAD_SCRIPT, 3)?;

    let first = words[4] as usize;
    let end = words[6] as usize;
    let masks = &script[masks_at..masks_end];
    let mut place = first;
    while place < end {
        let kind = words[place];
        must(command_kind_is_known, (1..=9).contains(&kind), BAD_COMMAND, place as i64)?;
        let next = place + 1 + operands(kind);
        must(command_operands_are_there, next <= end, BAD_COMMAND, place as i64)?;
        if kind == 2 || kind == 3 {
            let (start, length) = (word(place + 1), word(place + 2));
            let inside = start >= 0 && length >= 0 && start + length <= masks.len() as i64;
            must(command_mask_is_inside, inside, BAD_MASK, place as i64)?;
        }
        place = next;
    }

    let mut from = 16;
    let mut list = |count: i32| {
        let mut pairs = Vec::new();
        for _ in 0..count {
            pairs.push((words[from], words[from + 1]));
            from += 2;
        }
        pairs
    };
    let parameters = Parameters {
        blue_scale: words[8],
        blue_shift: words[9],
        blue_fuzz: words[10],
        language_group: words[11],
        blues: list(words[12]),
        other_blues: list(words[13]),
        family_blues: list(words[14]),
        family_other_blues: list(words[15]),
    };
    Ok(Checked { scale: words[1], parameters, first, end, masks, words })
}

/// Runs a script into the lent words and answers number and place.
pub fn run(script: &[u8], out: &mut [i32]) -> (i32, i32) {
    let checked = match check(script) {
        Ok(checked) => checked,
        Err((number, place)) => return (number, place as i32),
    };
    if !see(room_for_header, out.len() >= 4) {
        return (NO_ROOM, checked.first as i32);
    }
    let zones = Zones::new(&checked.parameters, checked.scale);
    let mut drawing = Drawing::new(zones, checked.scale);
    let words = &checked.words;
    let mut free = 4;
    let mut count = 0;
    let mut place = checked.first;
    while place < checked.end {
        let kind = words[place];
        let given = &words[place + 1..place + 1 + operands(kind)];
        let mut records = Records::default();
        let mask = || &checked.masks[given[0] as usize..][..given[1] as usize];
        match kind {
            1 => {
                see(run_stem, true);
                drawing.stem(given[0], given[1]);
            }
            2 => {
                see(run_hint_mask, true);
                drawing.hint_mask(mask());
            }
            3 => {
                see(run_counter_mask, true);
                drawing.counter_mask(mask());
            }
            4 => {
                see(run_clear, true);
                drawing.clear();
            }
            5 => {
                see(run_move, true);
                drawing.move_to(given[0], given[1], &mut records);
            }
            6 => {
                see(run_line, true);
                drawing.line_to(given[0], given[1], &mut records);
            }
            7 => {
                see(run_curve, true);
                drawing.curve_to([(given[0], given[1]), (given[2], given[3]), (given[4], given[5])], &mut records);
            }
            8 => {
                see(run_close, true);
            }
            _ => {
                see(run_finish, true);
                drawing.finish(&mut records);
            }
        }
        if !see(call_fits, records.words.len() <= out.len() - free) {
            return (NO_ROOM, place as i32);
        }
        see(call_without_records_in_no_room, records.words.is_empty() && out.len() == free);
        out[free..free + records.words.len()].copy_from_slice(&records.words);
        free += records.words.len();
        count += records.count;
        place += 1 + given.len();
    }
    out[..4].copy_from_slice(&[1, count, 4, free as i32 - 4]);
    (OK, 0)
}
