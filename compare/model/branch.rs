//! Marks of the model's branches: for every named condition, whether it came out false and whether true.

use std::sync::atomic::{AtomicU64, Ordering::Relaxed};

macro_rules! branches {
    ($($name:ident),* $(,)?) => {
        #[derive(Copy, Clone)]
        #[allow(non_camel_case_types)]
        pub enum Branch { $($name),* }
        pub const NAMES: &[&str] = &[$(stringify!($name)),*];
    };
}

branches! {
    // Cases of a match, which happen or not.
    run_stem, run_hint_mask, run_counter_mask, run_clear, run_move, run_line, run_curve, run_close, run_finish,
    adjust_both, adjust_only_up, adjust_only_down, adjust_stays,
    // The script.
    script_length_fits, script_version_is_one, script_parameters_at_eight, script_parameter_count_fits,
    script_commands_follow, script_commands_end_inside, script_masks_follow, script_masks_end_script,
    script_padding_is_zero, script_scale_is_positive, script_list_counts_fit, script_pairs_fill_parameters,
    command_kind_is_known, command_operands_are_there, command_mask_is_inside, room_for_header,
    call_fits, call_without_records_in_no_room,
    // Zones.
    group_is_one, em_box_without_blues, em_box_with_two_blues, blue_height_is_negative, blue_is_first_kept,
    other_blue_height_is_negative, other_blue_past_five, family_distance_counts, family_distance_is_nearer,
    family_distance_is_zero, family_for_bottom_zone, family_for_top_zone, family_moved_flat_edge,
    first_family_blue_counts, first_family_blue_is_nearer, first_family_blue_after_zero,
    greatest_height_above_zero, blue_scale_is_clamped, overshoot_is_suppressed, boost_is_capped,
    capture_zone_is_bottom, capture_bottom_edge_valid, capture_top_edge_valid,
    capture_bottom_held, capture_top_held, capture_suppressed, capture_bottom_beyond_shift,
    capture_top_beyond_shift, capture_bottom_limited, capture_top_limited, capture_moves_other_edge,
    capture_by_later_zone,
    // Stems and masks.
    stem_is_ninety_seventh, stem_map_is_valid, stem_bottom_ghost, stem_top_ghost, stem_is_swapped,
    stem_is_used, stem_width_is_zero, stem_swapped_still_crossed, mask_over_twelve, mask_is_empty, mask_under_twelve,
    mask_equals_present, mask_selects_stem, mask_selects_undeclared_stem,
    // Insertion.
    insert_pair_top_under_bottom, insert_past_room, insert_past_room_by_one, insert_edge_stands_there,
    insert_equal_height, insert_pair_reaches, insert_inside_pair, insert_first_is_unlocked,
    insert_initial_is_given, insert_replaces_pair, insert_edge_before, insert_below_before,
    insert_first_above_after, insert_second_above_after,
    // Mapping.
    map_is_empty, map_under_all, map_above_all,
    // Adjusting.
    adjust_is_pair, adjust_is_locked, adjust_upper_edge_gives_up, adjust_upper_edge_gives_down,
    adjust_edge_above, adjust_room_up, adjust_edge_below, adjust_room_down, adjust_down_is_shorter,
    adjust_tie, adjust_up_was_shorter, adjust_note_edge_locked,
    adjust_noted, adjust_edge_before, adjust_heights_equal, second_pass_room, second_pass_several,
    // Building.
    build_initial_is_valid, build_em_box, build_for_initial, build_stem_is_locked, build_stem_is_captured,
    build_baseline_no_edges, build_baseline_all_above, build_baseline_all_below, build_stem_is_handled,
    build_edge_is_synthetic, build_captured_is_dropped,
    // Drawing.
    drawing_map_is_valid, hint_mask_with_open_path, close_with_start, close_with_waiting_line, close_line_equals_start,
    close_drops_lone_line, waiting_line_is_emitted, clear_with_waiting_line, counter_mask_with_valid_map,
    counter_mask_with_valid_initial, point_after_counter_mask,
}

/// How many of the first names are cases of a match.
pub const EVENTS: usize = 13;
pub const COUNT: usize = NAMES.len() * 2;
pub const WORDS: usize = COUNT.div_ceil(64);
pub type Set = [u64; WORDS];

static SEEN: [AtomicU64; WORDS] = [const { AtomicU64::new(0) }; WORDS];

/// Notes that a condition came out so, and hands it on.
pub fn see(branch: Branch, held: bool) -> bool {
    let bit = branch as usize * 2 + held as usize;
    let word = &SEEN[bit / 64];
    word.store(word.load(Relaxed) | 1 << (bit % 64), Relaxed);
    held
}

/// The branches seen since the last call.
pub fn take() -> Set {
    let mut set = [0; WORDS];
    for (to, from) in set.iter_mut().zip(&SEEN) {
        *to = from.load(Relaxed);
        from.store(0, Relaxed);
    }
    set
}

/// Whether a bit stands for something that could be seen.
pub fn can_be(bit: usize) -> bool {
    bit / 2 >= EVENTS || bit % 2 == 1
}

pub fn name(bit: usize) -> String {
    format!("{} {}", NAMES[bit / 2], if bit % 2 == 1 { "yes" } else { "no" })
}
