//! The hint map: mapping heights, inserting edges, fitting them to pixels, and building it from stems.

use crate::branch::{see, Branch::*};
use crate::numbers::*;
use crate::stems::{Edge, Kind, Mask, Stem};
use crate::zones::Zones;

pub const ROOM: usize = 96;

#[derive(Clone, Debug, Default)]
pub struct Map {
    pub edges: Vec<Edge>,
    pub valid: bool,
}

impl Map {
    pub fn height(&self, height: i32, scale: i32) -> i32 {
        if see(map_is_empty, self.edges.is_empty()) {
            return mul(height, scale);
        }
        let first = self.edges[0];
        if see(map_under_all, height < first.height) {
            return add(mul(sub(height, first.height), scale), first.device);
        }
        let place = self.edges.iter().rposition(|edge| edge.height <= height).unwrap();
        see(map_above_all, place + 1 == self.edges.len());
        let edge = self.edges[place];
        add(mul(sub(height, edge.height), edge.scale), edge.device)
    }

    /// Inserts a pair or a single edge unless a rule drops it.
    pub fn insert(&mut self, bottom: Option<Edge>, top: Option<Edge>, scale: i32, initial: Option<&Map>) -> bool {
        let (mut first, mut second) = match (bottom, top) {
            (Some(low), Some(high)) => (low, Some(high)),
            (Some(only), None) | (None, Some(only)) => (only, None),
            (None, None) => unreachable!(),
        };
        if let Some(high) = second {
            if see(insert_pair_top_under_bottom, high.height < first.height) {
                return false;
            }
        }
        let new = 1 + second.is_some() as usize;
        if see(insert_past_room, self.edges.len() + new > ROOM) {
            see(insert_past_room_by_one, self.edges.len() + 1 == ROOM);
            return false;
        }
        let place = self.edges.iter().position(|edge| edge.height >= first.height).unwrap_or(self.edges.len());
        let after = self.edges.get(place).copied();
        see(insert_edge_stands_there, after.is_some());
        if let Some(there) = after {
            if see(insert_equal_height, there.height == first.height) {
                return false;
            }
            if see(insert_pair_reaches, second.is_some_and(|high| high.height >= there.height)) {
                return false;
            }
            if see(insert_inside_pair, there.kind == Kind::PairTop) {
                return false;
            }
        }
        if see(insert_first_is_unlocked, !first.locked) {
            see(insert_initial_is_given, initial.is_some());
            if let Some(initial) = initial {
                see(insert_replaces_pair, second.is_some());
                if let Some(high) = &mut second {
                    let middle = initial.height(midpoint(first.height, high.height), scale);
                    let reach = mul(half(sub(high.height, first.height)), scale);
                    first.device = sub(middle, reach);
                    high.device = add(middle, reach);
                } else {
                    first.device = initial.height(first.height, scale);
                }
            }
        }
        if see(insert_edge_before, place > 0) && see(insert_below_before, first.device < self.edges[place - 1].device) {
            return false;
        }
        if let Some(there) = after {
            if see(insert_first_above_after, first.device > there.device) {
                return false;
            }
            if second.is_some_and(|high| see(insert_second_above_after, high.device > there.device)) {
                return false;
            }
        }
        first.scale = scale;
        self.edges.insert(place, first);
        if let Some(mut high) = second {
            high.scale = scale;
            self.edges.insert(place + 1, high);
        }
        true
    }

    fn room_up(&self, upper: usize, by: i32) -> bool {
        match self.edges.get(upper + 1) {
            None => true,
            Some(above) => above.device >= add(add(self.edges[upper].device, by), HALF),
        }
    }

    fn room_down(&self, lower: usize, by: i32) -> bool {
        lower == 0 || self.edges[lower - 1].device <= sub(sub(self.edges[lower].device, by), HALF)
    }

    fn rescale(&mut self, place: usize) {
        if !see(adjust_edge_before, place > 0) {
            return;
        }
        let (before, here) = (self.edges[place - 1], self.edges[place]);
        if !see(adjust_heights_equal, before.height == here.height) {
            self.edges[place - 1].scale = div(sub(here.device, before.device), sub(here.height, before.height));
        }
    }

    pub fn adjust(&mut self) {
        let mut notes: Vec<(usize, usize, i32)> = Vec::new();
        let mut lower = 0;
        while lower < self.edges.len() {
            let is_pair = see(adjust_is_pair, self.edges[lower].kind == Kind::PairBottom);
            let upper = if is_pair { lower + 1 } else { lower };
            if !see(adjust_is_locked, self.edges[lower].locked) {
                let down_of = |place: usize| fraction(self.edges[place].device);
                let up_of = |place: usize| match down_of(place) {
                    0 => 0,
                    part => ONE - part,
                };
                see(adjust_upper_edge_gives_up, up_of(upper) < up_of(lower));
                see(adjust_upper_edge_gives_down, down_of(upper) < down_of(lower));
                let up = up_of(lower).min(up_of(upper));
                let down = down_of(lower).min(down_of(upper));
                let above = self.edges.get(upper + 1).copied();
                see(adjust_edge_above, above.is_some());
                see(adjust_edge_below, lower > 0);
                let can_up = see(adjust_room_up, self.room_up(upper, up));
                let can_down = see(adjust_room_down, self.room_down(lower, down));
                let (by, noted) = match (can_up, can_down) {
                    (true, true) => {
                        see(adjust_both, true);
                        see(adjust_tie, up == down);
                        (if see(adjust_down_is_shorter, down < up) { neg(down) } else { up }, false)
                    }
                    (true, false) => {
                        see(adjust_only_up, true);
                        (up, false)
                    }
                    (false, true) => {
                        see(adjust_only_down, true);
                        (neg(down), see(adjust_up_was_shorter, up < down))
                    }
                    (false, false) => {
                        see(adjust_stays, true);
                        (0, true)
                    }
                };
                if noted {
                    let free = above.is_some_and(|edge| !edge.locked);
                    see(adjust_note_edge_locked, !free);
                    if see(adjust_noted, free) {
                        notes.push((lower, upper, sub(up, by)));
                    }
                }
                for place in lower..=upper {
                    self.edges[place].device = add(self.edges[place].device, by);
                }
            }
            for place in lower..=upper {
                self.rescale(place);
            }
            lower = upper + 1;
        }
        see(second_pass_several, notes.len() > 1);
        for (lower, upper, missing) in notes.into_iter().rev() {
            if see(second_pass_room, self.room_up(upper, missing)) {
                for place in lower..=upper {
                    self.edges[place].device = add(self.edges[place].device, missing);
                }
            }
        }
    }

    fn start(zones: &Zones, scale: i32) -> Map {
        let mut map = Map::default();
        if see(build_em_box, zones.em_box) {
            let low = -120 * ONE - 1;
            let high = 880 * ONE + 1;
            let ghost = |kind, height, device| Edge { kind, height, device, scale, locked: true, stem: None };
            let bottom = ghost(Kind::BottomGhost, low, sub(round(mul(low, scale)), HALF));
            let top = ghost(Kind::TopGhost, high, add(round(mul(high, scale)), HALF));
            map.insert(Some(bottom), None, scale, None);
            map.insert(None, Some(top), scale, None);
        }
        map
    }

    /// Inserts the active stems that are used or that a zone captures, and says which stems are handled.
    fn insert_held(
        &mut self,
        stems: &[Stem],
        mask: Mask,
        zones: &Zones,
        scale: i32,
        initial: Option<&Map>,
    ) -> Vec<bool> {
        let mut handled = vec![false; stems.len()];
        for (number, stem) in stems.iter().enumerate() {
            if !see(mask_selects_stem, mask.selects(number)) {
                continue;
            }
            let (mut bottom, mut top) = stem.edges(number, scale);
            let held = see(build_stem_is_locked, stem.used)
                || see(build_stem_is_captured, zones.capture(&mut bottom, &mut top));
            if held {
                let entered = self.insert(bottom, top, scale, initial);
                see(build_captured_is_dropped, !entered);
                handled[number] = true;
            }
        }
        handled
    }

    pub fn build_initial(stems: &[Stem], zones: &Zones, scale: i32) -> Map {
        see(build_for_initial, true);
        let mut map = Map::start(zones, scale);
        map.insert_held(stems, Mask::all(), zones, scale, None);
        let none = see(build_baseline_no_edges, map.edges.is_empty());
        let needed = none
            || see(build_baseline_all_above, map.edges.iter().all(|edge| edge.height > 0))
            || see(build_baseline_all_below, map.edges.iter().all(|edge| edge.height < 0));
        if needed {
            let ghost = Edge { kind: Kind::BottomGhost, height: 0, device: 0, scale, locked: true, stem: None };
            map.insert(Some(ghost), None, scale, None);
        }
        map.adjust();
        map.valid = true;
        map
    }

    pub fn build(stems: &mut [Stem], mask: Mask, zones: &Zones, scale: i32, initial: &Map) -> Map {
        see(build_for_initial, false);
        see(mask_selects_undeclared_stem, (stems.len()..96).any(|number| mask.selects(number)));
        let mut map = Map::start(zones, scale);
        let handled = map.insert_held(stems, mask, zones, scale, Some(initial));
        for (number, stem) in stems.iter().enumerate() {
            if mask.selects(number) && !see(build_stem_is_handled, handled[number]) {
                let (bottom, top) = stem.edges(number, scale);
                map.insert(bottom, top, scale, Some(initial));
            }
        }
        map.adjust();
        for edge in &map.edges {
            see(build_edge_is_synthetic, edge.stem.is_none());
            let Some(number) = edge.stem else { continue };
            let stem = &mut stems[number];
            match edge.kind {
                Kind::BottomGhost | Kind::PairBottom => stem.saved_bottom = edge.device,
                Kind::TopGhost | Kind::PairTop => stem.saved_top = edge.device,
            }
            stem.used = true;
        }
        map.valid = true;
        map
    }
}
