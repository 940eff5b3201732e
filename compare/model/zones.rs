//! The zones that a font's blues make at a scale, and the capture of stems by them.

use crate::branch::{see, Branch::*};
use crate::numbers::*;
use crate::stems::Edge;

pub type Pair = (i32, i32);

#[derive(Clone, Default, Debug)]
pub struct Parameters {
    pub blue_scale: i32,
    pub blue_shift: i32,
    pub blue_fuzz: i32,
    pub language_group: i32,
    pub blues: Vec<Pair>,
    pub other_blues: Vec<Pair>,
    pub family_blues: Vec<Pair>,
    pub family_other_blues: Vec<Pair>,
}

#[derive(Clone, Debug)]
pub struct Zone {
    pub is_bottom: bool,
    pub bottom: i32,
    pub top: i32,
    pub flat: i32,
    pub device_flat: i32,
}

#[derive(Clone, Debug)]
pub struct Zones {
    pub em_box: bool,
    pub suppress: bool,
    pub boost: i32,
    pub shift: i32,
    pub fuzz: i32,
    pub zones: Vec<Zone>,
}

const EM_BOTTOM: i32 = -120 * ONE;
const EM_TOP: i32 = 880 * ONE;

fn em_box_wanted(given: &Parameters) -> bool {
    if !see(group_is_one, given.language_group == 1) {
        return false;
    }
    if see(em_box_without_blues, given.blues.is_empty()) {
        return true;
    }
    let wide = given.blues.len() == 2 && {
        let (low, high) = (given.blues[0], given.blues[1]);
        low.0 < EM_BOTTOM && low.1 < EM_BOTTOM && high.0 > EM_TOP && high.1 > EM_TOP
    };
    see(em_box_with_two_blues, wide)
}

/// The nearest of some heights to a flat edge, with its distance.
fn nearest_height(flat: i32, heights: impl Iterator<Item = i32>, limit: i32) -> Option<(i32, i32)> {
    let mut best: Option<(i32, i32)> = None;
    for height in heights {
        let distance = abs(sub(flat, height));
        if !see(family_distance_counts, distance < limit) {
            continue;
        }
        if see(family_distance_is_nearer, best.is_none_or(|(_, least)| distance < least)) {
            best = Some((height, distance));
        }
        if see(family_distance_is_zero, distance == 0) {
            break;
        }
    }
    best
}

impl Zones {
    pub fn new(given: &Parameters, scale: i32) -> Zones {
        let mut made = Zones {
            em_box: false,
            suppress: false,
            boost: 0,
            shift: given.blue_shift,
            fuzz: given.blue_fuzz,
            zones: Vec::new(),
        };
        if em_box_wanted(given) {
            made.em_box = true;
            return made;
        }
        let mut greatest = 0;
        for &(bottom, top) in &given.blues {
            let height = sub(top, bottom);
            if see(blue_height_is_negative, height < 0) {
                continue;
            }
            greatest = greatest.max(height);
            let is_bottom = see(blue_is_first_kept, made.zones.is_empty());
            let flat = if is_bottom { top } else { bottom };
            made.zones.push(Zone { is_bottom, bottom, top, flat, device_flat: 0 });
        }
        see(other_blue_past_five, given.other_blues.len() > 5);
        for &(bottom, top) in given.other_blues.iter().take(5) {
            let height = sub(top, bottom);
            if see(other_blue_height_is_negative, height < 0) {
                continue;
            }
            greatest = greatest.max(height);
            made.zones.push(Zone { is_bottom: true, bottom, top, flat: top, device_flat: 0 });
        }

        let limit = div(ONE, scale);
        for zone in &mut made.zones {
            let own = zone.flat;
            let found = if zone.is_bottom {
                see(family_for_bottom_zone, !given.family_other_blues.is_empty());
                let tops = given.family_other_blues.iter().map(|pair| pair.1);
                let best = nearest_height(own, tops, limit);
                let (searched, least) = (best.map(|found| found.0), best.map_or(i32::MAX, |found| found.1));
                let first = given.family_blues.first().map(|pair| pair.1);
                let closer = first.filter(|&height| {
                    let distance = abs(sub(own, height));
                    see(first_family_blue_counts, distance < limit)
                        && see(first_family_blue_is_nearer, distance < least)
                });
                see(first_family_blue_after_zero, closer.is_some() && least == 0);
                closer.or(searched)
            } else {
                see(family_for_top_zone, given.family_blues.len() > 1);
                let bottoms = given.family_blues.iter().skip(1).map(|pair| pair.0);
                nearest_height(own, bottoms, limit).map(|found| found.0)
            };
            if see(family_moved_flat_edge, found.is_some_and(|height| height != own)) {
                zone.flat = found.unwrap();
            }
        }

        let mut blue_scale = given.blue_scale;
        if see(greatest_height_above_zero, greatest > 0) {
            let most = div(ONE, greatest);
            if see(blue_scale_is_clamped, blue_scale > most) {
                blue_scale = most;
            }
        }
        if see(overshoot_is_suppressed, scale < blue_scale) {
            made.suppress = true;
            made.boost = sub(39322, mul_div(39322, scale, blue_scale));
            if see(boost_is_capped, made.boost > 0x7FFF) {
                made.boost = 0x7FFF;
            }
        }
        for zone in &mut made.zones {
            let boost = if zone.is_bottom { neg(made.boost) } else { made.boost };
            zone.device_flat = round(add(mul(zone.flat, scale), boost));
        }
        made
    }

    /// Moves and locks a stem's edges if a zone holds one of them, and says whether one does.
    pub fn capture(&self, bottom: &mut Option<Edge>, top: &mut Option<Edge>) -> bool {
        for (index, zone) in self.zones.iter().enumerate() {
            let edge = if see(capture_zone_is_bottom, zone.is_bottom) {
                see(capture_bottom_edge_valid, bottom.is_some());
                *bottom
            } else {
                see(capture_top_edge_valid, top.is_some());
                *top
            };
            let Some(edge) = edge else { continue };
            let held = sub(zone.bottom, self.fuzz) <= edge.height && edge.height <= add(zone.top, self.fuzz);
            see(if zone.is_bottom { capture_bottom_held } else { capture_top_held }, held);
            if !held {
                continue;
            }
            see(capture_by_later_zone, index > 0);
            let target = if see(capture_suppressed, self.suppress) {
                zone.device_flat
            } else if zone.is_bottom {
                let rounded = round(edge.device);
                if see(capture_bottom_beyond_shift, sub(zone.top, edge.height) >= self.shift) {
                    let limit = sub(zone.device_flat, ONE);
                    see(capture_bottom_limited, limit < rounded);
                    rounded.min(limit)
                } else {
                    rounded
                }
            } else {
                let rounded = round(edge.device);
                if see(capture_top_beyond_shift, sub(edge.height, zone.bottom) >= self.shift) {
                    let limit = add(zone.device_flat, ONE);
                    see(capture_top_limited, limit > rounded);
                    rounded.max(limit)
                } else {
                    rounded
                }
            };
            let by = sub(target, edge.device);
            see(capture_moves_other_edge, bottom.is_some() && top.is_some());
            for moved in [bottom, top].into_iter().flatten() {
                moved.device = add(moved.device, by);
                moved.locked = true;
            }
            return true;
        }
        false
    }
}
