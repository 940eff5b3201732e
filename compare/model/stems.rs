//! Masks of active stems, stems, and the edges that a stem has.

use crate::branch::{see, Branch::*};
use crate::numbers::*;

#[derive(Copy, Clone, PartialEq, Eq, Debug)]
pub enum Kind {
    BottomGhost,
    TopGhost,
    PairBottom,
    PairTop,
}

#[derive(Copy, Clone, Debug)]
pub struct Edge {
    pub kind: Kind,
    pub height: i32,
    pub device: i32,
    pub scale: i32,
    pub locked: bool,
    /// The stem's number, or nothing for a synthetic edge.
    pub stem: Option<usize>,
}

#[derive(Copy, Clone, PartialEq, Eq, Debug)]
pub struct Mask([u8; 12]);

impl Mask {
    pub fn all() -> Mask {
        Mask([0xFF; 12])
    }

    pub fn from_bytes(bytes: &[u8]) -> Mask {
        see(mask_is_empty, bytes.is_empty());
        if see(mask_over_twelve, bytes.len() > 12) {
            return Mask::all();
        }
        see(mask_under_twelve, bytes.len() < 12);
        let mut mask = Mask([0; 12]);
        mask.0[..bytes.len()].copy_from_slice(bytes);
        mask
    }

    pub fn selects(&self, stem: usize) -> bool {
        self.0[stem / 8] & (0x80 >> (stem % 8)) != 0
    }
}

#[derive(Copy, Clone, Debug)]
pub struct Stem {
    pub min: i32,
    pub max: i32,
    /// The device heights of the bottom and the top edge, saved once the stem is used.
    pub used: bool,
    pub saved_bottom: i32,
    pub saved_top: i32,
}

impl Stem {
    pub fn new(min: i32, max: i32) -> Stem {
        Stem { min, max, used: false, saved_bottom: 0, saved_top: 0 }
    }

    /// The bottom and the top edge, one of them absent for a ghost.
    pub fn edges(&self, number: usize, scale: i32) -> (Option<Edge>, Option<Edge>) {
        let used = see(stem_is_used, self.used);
        let edge = |kind, height, saved| Edge {
            kind,
            height,
            device: if used { saved } else { mul(height, scale) },
            scale,
            locked: used,
            stem: Some(number),
        };
        let width = sub(self.max, self.min);
        see(stem_width_is_zero, width == 0);
        if see(stem_bottom_ghost, width == -21 * ONE) {
            return (Some(edge(Kind::BottomGhost, self.max, self.saved_bottom)), None);
        }
        if see(stem_top_ghost, width == -20 * ONE) {
            return (None, Some(edge(Kind::TopGhost, self.min, self.saved_top)));
        }
        let (low, high) = if see(stem_is_swapped, width < 0) {
            see(stem_swapped_still_crossed, self.min < self.max);
            (self.max, self.min)
        } else {
            (self.min, self.max)
        };
        (Some(edge(Kind::PairBottom, low, self.saved_bottom)), Some(edge(Kind::PairTop, high, self.saved_top)))
    }
}
