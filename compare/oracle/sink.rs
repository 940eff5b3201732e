//! The trait by which the Rust file takes commands and hands records on.

use crate::types::Fixed;

pub trait CommandSink {
    fn hstem(&mut self, _min: Fixed, _max: Fixed) {}
    fn hint_mask(&mut self, _mask: &[u8]) {}
    fn counter_mask(&mut self, _mask: &[u8]) {}
    fn clear_hints(&mut self) {}
    fn move_to(&mut self, x: Fixed, y: Fixed);
    fn line_to(&mut self, x: Fixed, y: Fixed);
    fn curve_to(&mut self, x1: Fixed, y1: Fixed, x2: Fixed, y2: Fixed, x: Fixed, y: Fixed);
    fn close(&mut self);
    fn finish(&mut self) {}
}
