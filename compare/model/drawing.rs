//! One drawing: its stems, masks, maps and open path, and the calls on it.

use crate::branch::{see, Branch::*};
use crate::map::{Map, ROOM};
use crate::numbers::*;
use crate::stems::{Mask, Stem};
use crate::zones::Zones;

type Point = (i32, i32);

#[derive(Clone, Debug)]
pub struct Drawing {
    zones: Zones,
    scale: i32,
    stems: Vec<Stem>,
    mask: Mask,
    initial: Map,
    current: Map,
    start: Option<Point>,
    /// The waiting line's character point and its device point.
    waiting: Option<(Point, Point)>,
    counter_mask_came: bool,
}

/// The records of one call, as words, with their number.
#[derive(Default)]
pub struct Records {
    pub words: Vec<i32>,
    pub count: i32,
}

impl Records {
    fn put(&mut self, kind: i32, points: &[Point]) {
        self.words.push(kind);
        for point in points {
            self.words.push(point.0);
            self.words.push(point.1);
        }
        self.count += 1;
    }
}

impl Drawing {
    pub fn new(zones: Zones, scale: i32) -> Drawing {
        Drawing {
            zones,
            scale,
            stems: Vec::new(),
            mask: Mask::all(),
            initial: Map::default(),
            current: Map::default(),
            start: None,
            waiting: None,
            counter_mask_came: false,
        }
    }

    pub fn stem(&mut self, min: i32, max: i32) {
        if see(stem_is_ninety_seventh, self.stems.len() >= ROOM) || see(stem_map_is_valid, self.current.valid) {
            return;
        }
        self.stems.push(Stem::new(min, max));
    }

    pub fn hint_mask(&mut self, bytes: &[u8]) {
        let mask = Mask::from_bytes(bytes);
        if !see(mask_equals_present, mask == self.mask) {
            see(hint_mask_with_open_path, self.start.is_some());
            self.mask = mask;
            self.current.valid = false;
        }
    }

    pub fn counter_mask(&mut self, bytes: &[u8]) {
        let mask = Mask::from_bytes(bytes);
        see(counter_mask_with_valid_map, self.current.valid);
        see(counter_mask_with_valid_initial, self.initial.valid);
        self.counter_mask_came = true;
        self.build(mask);
    }

    pub fn clear(&mut self) {
        see(clear_with_waiting_line, self.waiting.is_some());
        self.stems.clear();
        self.mask = Mask::all();
        self.initial = Map::default();
        self.current = Map::default();
    }

    fn build(&mut self, mask: Mask) -> Map {
        if !see(build_initial_is_valid, self.initial.valid) {
            self.initial = Map::build_initial(&self.stems, &self.zones, self.scale);
        }
        Map::build(&mut self.stems, mask, &self.zones, self.scale, &self.initial)
    }

    fn point(&mut self, x: i32, y: i32) -> Point {
        if !see(drawing_map_is_valid, self.current.valid) {
            see(point_after_counter_mask, self.counter_mask_came);
            self.current = self.build(self.mask);
        }
        (output(mul(x, self.scale)), output(self.current.height(y, self.scale)))
    }

    fn close_path(&mut self, records: &mut Records) {
        let start = self.start.take();
        let waiting = self.waiting.take();
        see(close_with_start, start.is_some());
        match start {
            Some(start) => {
                see(close_with_waiting_line, waiting.is_some());
                if let Some((character, device)) = waiting {
                    if !see(close_line_equals_start, character == start) {
                        records.put(2, &[device]);
                    }
                }
                records.put(4, &[]);
            }
            None => {
                see(close_drops_lone_line, waiting.is_some());
            }
        }
    }

    fn emit_waiting(&mut self, records: &mut Records) {
        let waiting = self.waiting.take();
        see(waiting_line_is_emitted, waiting.is_some());
        if let Some((_, device)) = waiting {
            records.put(2, &[device]);
        }
    }

    pub fn move_to(&mut self, x: i32, y: i32, records: &mut Records) {
        self.close_path(records);
        let device = self.point(x, y);
        self.start = Some((x, y));
        records.put(1, &[device]);
    }

    pub fn line_to(&mut self, x: i32, y: i32, records: &mut Records) {
        self.emit_waiting(records);
        let device = self.point(x, y);
        self.waiting = Some(((x, y), device));
    }

    pub fn curve_to(&mut self, points: [Point; 3], records: &mut Records) {
        self.emit_waiting(records);
        let devices = points.map(|(x, y)| self.point(x, y));
        records.put(3, &devices);
    }

    pub fn finish(&mut self, records: &mut Records) {
        self.close_path(records);
        records.put(5, &[]);
    }
}
