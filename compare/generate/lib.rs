//! Scripts to compare on, in named families. A case that is drawn is given by a seed and its number alone.

pub mod batch;
pub mod families;
pub mod in_turn;
pub mod parts;

pub use families::{case, FAMILIES, IN_TURN};
pub use parts::{Command, Script};

/// The first cases that are drawn, then those that are written in turn.
pub fn cases(seed: u64, count: u64) -> impl Iterator<Item = Case> {
    (0..count).map(move |number| case(seed, number)).chain(in_turn::in_turn())
}

/// A script with the words that it is lent.
#[derive(Clone)]
pub struct Case {
    pub family: usize,
    pub script: Vec<u8>,
    pub room: usize,
    pub fill: u32,
}

impl Case {
    /// The output as it is lent: every word differs from its neighbours.
    pub fn lent(&self) -> Vec<i32> {
        (0..self.room as u32).map(|place| lent_word(self.fill, place)).collect()
    }
}

pub fn lent_word(fill: u32, place: u32) -> i32 {
    fill.wrapping_add(place.wrapping_mul(0x9E37_79B1)) as i32
}

/// A generator of numbers after the splitmix scheme.
pub struct Numbers(u64);

impl Numbers {
    pub fn new(seed: u64, number: u64) -> Numbers {
        let mut made = Numbers(seed ^ number.wrapping_mul(0xD1B5_4A32_D192_ED03));
        made.next();
        made
    }

    pub fn next(&mut self) -> u64 {
        self.0 = self.0.wrapping_add(0x9E37_79B9_7F4A_7C15);
        let mut z = self.0;
        z = (z ^ (z >> 30)).wrapping_mul(0xBF58_476D_1CE4_E5B9);
        z = (z ^ (z >> 27)).wrapping_mul(0x94D0_49BB_1331_11EB);
        z ^ (z >> 31)
    }

    pub fn bits(&mut self) -> i32 {
        (self.next() >> 32) as i32
    }

    /// A number from the first to the last, both included.
    pub fn between(&mut self, first: i64, last: i64) -> i64 {
        first + (self.next() % (last - first + 1) as u64) as i64
    }

    pub fn index(&mut self, length: usize) -> usize {
        self.between(0, length as i64 - 1) as usize
    }

    pub fn pick<T: Copy>(&mut self, from: &[T]) -> T {
        from[self.index(from.len())]
    }

    pub fn one_in(&mut self, many: i64) -> bool {
        self.between(1, many) == 1
    }

    pub fn shuffle<T>(&mut self, list: &mut [T]) {
        for last in (1..list.len()).rev() {
            list.swap(last, self.index(last + 1));
        }
    }

    /// A number that lies near an end of the field, a power of two or a whole pixel.
    pub fn extreme(&mut self) -> i32 {
        let near = self.between(-2, 2) as i32;
        match self.index(10) {
            0 => near,
            1 => i32::MIN.wrapping_add(near),
            2 => (1i32 << self.index(31)).wrapping_add(near),
            3 => (1i32 << self.index(31)).wrapping_neg().wrapping_add(near),
            4 => (self.between(-1000, 1000) as i32 * 65536).wrapping_add(near),
            5 => (self.between(-1000, 1000) as i32 * 32768).wrapping_add(near),
            6 => self.between(-3000, 3000) as i32,
            7 => self.bits() >> self.index(32),
            8 => self.pick(&[-21, -20, 21, 20, -120, 880, 7, 1]) * 65536 + near,
            _ => self.bits(),
        }
    }
}
