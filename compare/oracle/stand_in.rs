//! Stands in for the crate that the Rust file imports. The numbers are the model's, which follow 01 alone.

pub mod types {
    use model::numbers;
    use std::ops::{Add, AddAssign, Div, Mul, Neg, Sub, SubAssign};

    #[derive(Copy, Clone, PartialEq, Eq, PartialOrd, Ord, Default, Debug)]
    pub struct Fixed(i32);

    impl Fixed {
        pub const ZERO: Fixed = Fixed(0);
        pub const ONE: Fixed = Fixed(numbers::ONE);
        pub const MAX: Fixed = Fixed(i32::MAX);

        pub const fn from_bits(bits: i32) -> Fixed {
            Fixed(bits)
        }

        pub const fn to_bits(self) -> i32 {
            self.0
        }

        pub const fn from_i32(whole: i32) -> Fixed {
            Fixed(whole * numbers::ONE)
        }

        /// The Rust file asks only for constants between 0 and 1 here.
        pub fn from_f64(value: f64) -> Fixed {
            Fixed((value * 65536.0).round() as i32)
        }

        pub fn abs(self) -> Fixed {
            Fixed(numbers::abs(self.0))
        }

        pub fn round(self) -> Fixed {
            Fixed(numbers::round(self.0))
        }

        pub fn fract(self) -> Fixed {
            Fixed(numbers::fraction(self.0))
        }

        pub fn mul_div(&self, by: Fixed, over: Fixed) -> Fixed {
            Fixed(numbers::mul_div(self.0, by.0, over.0))
        }

        pub fn wrapping_add(self, other: Fixed) -> Fixed {
            Fixed(numbers::add(self.0, other.0))
        }

        pub fn wrapping_sub(self, other: Fixed) -> Fixed {
            Fixed(numbers::sub(self.0, other.0))
        }
    }

    impl Add for Fixed {
        type Output = Fixed;
        fn add(self, other: Fixed) -> Fixed {
            Fixed(numbers::add(self.0, other.0))
        }
    }

    impl AddAssign for Fixed {
        fn add_assign(&mut self, other: Fixed) {
            *self = *self + other;
        }
    }

    impl Sub for Fixed {
        type Output = Fixed;
        fn sub(self, other: Fixed) -> Fixed {
            Fixed(numbers::sub(self.0, other.0))
        }
    }

    impl SubAssign for Fixed {
        fn sub_assign(&mut self, other: Fixed) {
            *self = *self - other;
        }
    }

    impl Neg for Fixed {
        type Output = Fixed;
        fn neg(self) -> Fixed {
            Fixed(numbers::neg(self.0))
        }
    }

    impl Mul for Fixed {
        type Output = Fixed;
        fn mul(self, other: Fixed) -> Fixed {
            Fixed(numbers::mul(self.0, other.0))
        }
    }

    impl Div for Fixed {
        type Output = Fixed;
        fn div(self, other: Fixed) -> Fixed {
            Fixed(numbers::div(self.0, other.0))
        }
    }
}

pub mod ps {
    use crate::types::Fixed;

    #[path = "SINK_SOURCE"]
    pub mod charstring;

    /// A list of pairs; 01 lets a list have seven at most.
    #[derive(Clone, Default)]
    pub struct Blues(Vec<(Fixed, Fixed)>);

    impl Blues {
        pub fn new(values: impl Iterator<Item = Fixed>) -> Blues {
            let flat: Vec<Fixed> = values.collect();
            Blues(flat.chunks_exact(2).map(|two| (two[0], two[1])).collect())
        }

        pub fn values(&self) -> &[(Fixed, Fixed)] {
            &self.0
        }
    }
}
