//! Numbers in 16.16: the bits of a signed 32-bit integer, where 65536 is 1.0.

pub const ONE: i32 = 65536;
pub const HALF: i32 = 32768;

/// The quotient of two integers rounded to the nearest, halves away from zero, cut to 32 bits.
fn nearest(above: i64, below: i64) -> i32 {
    let negative = (above < 0) != (below < 0);
    let size = above.unsigned_abs();
    let by = below.unsigned_abs();
    let mut whole = size / by;
    let rest = size % by;
    if rest >= by - rest {
        whole += 1;
    }
    let cut = whole as u32 as i32;
    if negative {
        cut.wrapping_neg()
    } else {
        cut
    }
}

pub fn add(a: i32, b: i32) -> i32 {
    a.wrapping_add(b)
}

pub fn sub(a: i32, b: i32) -> i32 {
    a.wrapping_sub(b)
}

pub fn neg(a: i32) -> i32 {
    a.wrapping_neg()
}

pub fn abs(a: i32) -> i32 {
    a.wrapping_abs()
}

pub fn mul(a: i32, b: i32) -> i32 {
    nearest(a as i64 * b as i64, 65536)
}

pub fn div(a: i32, b: i32) -> i32 {
    if b == 0 {
        return if a < 0 { -0x7FFF_FFFF } else { 0x7FFF_FFFF };
    }
    nearest(a as i64 * 65536, b as i64)
}

/// The paper defines this for a divisor above 0 only.
pub fn mul_div(a: i32, b: i32, c: i32) -> i32 {
    assert!(c > 0);
    nearest(a as i64 * b as i64, c as i64)
}

pub fn round(a: i32) -> i32 {
    let moved = add(a, HALF);
    sub(moved, fraction(moved))
}

pub fn fraction(a: i32) -> i32 {
    a.rem_euclid(ONE)
}

pub fn half(a: i32) -> i32 {
    a / 2
}

pub fn midpoint(a: i32, b: i32) -> i32 {
    add(a, half(sub(b, a)))
}

pub fn output(a: i32) -> i32 {
    a - a.rem_euclid(1024)
}
