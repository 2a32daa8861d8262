//! Octaves, written from document 02's words. Where `numOctaves` ends in exactly a half, a sheet is held to this alone.

use std::cmp::Ordering::{Equal, Greater, Less};

/// To the nearest whole number, an exact half to the even one; a negative sign gives 0, whatever follows it. Held at u32's largest; 0 for NaN.
pub fn octaves(x: f32) -> u32 {
    if x.is_nan() || x.is_sign_negative() {
        return 0;
    }
    if x >= 4_294_967_296.0 {
        return u32::MAX;
    }
    let below = x.floor() as u32;
    // what lies after the point is an f32 itself
    match x.fract().total_cmp(&0.5) {
        Less => below,
        Greater => below + 1,
        Equal if below % 2 == 0 => below,
        Equal => below + 1,
    }
}

/// Whether x ends in exactly a half.
pub fn ends_in_a_half(x: f32) -> bool {
    x.fract().abs() == 0.5
}
