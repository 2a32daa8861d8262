//! Numbers and texts: mostly plain ones, and those at which something changes.

use crate::rng::Rng;

pub fn le32(bits: u32) -> Vec<u8> {
    bits.to_le_bytes().to_vec()
}

/// f32 at which something changes: zeros, near zero, subnormals, halves, 1, 128, 2^23, 2^31, 2^32, the largest.
pub const EDGES: &[u32] = &[
    0x0000_0000,
    0x8000_0000,
    1,
    2,
    3,
    4,
    5,
    6,
    0x8000_0001,
    0x8000_0004,
    0x8000_0005,
    0x007f_ffff,
    0x0080_0000,
    0x0080_0001,
    0x8080_0000,
    0x3eff_ffff,
    0x3f00_0000,
    0x3f00_0001,
    0xbf00_0000,
    0xbeff_ffff,
    0x3f7f_ffff,
    0x3f80_0000,
    0x3f80_0001,
    0xbf80_0000,
    0xbf80_0001,
    0xbf7f_ffff,
    0x3fbf_ffff,
    0x3fc0_0000,
    0x3fc0_0001,
    0x4020_0000,
    0x4060_0000,
    0x42ff_ffff,
    0x4300_0000,
    0x4300_0001,
    0x4aff_ffff,
    0x4b00_0000,
    0x4b7f_ffff,
    0x4b80_0000,
    0x4eff_ffff,
    0x4f00_0000,
    0x4f00_0001,
    0xcf00_0000,
    0xcf00_0001,
    0xcf7f_ffff,
    0x4f7f_ffff,
    0x4f80_0000,
    0x4f80_0001,
    0x7149_f2ca,
    0xf149_f2ca,
    0x0da2_4260,
    0x7f61_b1e6,
    0x7f7f_ffff,
    0xff7f_ffff,
    0x7f00_0000,
    0x3586_37bd,
    0x3506_37bd,
    0x34d6_bf95,
    0x3521_3d0e,
];

/// f32 that are not finite.
pub const NOT_FINITE: &[u32] = &[0x7f80_0000, 0xff80_0000, 0x7fc0_0000, 0x7f80_0001, 0xffff_ffff, 0xffc0_0000];

/// f64 that are not finite, or narrow to no finite f32. The fourth is the least such f64.
pub const NOT_FINITE_64: &[u64] = &[
    0x7ff0_0000_0000_0000,
    0xfff0_0000_0000_0000,
    0x7ff8_0000_0000_0000,
    0x47ef_ffff_f000_0000,
    0xc7ef_ffff_f000_0000,
    0x7fef_ffff_ffff_ffff,
    0x7ff0_0000_0000_0001,
    0x47f0_0000_0000_0000,
];

pub fn finite32(rng: &mut Rng) -> u32 {
    loop {
        let bits = rng.next() as u32;
        if f32::from_bits(bits).is_finite() {
            return bits;
        }
    }
}

/// A plain number: small, with few digits.
pub fn plain(rng: &mut Rng) -> f32 {
    match rng.below(5) {
        0 => rng.within(-3, 10) as f32,
        1 => rng.within(-20, 60) as f32 / 2.0,
        2 => rng.within(-1000, 3000) as f32 / 100.0,
        3 => rng.unit() as f32,
        _ => rng.within(0, 4) as f32,
    }
}

/// Any finite f32.
pub fn number(rng: &mut Rng) -> u32 {
    match rng.weighted(&[60, 25, 15]) {
        0 => plain(rng).to_bits(),
        1 => *rng.pick(EDGES),
        _ => finite32(rng),
    }
}

/// An f64 next to a tie between two f32, or on it.
fn near_tie(rng: &mut Rng) -> u64 {
    let low = match rng.below(3) {
        0 => *rng.pick(EDGES),
        1 => rng.next() as u32 & 0x007f_ffff,
        _ => finite32(rng),
    };
    let (a, b) = (f64::from(f32::from_bits(low)), f64::from(f32::from_bits(low.wrapping_add(1))));
    let middle = if b.is_finite() { (a + b) / 2.0 } else { a };
    middle.to_bits().wrapping_add(rng.within(-1, 1) as u64)
}

fn narrows(bits: u64) -> bool {
    f64::from_bits(bits).is_finite() && (f64::from_bits(bits) as f32).is_finite()
}

/// Any f64 that narrows to a finite f32.
pub fn double(rng: &mut Rng) -> u64 {
    loop {
        let bits = match rng.weighted(&[55, 15, 15, 10, 5]) {
            0 => f64::from(plain(rng)).to_bits(),
            1 => f64::from(f32::from_bits(*rng.pick(EDGES))).to_bits(),
            2 => near_tie(rng),
            3 => rng.next(),
            _ => *rng.pick(&[
                0x47ef_ffff_efff_ffff,
                1,
                0x8000_0000_0000_0001,
                0x36a0_0000_0000_0000,
                0x3690_0000_0000_0000,
            ]),
        };
        if narrows(bits) {
            return bits;
        }
    }
}

/// Any f64 at all, for narrowing.
pub fn bits64(rng: &mut Rng) -> u64 {
    match rng.below(8) {
        0 => near_tie(rng),
        1 => *rng.pick(NOT_FINITE_64),
        2 => near_tie(rng) ^ (1 << rng.below(64)),
        // an exponent at which an f32 is normal, subnormal, or begins to be too large
        3 => (rng.next() & 0x800f_ffff_ffff_ffff) | ((rng.within(870, 900) as u64) << 52),
        4 => (rng.next() & 0x800f_ffff_ffff_ffff) | ((rng.within(1148, 1153) as u64) << 52),
        5 => (rng.next() & 0x800f_ffff_ffff_ffff) | ((rng.within(873, 1151) as u64) << 52),
        6 => (rng.next() & 0x8000_0000_0000_0000) | 0x7fe0_0000_0000_0000 | (rng.next() >> rng.within(11, 63)),
        _ => rng.next(),
    }
}

/// UTF-8 of up to `max` bytes, of all four lengths of characters.
pub fn text(rng: &mut Rng, max: usize) -> Vec<u8> {
    let want = if rng.percent(5) { max } else { rng.below(max.min(24) + 1) };
    let mut out = String::new();
    loop {
        let left = want - out.len();
        if left == 0 {
            return out.into_bytes();
        }
        let c = match rng.weighted(&[70, 10, 10, 5, 5]) {
            0 => rng.within(0x20, 0x7e) as u32,
            1 => rng.within(0x80, 0x7ff) as u32,
            2 => *rng.pick(&[0x800u32, 0xfff, 0x1000, 0xcfff, 0xd000, 0xd7ff, 0xe000, 0xffff, 0x20ac]),
            3 => *rng.pick(&[0x10000u32, 0x3ffff, 0x40000, 0xfffff, 0x100000, 0x10ffff, 0x1f600]),
            _ => rng.within(0, 0x1f) as u32,
        };
        let c = char::from_u32(c).unwrap();
        out.push(if c.len_utf8() <= left { c } else { 'x' });
    }
}

/// Byte sequences that are no UTF-8, one for each way not to be.
pub const NOT_UTF8: &[&[u8]] = &[
    b"\x80",
    b"\xbf",
    b"\xc0\x80",
    b"\xc1\xbf",
    b"\xc2",
    b"\xc2\x7f",
    b"\xc2\xc0",
    b"\xe0\x80\x80",
    b"\xe0\x9f\xbf",
    b"\xe0\xa0",
    b"\xe1\x80",
    b"\xe1\x7f\x80",
    b"\xe1\x80\x7f",
    b"\xec\xbf\xc0",
    b"\xed\xa0\x80",
    b"\xed\xbf\xbf",
    b"\xef\xbf",
    b"\xf0\x80\x80\x80",
    b"\xf0\x8f\xbf\xbf",
    b"\xf0\x90\x80",
    b"\xf1\x80\x80\x7f",
    b"\xf1\x80\xc0\x80",
    b"\xf1\x7f\x80\x80",
    b"\xf4\x90\x80\x80",
    b"\xf4\xbf\xbf\xbf",
    b"\xf5\x80\x80\x80",
    b"\xf8\x88\x80\x80\x80",
    b"\xfe",
    b"\xff",
    b"a\xff",
    b"abc\xe2\x82",
];
