//! Stand-in for the crate strict-num: only what usvg's filter code needs.
//! The bodies follow strict-num 0.1.0 and, for `approx_eq_ulps`, float-cmp 0.9.0 (ulps_eq.rs), both as Debian packages
//! them. Which versions usvg 0.49.0 names is not known here: its Cargo.toml was not at hand.

pub trait Ulps {
    type U: Copy;
    fn ulps(&self, other: &Self) -> Self::U;
}

impl Ulps for f32 {
    type U = i32;
    fn ulps(&self, other: &f32) -> i32 {
        (self.to_bits() as i32).wrapping_sub(other.to_bits() as i32)
    }
}

impl Ulps for f64 {
    type U = i64;
    fn ulps(&self, other: &f64) -> i64 {
        (self.to_bits() as i64).wrapping_sub(other.to_bits() as i64)
    }
}

pub trait ApproxEqUlps {
    type Flt: Ulps;
    fn approx_eq_ulps(&self, other: &Self, ulps: <Self::Flt as Ulps>::U) -> bool;
}

impl ApproxEqUlps for f32 {
    type Flt = f32;
    fn approx_eq_ulps(&self, other: &f32, ulps: i32) -> bool {
        // -0 and +0 are far apart in ulps.
        if *self == *other {
            return true;
        }
        // Differing signs are unequal, however close.
        if self.is_sign_positive() != other.is_sign_positive() {
            return false;
        }
        let diff: i32 = self.ulps(other);
        diff >= -ulps && diff <= ulps
    }
}

impl ApproxEqUlps for f64 {
    type Flt = f64;
    fn approx_eq_ulps(&self, other: &f64, ulps: i64) -> bool {
        if *self == *other {
            return true;
        }
        if self.is_sign_positive() != other.is_sign_positive() {
            return false;
        }
        let diff: i64 = self.ulps(other);
        diff >= -ulps && diff <= ulps
    }
}

#[derive(Copy, Clone, PartialEq, Debug)]
pub struct FiniteF32(f32);

impl FiniteF32 {
    pub fn new(n: f32) -> Option<Self> {
        if n.is_finite() { Some(FiniteF32(n)) } else { None }
    }
    pub const fn get(&self) -> f32 {
        self.0
    }
}

/// Finite and >= 0; -0 passes.
#[derive(Copy, Clone, PartialEq, Debug)]
pub struct PositiveF32(f32);

impl PositiveF32 {
    pub const ZERO: Self = PositiveF32(0.0);
    pub fn new(n: f32) -> Option<Self> {
        if n.is_finite() && n >= 0.0 { Some(PositiveF32(n)) } else { None }
    }
    pub const fn get(&self) -> f32 {
        self.0
    }
}

/// Finite and > 0.
#[derive(Copy, Clone, PartialEq, Debug)]
pub struct NonZeroPositiveF32(f32);

impl NonZeroPositiveF32 {
    pub fn new(n: f32) -> Option<Self> {
        if n.is_finite() && n > 0.0 { Some(NonZeroPositiveF32(n)) } else { None }
    }
    pub const fn get(&self) -> f32 {
        self.0
    }
}

/// Finite, 0..=1.
#[derive(Copy, Clone, PartialEq, Debug)]
pub struct NormalizedF32(f32);

impl NormalizedF32 {
    pub const ZERO: Self = NormalizedF32(0.0);
    pub const ONE: Self = NormalizedF32(1.0);
    pub fn new(n: f32) -> Option<Self> {
        if n.is_finite() && n >= 0.0 && n <= 1.0 { Some(NormalizedF32(n)) } else { None }
    }
    pub fn new_clamped(n: f32) -> Self {
        if n.is_finite() { NormalizedF32(clamp_f32(0.0, n, 1.0)) } else { Self::ZERO }
    }
    pub fn new_u8(n: u8) -> Self {
        NormalizedF32(f32::from(n) / 255.0)
    }
    pub const fn get(self) -> f32 {
        self.0
    }
}

impl core::ops::Mul<NormalizedF32> for NormalizedF32 {
    type Output = Self;
    fn mul(self, rhs: Self) -> Self::Output {
        Self::new_clamped(self.0 * rhs.0)
    }
}

fn clamp_f32(min: f32, val: f32, max: f32) -> f32 {
    max.min(val).max(min)
}
