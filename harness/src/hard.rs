//! Typed items that are hard to round: exactly on, and as near as can be to, the places where an answer changes.
//!
//! An item is rounded to an f64, and that to an f32. A list shows the f32 alone, so what counts is the middle M between two f32, and on either side of
//! it the middle between M and the next f64:
//!
//!     M − half       M       M + half         half: half the distance of two f64
//!
//! An item between the outer two is read as the f64 M and then tied to the even f32, wherever it lies itself (two roundings). An item on one of them
//! is a tie of two f64, which goes to M, as M's last bit is 0. Each f32 here is normal: no item but 0 is below 10^-22.

use crate::rng::Rng;
use crate::texts::{DIGITS_END, Decimal};

/// The digits, with one power of ten, whose numbers lie between the same two powers of two. Measured in a unit in which all of this is whole.
pub struct Binade {
    power: i32,
    /// From here to before `end`.
    low: u64,
    end: u64,
    /// The number of digits 1.
    one: u128,
    /// The distance of two f32.
    ulp32: u128,
    /// The distance of two f64; 0 where every number of the binade is an f64.
    ulp64: u128,
}

/// Which of the three places is looked for.
#[derive(Clone, Copy, PartialEq, Debug)]
pub enum Place {
    Below,
    Middle,
    Above,
}
pub const PLACES: [Place; 3] = [Place::Below, Place::Middle, Place::Above];

/// The least x with a × x mod m from l to u. None: there is none, or it is beyond all digits.
fn least(a: u128, m: u128, l: u128, u: u128) -> Option<u128> {
    if l == 0 {
        return Some(0);
    }
    if a == 0 {
        return None;
    }
    let x = l.div_ceil(a);
    if a * x <= u {
        return Some(x);
    }
    // a × x − m × y lies from l to u for the least y with m × y mod a from −u to −l
    let y = least(m % a, a, (a - u % a) % a, (a - l % a) % a)?;
    Some(m.checked_mul(y)?.checked_add(l)?.div_ceil(a))
}

impl Binade {
    fn new(power: i32, scale: (u128, u128), ulp32: u128, ulp64: u128) -> Option<Binade> {
        // digits × one lies from `first` to before 2 × `first`
        let (one, first) = scale;
        let within = |n: u128| n.clamp(1, u128::from(DIGITS_END)) as u64;
        let (low, end) = (within(first.div_ceil(one)), within((2 * first).div_ceil(one)));
        (low < end).then_some(Binade { power, low, end, one, ulp32, ulp64 })
    }

    /// The first digits from here on whose number, counted from a multiple of m, lies from l to u.
    fn find(&self, from: u64, m: u128, l: u128, u: u128) -> Option<Decimal> {
        let start = u128::from(from) * self.one % m;
        let (l2, u2) = ((l + m - start) % m, (u + m - start) % m);
        // where the window goes around 0 the first number is inside
        let x = if l2 > u2 { 0 } else { least(self.one % m, m, l2, u2)? };
        let digits = u64::try_from(x).ok()?.checked_add(from).filter(|d| *d < self.end)?;
        assert!((l..=u).contains(&(u128::from(digits) * self.one % m)));
        Some(Decimal { minus: false, digits, power: self.power })
    }

    fn place(&self, p: Place) -> u128 {
        match p {
            Place::Below => self.ulp32 / 2 - self.ulp64 / 2,
            Place::Middle => self.ulp32 / 2,
            Place::Above => self.ulp32 / 2 + self.ulp64 / 2,
        }
    }

    /// What lies on a place, and what is nearest to it on either side, found with ever wider windows.
    pub fn at(&self, p: Place) -> Vec<Decimal> {
        if p != Place::Middle && self.ulp64 == 0 {
            return Vec::new();
        }
        let t = self.place(p);
        let widest = (self.ulp64 / 2).max(self.ulp32 >> 30).max(1);
        let windows = || std::iter::successors(Some(1u128), |w| Some(2 * w)).take_while(|w| *w <= widest);
        let on = self.find(self.low, self.ulp32, t, t);
        let below = windows().find_map(|w| self.find(self.low, self.ulp32, t - w, t - 1));
        let above = windows().find_map(|w| self.find(self.low, self.ulp32, t + 1, t + w));
        [below, on, above].into_iter().flatten().collect()
    }

    /// Ties of two f64 wherever they are, and what is nearest to one.
    pub fn f64_ties(&self) -> Vec<Decimal> {
        let (m, t) = (self.ulp64, self.ulp64 / 2);
        if m == 0 {
            return Vec::new();
        }
        (0..4)
            .flat_map(|off| [t.checked_sub(off), Some(t + off).filter(|t| *t < m)])
            .flatten()
            .filter_map(|t| self.find(self.low, m, t, t))
            .collect()
    }

    /// Somewhere in the binade: on a place or near it.
    fn any(&self, rng: &mut Rng) -> Option<Decimal> {
        let from = self.low + rng.below((self.end - self.low) as usize) as u64;
        let t = self.place(*rng.pick(&PLACES));
        let wide = self.ulp64 >> rng.within(1, 40);
        self.find(from, self.ulp32, t - wide, t + wide)
    }
}

fn bits(n: u128) -> u32 {
    u128::BITS - n.leading_zeros()
}

/// The binades of a power in which there is a middle between two f32.
pub fn binades(power: i32) -> Vec<Binade> {
    let five = 5u128.pow(power.unsigned_abs());
    if power < 0 {
        // a number is digits / 10^n; in units of 2^-e / 5^n, and each unit halved, as 5^n is odd
        return (1..=104)
            .filter_map(|e| Binade::new(power, (1 << (e + 1), five << 53), five << 30, five << 1))
            .collect();
    }
    // A number is digits × 10^n; in units of 2^n, halved likewise. With 53 bits and fewer it is an f64.
    let most = bits(five * u128::from(DIGITS_END - 1));
    (25..=most)
        .filter_map(|l| {
            let ulp64 = if l > 53 { 1 << (l - 52) } else { 0 };
            Binade::new(power, (2 * five, 1 << l), 1 << (l - 23), ulp64)
        })
        .collect()
}

pub fn all_binades() -> Vec<Binade> {
    (-22..=22).flat_map(binades).collect()
}

/// A random one.
pub fn hard(rng: &mut Rng) -> Decimal {
    loop {
        let power = rng.within(-22, 22) as i32;
        let all = binades(power);
        if let Some(d) = rng.pick(&all).any(rng) {
            return d;
        }
    }
}
