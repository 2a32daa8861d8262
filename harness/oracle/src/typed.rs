//! Typed number lists (attribute kind 7), written from document 02's words and the number production for attributes in SVG 1.1's section 4.2:
//!
//!     integer ::= [+-]? [0-9]+
//!     number  ::= integer ([Ee] integer)? | [+-]? [0-9]* "." [0-9]+ ([Ee] integer)?
//!
//! All of this is the oracle's own. The judge of the nearest f64 is whole-number arithmetic: no floating point, and no parser of numbers.

use std::cmp::Ordering::{Equal, Greater, Less};

/// A longer text is outside the layout: 2.
pub const BYTES: usize = 4096;
/// More items are 10.
pub const ITEMS: usize = 1024;
/// More digits are 11.
pub const DIGITS: usize = 15;
/// A power further from 0 is 11.
pub const POWER: i64 = 22;

/// An exponent is held here. A text has 4,096 decimals at most, so the power stays outside the limits.
const FAR: i64 = 1_000_000;

/// One item: its digits, as one whole number, times a power of ten.
pub struct Item {
    pub minus: bool,
    /// Those on both sides of the point, without leading zeros; zero has none.
    pub digits: Vec<u8>,
    /// The exponent less the number of decimals.
    pub power: i64,
}

/// The f64 nearest to an item.
pub struct Nearest {
    pub number: f64,
    /// The f64 is the item itself.
    pub exact: bool,
    /// The item lies exactly between two f64.
    pub tie: bool,
}

fn is_space(b: u8) -> bool {
    matches!(b, b' ' | b'\t' | b'\n' | b'\r')
}

/// `[0-9]*`
fn any_digits(text: &[u8]) -> Option<&[u8]> {
    text.iter().all(|b| matches!(b, b'0'..=b'9')).then_some(text)
}

/// `[0-9]+`
fn some_digits(text: &[u8]) -> Option<&[u8]> {
    any_digits(text).filter(|t| !t.is_empty())
}

/// `[+-]?`: whether it is a minus, and what stands behind it.
fn sign(text: &[u8]) -> (bool, &[u8]) {
    match text {
        [b'-', rest @ ..] => (true, rest),
        [b'+', rest @ ..] => (false, rest),
        rest => (false, rest),
    }
}

/// What stands before the first of some bytes, and what stands behind it if there is one.
fn cut(text: &[u8], at: impl Fn(u8) -> bool) -> (&[u8], Option<&[u8]>) {
    match text.iter().position(|b| at(*b)) {
        Some(i) => (&text[..i], Some(&text[i + 1..])),
        None => (text, None),
    }
}

fn value(digit: u8) -> u8 {
    digit - b'0'
}

/// `integer`, behind an E.
fn exponent(text: &[u8]) -> Option<i64> {
    let (minus, digits) = sign(text);
    let size = some_digits(digits)?.iter().fold(0, |n, d| (10 * n + i64::from(value(*d))).min(FAR));
    Some(if minus { -size } else { size })
}

/// `number`
fn item(word: &[u8]) -> Option<Item> {
    let (front, behind_e) = cut(word, |b| b == b'e' || b == b'E');
    let exponent = match behind_e {
        Some(text) => exponent(text)?,
        None => 0,
    };
    let (minus, unsigned) = sign(front);
    let (whole, decimals) = match cut(unsigned, |b| b == b'.') {
        (whole, None) => (some_digits(whole)?, &[][..]),
        (whole, Some(decimals)) => (any_digits(whole)?, some_digits(decimals)?),
    };
    let digits = whole.iter().chain(decimals).copied().skip_while(|d| *d == b'0').collect();
    Some(Item { minus, digits, power: exponent - decimals.len() as i64 })
}

/// The items of a text. None: outside the grammar, or too many (10).
pub fn items(text: &[u8]) -> Option<Vec<Item>> {
    let mut all = Vec::new();
    if text.iter().all(|b| is_space(*b)) {
        return Some(all);
    }
    for between_commas in text.split(|b| *b == b',') {
        let before = all.len();
        for word in between_commas.split(|b| is_space(*b)).filter(|w| !w.is_empty()) {
            all.push(item(word)?);
        }
        // a comma parts items: there is one on either side
        if all.len() == before {
            return None;
        }
    }
    (all.len() <= ITEMS).then_some(all)
}

/// The numbers of a text, or 10 or 11.
pub fn read(text: &[u8]) -> Result<Vec<f32>, u8> {
    let items = items(text).ok_or(10)?;
    if !items.iter().all(Item::in_limits) {
        return Err(11);
    }
    Ok(items.iter().map(Item::number).collect())
}

fn bits(n: u128) -> i64 {
    i64::from(u128::BITS - n.leading_zeros())
}

/// Nothing is lost.
fn product(a: u128, b: u128) -> u128 {
    a.checked_mul(b).expect("below 2^128")
}

impl Item {
    pub fn in_limits(&self) -> bool {
        self.digits.len() <= DIGITS && (-POWER..=POWER).contains(&self.power)
    }

    /// The item without its sign as a fraction. Each part is below 10^37, so below 2^123.
    fn fraction(&self) -> (u128, u128) {
        let whole = self.digits.iter().fold(0, |n, d| 10 * n + u128::from(value(*d)));
        let ten = 10u128.pow(self.power.unsigned_abs() as u32);
        if self.power < 0 { (whole, ten) } else { (product(whole, ten), 1) }
    }

    /// Ties to even. For items in the limits: each is 0 or lies between 10^-22 and 10^37, so its f64 and its f32 are finite and normal.
    pub fn nearest(&self) -> Nearest {
        assert!(self.in_limits());
        let sign = u64::from(self.minus) << 63;
        let (top, bottom) = self.fraction();
        if top == 0 {
            return Nearest { number: f64::from_bits(sign), exact: true, tie: false };
        }
        // The fraction over 2^e is to lie between 2^52 and 2^53. With the first e it may reach 2^54: `top` is then below 2^54 × 10^22, so below 2^128.
        let scaled = |e: i64| match e {
            0.. => (top, product(bottom, 1 << e)),
            _ => (product(top, 1 << -e), bottom),
        };
        let mut e = bits(top) - bits(bottom) - 53;
        let (t, b) = scaled(e);
        if t / b >= 1 << 53 {
            e += 1;
        }
        let (t, b) = scaled(e);
        let (below, rest) = (t / b, t % b);
        assert!((1 << 52..1 << 53).contains(&below));
        let half = (2 * rest).cmp(&b);
        let up = match half {
            Less => 0,
            Greater => 1,
            Equal => below % 2,
        };
        // a carry out of the fraction goes into the exponent, as it should
        let fraction = (below + up) as u64 - (1 << 52);
        let number = f64::from_bits(sign | (((e + 1075) as u64) << 52) + fraction);
        Nearest { number, exact: rest == 0, tie: half == Equal }
    }

    /// Narrowed as lengths are.
    pub fn number(&self) -> f32 {
        self.nearest().number as f32
    }
}
