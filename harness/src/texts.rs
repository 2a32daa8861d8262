//! Texts of typed lists: items in every form of the grammar, and what parts them. All of them pass; what is outside the grammar or the limits
//! stands at the end.

use oracle::typed::{self, BYTES};

use crate::hard::hard;
use crate::rng::Rng;
use crate::values::{finite32, number};

/// Digits end below this.
pub const DIGITS_END: u64 = 1_000_000_000_000_000;
const POWER: i64 = 22;

/// Digits times a power of ten, both within the limits.
#[derive(Clone, Copy, Debug, PartialEq)]
pub struct Decimal {
    pub minus: bool,
    pub digits: u64,
    pub power: i32,
}

fn in_limits(digits: u64, power: i64) -> bool {
    digits < DIGITS_END && (-POWER..=POWER).contains(&power)
}

fn exponent_form(e: i32, rng: &mut Rng) -> String {
    if e == 0 && rng.percent(85) {
        return String::new();
    }
    let letter = if rng.percent(70) { 'e' } else { 'E' };
    let sign = match e.signum() {
        1 => *rng.pick(&["", "+"]),
        0 => *rng.pick(&["", "+", "-"]),
        _ => "-",
    };
    let zeros = "0".repeat(if rng.percent(5) { rng.below(5) } else { 0 });
    format!("{}{}{}{}", letter, sign, zeros, e.abs())
}

impl Decimal {
    /// With this many decimals, and what exponent that leaves; `whole` is put before a point that has no digit before it.
    fn spelled(self, decimals: usize, plus: &str, whole: &str, exponent: impl FnOnce(i32) -> String) -> String {
        let digits = format!("{:0>decimals$}", self.digits);
        let (front, behind) = digits.split_at(digits.len() - decimals);
        let point = if decimals > 0 { "." } else { "" };
        let front = if front.is_empty() { whole } else { front };
        let sign = if self.minus { "-" } else { plus };
        format!("{}{}{}{}{}", sign, front, point, behind, exponent(self.power + decimals as i32))
    }

    /// Digits and exponent, or digits with a point in them; `whole` as above.
    fn written(self, whole: &str) -> String {
        let without = (-self.power).max(0) as usize;
        let decimals = if without <= 6 { without } else { 0 };
        self.spelled(decimals, "", whole, |e| if e == 0 { String::new() } else { format!("e{}", e) })
    }

    pub fn plain(self) -> String {
        self.written("0")
    }

    fn short(self) -> String {
        self.written("")
    }

    /// Some form of it.
    pub fn form(self, rng: &mut Rng) -> String {
        let decimals = match rng.weighted(&[25, 55, 15, 5]) {
            0 => 0,
            1 => (-self.power).max(0) as usize,
            2 => rng.below(17),
            _ => rng.below(60),
        };
        let plus = if rng.percent(10) { "+" } else { "" };
        let whole = *rng.pick(&["", "0", "0", "000"]);
        let form = self.spelled(decimals, plus, whole, |e| exponent_form(e, rng));
        if rng.percent(97) {
            return form;
        }
        // leading zeros, behind the sign
        let at = form.find(|c| c != '+' && c != '-').unwrap();
        format!("{}{}{}", &form[..at], "0".repeat(1 + rng.below(20)), &form[at..])
    }

    /// The number that its plain form is read as.
    fn bits(self) -> u32 {
        typed::read(self.plain().as_bytes()).expect("within the limits")[0].to_bits()
    }
}

/// Digits and a power that are read as this f32. None: there are none within the limits.
pub fn decimal_of(bits: u32) -> Option<Decimal> {
    let n = f32::from_bits(bits);
    let d = of_scientific(&format!("{:e}", n.abs()))?;
    Some(Decimal { minus: n.is_sign_negative(), ..d }).filter(|d| d.bits() == bits)
}

/// Of a number as Rust writes it: `1.25e-3`.
fn of_scientific(text: &str) -> Option<Decimal> {
    let (front, exponent) = text.split_once('e')?;
    let (whole, decimals) = front.split_once('.').unwrap_or((front, ""));
    let digits: u64 = format!("{}{}", whole, decimals).parse().ok()?;
    let power = exponent.parse::<i64>().ok()? - decimals.len() as i64;
    in_limits(digits, power).then_some(Decimal { minus: false, digits, power: power as i32 })
}

// ---- items next to the middle between two f32

/// The middle between two f32: an odd number of 25 bits, times a power of two. It can be typed if that power is −11 to 24.
fn f32_tie(odd: u64, power_of_two: i32) -> Option<Decimal> {
    let times =
        if power_of_two < 0 { 5u64.checked_pow(-power_of_two as u32)? } else { 1u64.checked_shl(power_of_two as u32)? };
    let digits = odd.checked_mul(times)?;
    in_limits(digits, 0).then_some(Decimal { minus: false, digits, power: power_of_two.min(0) })
}

/// Fifteen digits, or fewer where the power allows no more, next to the middle between two f32. Many are read as the f64 that is the middle, without being
/// there themselves: two roundings. Each f32 here is normal, as no item other than 0 is below 10^-22.
fn near_f32_tie(rng: &mut Rng) -> Option<Decimal> {
    let odd = (1 << 24) | rng.below(1 << 24) as u64 | 1;
    if rng.percent(40) {
        return f32_tie(odd, rng.within(-11, 24) as i32);
    }
    let middle = odd as f64 * 2f64.powi(rng.within(-96, 97) as i32);
    let decimals = (middle.log10().floor() as i64 + POWER).clamp(0, 14) as usize;
    let d = of_scientific(&format!("{:.decimals$e}", middle))?;
    let digits = d.digits.saturating_add_signed(*rng.pick(&[0, 0, 0, 1, -1]));
    in_limits(digits, 0).then_some(Decimal { digits, ..d })
}

// ---- items

fn of_digits(rng: &mut Rng, most: u32) -> u64 {
    let count = rng.within(1, most.into()) as u32;
    10u64.pow(count - 1) + rng.below((9 * 10u64.pow(count - 1)) as usize) as u64
}

/// An end of the limits, or 0.
fn edge(rng: &mut Rng) -> Decimal {
    let digits = *rng.pick(&[0, 0, 1, 9, 10, DIGITS_END - 1, DIGITS_END / 10, DIGITS_END / 10 - 1, 1 << 49]);
    Decimal { minus: rng.percent(50), digits, power: *rng.pick(&[-22, -21, -15, -1, 0, 1, 15, 21, 22]) }
}

/// Any item.
pub fn decimal(rng: &mut Rng) -> Decimal {
    loop {
        let minus = rng.percent(40);
        let found = match rng.weighted(&[15, 15, 10, 25, 15, 15, 5]) {
            0 => Some(Decimal { minus, digits: rng.below(13) as u64, power: 0 }),
            1 => Some(Decimal { minus, digits: of_digits(rng, 4), power: -(rng.below(4) as i32) }),
            2 => decimal_of(number(rng)),
            3 => Some(Decimal { minus, digits: of_digits(rng, 15), power: rng.within(-POWER, POWER) as i32 }),
            4 => Some(Decimal { minus, ..hard(rng) }),
            5 => near_f32_tie(rng).map(|d| Decimal { minus, ..d }),
            _ => Some(edge(rng)),
        };
        if let Some(d) = found {
            return d;
        }
    }
}

// ---- lists

const BETWEEN: &[&str] =
    &[" ", " ", ",", ",", ", ", " ,", " , ", "\t", "\n", "\r", "\r\n", "\n    ", "\t,\n", "  ", ",\r\n\t ", "  ,  "];
const OUTSIDE: &[&str] = &["", "", "", " ", "\n", "\t\r\n ", "      "];

/// The items of a text, one by one, in the 4,096 bytes that there are.
struct Writer {
    text: Vec<u8>,
    /// How many items are to come.
    left: usize,
}

impl Writer {
    /// Puts an item behind what parts it from the one before; a digit and a space if there is no room: two bytes are kept for each item.
    fn put(&mut self, between: &str, item: &str, rng: &mut Rng) {
        self.left -= 1;
        let room = BYTES - self.text.len() - 2 * self.left;
        if between.len() + item.len() <= room {
            self.text.extend(between.bytes().chain(item.bytes()));
        } else {
            self.text.extend([b' ', b'0' + rng.below(10) as u8]);
        }
    }

    fn put_outside(&mut self, space: &str) {
        if self.text.len() + space.len() + 2 * self.left <= BYTES {
            self.text.extend(space.bytes());
        }
    }
}

/// A text of so many items: these numbers where they can be typed, or any.
pub fn list(rng: &mut Rng, numbers: &[u32]) -> Vec<u8> {
    let keep = rng.percent(60);
    let between = rng.percent(70).then(|| *rng.pick(BETWEEN));
    // in a long list either each item is short, or the first are long and the rest digits
    let fair = if rng.percent(50) { (BYTES / numbers.len().max(1)).max(2) } else { BYTES };
    let mut w = Writer { text: Vec::new(), left: numbers.len() };
    w.put_outside(*rng.pick(OUTSIDE));
    for (i, bits) in numbers.iter().enumerate() {
        let between = if i == 0 { "" } else { between.unwrap_or_else(|| *rng.pick(BETWEEN)) };
        let d = if keep { decimal_of(*bits) } else { None }.unwrap_or_else(|| decimal(rng));
        let mut item = if rng.percent(60) { d.plain() } else { d.form(rng) };
        if between.len() + item.len() > fair {
            item = d.short();
        }
        if between.len() + item.len() > fair {
            item = rng.below(100).to_string();
        }
        w.put(between, &item, rng);
    }
    w.put_outside(*rng.pick(OUTSIDE));
    assert!(typed::read(&w.text).is_ok_and(|l| l.len() == numbers.len()), "{}", w.text.escape_ascii());
    w.text
}

/// A text of so many items at most, whatever they are.
pub fn any_list(rng: &mut Rng, most: usize) -> Vec<u8> {
    let numbers: Vec<u32> = (0..rng.below(most + 1)).map(|_| finite32(rng)).collect();
    list(rng, &numbers)
}

// ---- outside the grammar, or beyond the limits

/// Items outside the grammar wherever they stand (10).
pub const NO_ITEMS: &[&[u8]] = &[
    b"1.",
    b"-1.",
    b"0.",
    b"1.e5",
    b"1e",
    b"1E",
    b"1e+",
    b"1e-",
    b"1.5e",
    b"+",
    b"-",
    b".",
    b"+.",
    b"-.",
    b".e5",
    b"e5",
    b"E5",
    b"e",
    b"+e5",
    b"+-1",
    b"-+1",
    b"--1",
    b"++1",
    b"1+",
    b"1-",
    b"1-2",
    b"1+2",
    b"1.5-2",
    b"1e5-2",
    b"1.5.5",
    b"1..5",
    b"..5",
    b"1.5.",
    b"1e5.0",
    b"1e.5",
    b"1e5e5",
    b"1ee5",
    b"1eE5",
    b"1e+-5",
    b"1e--5",
    b"1e5+",
    b"- 1",
    b"+ 1",
    b". 5",
    b"1e 5",
    b"1 e5",
    b"1e+ 5",
    b"inf",
    b"Infinity",
    b"-inf",
    b"nan",
    b"NaN",
    b"0x10",
    b"0b1",
    b"1f",
    b"1d",
    b"1px",
    b"1%",
    b"50%",
    b"1em",
    b"1_000",
    b"1'000",
    b"1;2",
    b"1/2",
    b"(1)",
    b"\"1\"",
    b"#1",
    b"a",
    b"none",
    b"1a",
    b"a1",
    b"1,,2",
    b"1, ,2",
    b"1 , , 2",
    b"1,\t\n,2",
    b"1\x002",
    b"1\0",
    b"\x001",
    b"\0",
    b"1\x0c2",
    b"1\x0b2",
    b"\x0c",
    b"\x0b",
    b"1\x082",
    b"1\x7f",
    b"1\xa02",
    b"1\xc2\xa02",
    b"1\xc2\x852",
    b"1\xe2\x80\x832",
    b"1\xe3\x80\x802",
    b"\xef\xbb\xbf1",
    b"\xef\xbc\x91",
    b"\xd9\xa1",
    b"\xe2\x88\x921",
    b"1\xc3\xa9",
    b"\x80",
    b"\xff",
    b"1\xff2",
    b"\xc3",
    b"1\xc32",
    b"\xb1\xb2",
];

/// Items in the grammar and beyond the limits (11).
pub const BEYOND: &[&str] = &[
    "1e23",
    "0e23",
    "-0e23",
    "0e+23",
    "0E0023",
    "1e-23",
    "0e-23",
    "1e99",
    "1e400",
    "1e-400",
    "1e18446744073709551616",
    "1e-18446744073709551616",
    "1e4294967296",
    "1e256",
    "1e-256",
    "1e65536",
    "1234567890123456",
    "-1234567890123456",
    "1000000000000000",
    "9007199254740993",
    "9999999999999999",
    "0001234567890123456",
    "1.234567890123456",
    "1.000000000000000",
    "123456789012345.0",
    "123456789012345.6",
    "1234567890.123456",
    ".1234567890123456",
    "0.01234567890123456",
    "1234567890123456e0",
    "1234567890123456e-5",
    "1000000000000000e5",
    ".00000000000000000000001",
    "0.00000000000000000000000",
    "-0.00000000000000000000000",
    "1.5e-22",
    "0.0e-22",
    "10.5e24",
    ".5e24",
    "100000000000000000000000",
];

/// A text with some of its bytes changed: in the grammar still, or not.
pub fn scrambled(rng: &mut Rng, text: &[u8]) -> Vec<u8> {
    const BYTES_OF_ITEMS: &[u8] = b"0123456789+-..eE,, \t\n\r";
    let mut t = text.to_vec();
    for _ in 0..rng.within(1, 3) {
        let b = if rng.percent(90) { *rng.pick(BYTES_OF_ITEMS) } else { rng.next() as u8 };
        let at = rng.below(t.len() + 1);
        match rng.below(3) {
            0 if at < t.len() => t[at] = b,
            1 if at < t.len() => drop(t.remove(at)),
            _ => t.insert(at, b),
        }
    }
    t.truncate(BYTES);
    t
}
