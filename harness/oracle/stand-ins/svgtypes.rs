//! Stand-in for the crate svgtypes. It parses no SVG text: the sheet holds values
//! that are already read, so the oracle carries them through the crate's
//! string-valued attributes in a private spelling, and the readers below undo
//! it bit for bit. The spellings (one per attribute kind of the sheet):
//!
//! | spelling | kind | read by |
//! |---|---|---|
//! | `#u` | 0 unreadable | every reader fails on it |
//! | `#n` + 8 hex digits | 2, f32 bits | `Number`, `Length` (no unit; for flood-opacity) |
//! | `#l` + 8 hex digits each | 3, f32 list | `NumberListParser` |
//! | `#L` + 2 hex digits + 16 hex digits | 4, unit and f64 bits | `Length` |
//! | `#c` + 8 hex digits | 5, red green blue alpha | `Color` |
//! | `#t` + (`+` and 16 hex digits, or `-`) three times | 6, tries | `NumberListParser` |
//!
//! `NumberListParser` reads plain text besides ("2 2" and "0 0", the defaults
//! that stand in parser/filter.rs).

use std::str::FromStr;

#[derive(Clone, Copy, Debug)]
pub struct Error;

impl std::fmt::Display for Error {
    fn fmt(&self, f: &mut std::fmt::Formatter) -> std::fmt::Result {
        f.write_str("unreadable")
    }
}

fn hex_u32(s: &str) -> Result<u32, Error> {
    if s.len() != 8 {
        return Err(Error);
    }
    u32::from_str_radix(s, 16).map_err(|_| Error)
}

fn hex_u64(s: &str) -> Result<u64, Error> {
    if s.len() != 16 {
        return Err(Error);
    }
    u64::from_str_radix(s, 16).map_err(|_| Error)
}

#[derive(Clone, Copy, Debug)]
pub struct Number(pub f64);

impl FromStr for Number {
    type Err = Error;
    fn from_str(s: &str) -> Result<Self, Error> {
        let bits = hex_u32(s.strip_prefix("#n").ok_or(Error)?)?;
        Ok(Number(f64::from(f32::from_bits(bits))))
    }
}

#[derive(Clone, Copy, PartialEq, Debug)]
pub enum LengthUnit {
    None,
    Em,
    Ex,
    Px,
    In,
    Cm,
    Mm,
    Pt,
    Pc,
    Percent,
}

impl LengthUnit {
    /// The sheet's unit byte.
    pub fn from_byte(b: u8) -> Option<Self> {
        Some(match b {
            0 => LengthUnit::None,
            1 => LengthUnit::Em,
            2 => LengthUnit::Ex,
            3 => LengthUnit::Px,
            4 => LengthUnit::In,
            5 => LengthUnit::Cm,
            6 => LengthUnit::Mm,
            7 => LengthUnit::Pt,
            8 => LengthUnit::Pc,
            9 => LengthUnit::Percent,
            _ => return None,
        })
    }
}

#[derive(Clone, Copy, PartialEq, Debug)]
pub struct Length {
    pub number: f64,
    pub unit: LengthUnit,
}

impl Length {
    pub fn new(number: f64, unit: LengthUnit) -> Length {
        Length { number, unit }
    }
}

impl FromStr for Length {
    type Err = Error;
    fn from_str(s: &str) -> Result<Self, Error> {
        if s.starts_with("#n") {
            return Ok(Length::new(Number::from_str(s)?.0, LengthUnit::None));
        }
        let rest = s.strip_prefix("#L").ok_or(Error)?;
        if rest.len() != 18 {
            return Err(Error);
        }
        let unit = u8::from_str_radix(&rest[..2], 16).map_err(|_| Error)?;
        Ok(Length::new(
            f64::from_bits(hex_u64(&rest[2..])?),
            LengthUnit::from_byte(unit).ok_or(Error)?,
        ))
    }
}

/// Reads item by item, without memory of its own, as the real one does.
pub struct NumberListParser<'a> {
    spelling: Spelling,
    rest: &'a str,
}

#[derive(Clone, Copy)]
enum Spelling {
    Numbers,
    Tries,
    Unreadable,
    Plain,
}

impl<'a> From<&'a str> for NumberListParser<'a> {
    fn from(s: &'a str) -> Self {
        let (spelling, rest) = if let Some(rest) = s.strip_prefix("#l") {
            (Spelling::Numbers, rest)
        } else if let Some(rest) = s.strip_prefix("#t") {
            (Spelling::Tries, rest)
        } else if s == "#u" {
            (Spelling::Unreadable, s)
        } else {
            (Spelling::Plain, s.trim_ascii())
        };
        NumberListParser { spelling, rest }
    }
}

impl Iterator for NumberListParser<'_> {
    type Item = Result<f64, Error>;
    fn next(&mut self) -> Option<Self::Item> {
        if self.rest.is_empty() {
            return None;
        }
        let (item, rest) = match self.spelling {
            Spelling::Numbers => {
                let bits = hex_u32(&self.rest[..8]).unwrap();
                (Ok(f64::from(f32::from_bits(bits))), &self.rest[8..])
            }
            Spelling::Tries => match self.rest.strip_prefix('+') {
                Some(r) => (Ok(f64::from_bits(hex_u64(&r[..16]).unwrap())), &r[16..]),
                None => (Err(Error), &self.rest[1..]),
            },
            Spelling::Unreadable => (Err(Error), ""),
            Spelling::Plain => {
                let (word, rest) = self.rest.split_once(' ').unwrap_or((self.rest, ""));
                (word.parse().map_err(|_| Error), rest.trim_ascii_start())
            }
        };
        self.rest = rest;
        Some(item)
    }
}

#[derive(Clone, Copy, PartialEq, Debug)]
pub struct Color {
    pub red: u8,
    pub green: u8,
    pub blue: u8,
    pub alpha: u8,
}

impl Color {
    pub fn black() -> Self {
        Color { red: 0, green: 0, blue: 0, alpha: 255 }
    }
}

impl FromStr for Color {
    type Err = Error;
    fn from_str(s: &str) -> Result<Self, Error> {
        let b = hex_u32(s.strip_prefix("#c").ok_or(Error)?)?.to_be_bytes();
        Ok(Color { red: b[0], green: b[1], blue: b[2], alpha: b[3] })
    }
}

/// Always in degrees here.
#[derive(Clone, Copy, PartialEq, Debug)]
pub struct Angle {
    pub number: f64,
}

impl Angle {
    pub fn to_degrees(&self) -> f64 {
        self.number
    }
}

/// One filter function or link, handed over by the oracle (see `hand_over`).
#[derive(Clone, PartialEq, Debug)]
pub enum FilterValue<'a> {
    Blur(Length),
    Brightness(f64),
    Contrast(f64),
    DropShadow {
        color: Option<Color>,
        dx: Length,
        dy: Length,
        std_dev: Length,
    },
    Grayscale(f64),
    HueRotate(Angle),
    Invert(f64),
    Opacity(f64),
    Saturate(f64),
    Sepia(f64),
    Url(&'a str),
}

thread_local! {
    static NEXT: std::cell::RefCell<Option<FilterValue<'static>>> =
        const { std::cell::RefCell::new(None) };
}

/// The value that the next `FilterValueListParser` yields, whatever its text.
pub fn hand_over(v: FilterValue<'static>) {
    NEXT.with(|n| *n.borrow_mut() = Some(v));
}

pub struct FilterValueListParser<'a>(Option<FilterValue<'static>>, std::marker::PhantomData<&'a str>);

impl<'a> From<&'a str> for FilterValueListParser<'a> {
    fn from(_: &'a str) -> Self {
        FilterValueListParser(NEXT.with(|n| n.borrow_mut().take()), std::marker::PhantomData)
    }
}

impl<'a> Iterator for FilterValueListParser<'a> {
    type Item = Result<FilterValue<'a>, Error>;
    fn next(&mut self) -> Option<Self::Item> {
        self.0.take().map(Ok)
    }
}

// ---- Below: named by the crate's sources, never read by the filter code. ----

macro_rules! never_read {
    ($t:ty) => {
        impl FromStr for $t {
            type Err = Error;
            fn from_str(_: &str) -> Result<Self, Error> {
                unreachable!()
            }
        }
    };
}
never_read!(Angle);

pub struct LengthListParser<'a>(std::marker::PhantomData<&'a str>);
impl<'a> From<&'a str> for LengthListParser<'a> {
    fn from(_: &'a str) -> Self {
        unreachable!()
    }
}
impl Iterator for LengthListParser<'_> {
    type Item = Result<Length, Error>;
    fn next(&mut self) -> Option<Self::Item> {
        unreachable!()
    }
}

#[derive(Clone, Copy, PartialEq, Debug)]
pub enum Align {
    None,
    XMinYMin,
    XMidYMin,
    XMaxYMin,
    XMinYMid,
    XMidYMid,
    XMaxYMid,
    XMinYMax,
    XMidYMax,
    XMaxYMax,
}

#[derive(Clone, Copy, PartialEq, Debug)]
pub struct AspectRatio {
    pub align: Align,
    pub slice: bool,
}
impl Default for AspectRatio {
    fn default() -> Self {
        AspectRatio { align: Align::XMidYMid, slice: false }
    }
}
never_read!(AspectRatio);

pub struct Transform {
    pub a: f64,
    pub b: f64,
    pub c: f64,
    pub d: f64,
    pub e: f64,
    pub f: f64,
}
never_read!(Transform);

pub struct ViewBox {
    pub x: f64,
    pub y: f64,
    pub w: f64,
    pub h: f64,
}
never_read!(ViewBox);

pub struct TransformOrigin;
never_read!(TransformOrigin);
pub struct PaintOrder;
never_read!(PaintOrder);
pub struct EnableBackground;
never_read!(EnableBackground);

pub struct Paint<'a>(std::marker::PhantomData<&'a str>);
impl<'a> Paint<'a> {
    #[allow(clippy::should_implement_trait)]
    pub fn from_str(_: &'a str) -> Result<Self, Error> {
        unreachable!()
    }
}

/// `href` is never set in the oracle's documents, so these are not read either.
pub struct IRI<'a>(pub &'a str);
impl<'a> IRI<'a> {
    #[allow(clippy::should_implement_trait)]
    pub fn from_str(_: &'a str) -> Result<Self, Error> {
        unreachable!()
    }
}
pub struct FuncIRI<'a>(pub &'a str);
impl<'a> FuncIRI<'a> {
    #[allow(clippy::should_implement_trait)]
    pub fn from_str(_: &'a str) -> Result<Self, Error> {
        unreachable!()
    }
}
