//! Sheets with typed lists, made by rule: each form and fault of an item by name, each limit from both sides, each byte, each id, the order of the
//! refusals. Where a case has a number beside it, oracle/src/typed.rs is held to it too.

use oracle::typed::{BYTES, ITEMS, read};
use oracle::{AIDS, AId, EId, kind_of};

use crate::corners::{Corner, below, fe, on, reading, with};
use crate::generate::{list_attr, number_attr, tries_attr, typed_attr};
use crate::hard::{PLACES, binades};
use crate::model::{Attr, Node, Sheet};
use crate::texts::{BEYOND, Decimal, NO_ITEMS};

/// Texts that pass, and their numbers.
const PASS: &[(&str, &[f32])] = &[
    ("", &[]),
    (" ", &[]),
    ("\t", &[]),
    ("\n", &[]),
    ("\r", &[]),
    (" \t\r\n \t\r\n", &[]),
    ("0", &[0.0]),
    ("1", &[1.0]),
    ("9", &[9.0]),
    ("10", &[10.0]),
    ("+1", &[1.0]),
    ("-1", &[-1.0]),
    ("007", &[7.0]),
    ("-007", &[-7.0]),
    ("+007", &[7.0]),
    (".5", &[0.5]),
    ("-.5", &[-0.5]),
    ("+.5", &[0.5]),
    ("0.5", &[0.5]),
    ("00.5", &[0.5]),
    ("-00.5", &[-0.5]),
    ("1.5", &[1.5]),
    ("1.50", &[1.5]),
    ("01.50", &[1.5]),
    ("1.0", &[1.0]),
    ("0.1", &[0.1]),
    (".125", &[0.125]),
    ("1e5", &[1e5]),
    ("1E5", &[1e5]),
    ("1e+5", &[1e5]),
    ("1E+5", &[1e5]),
    ("1e-5", &[1e-5]),
    ("1E-5", &[1e-5]),
    ("1e05", &[1e5]),
    ("1e0000000000000000000000005", &[1e5]),
    ("1e-0000000000000000000000005", &[1e-5]),
    ("1e0", &[1.0]),
    ("1e+0", &[1.0]),
    ("1e-0", &[1.0]),
    ("1e00", &[1.0]),
    ("1.5e1", &[15.0]),
    ("1.5e-1", &[0.15]),
    (".5e1", &[5.0]),
    ("+.5e-3", &[0.0005]),
    ("-.5E+3", &[-500.0]),
    ("5.0e-1", &[0.5]),
    ("-1.25e+2", &[-125.0]),
    // a minus stays on zero
    ("-0", &[-0.0]),
    ("+0", &[0.0]),
    ("00", &[0.0]),
    ("-00", &[-0.0]),
    ("0.0", &[0.0]),
    ("-0.0", &[-0.0]),
    (".0", &[0.0]),
    ("-.0", &[-0.0]),
    ("0e5", &[0.0]),
    ("-0e5", &[-0.0]),
    ("-0e-5", &[-0.0]),
    ("-0.0e0", &[-0.0]),
    ("0 -0 0", &[0.0, -0.0, 0.0]),
    // what parts items
    ("1 2", &[1.0, 2.0]),
    ("1\t2", &[1.0, 2.0]),
    ("1\n2", &[1.0, 2.0]),
    ("1\r2", &[1.0, 2.0]),
    ("1\r\n2", &[1.0, 2.0]),
    ("1  2", &[1.0, 2.0]),
    ("1 \t\r\n2", &[1.0, 2.0]),
    ("1,2", &[1.0, 2.0]),
    ("1 ,2", &[1.0, 2.0]),
    ("1, 2", &[1.0, 2.0]),
    ("1 , 2", &[1.0, 2.0]),
    ("1\t,\n2", &[1.0, 2.0]),
    ("1 \t\r\n, \t\r\n2", &[1.0, 2.0]),
    ("1 2,3 4", &[1.0, 2.0, 3.0, 4.0]),
    ("1,2,3", &[1.0, 2.0, 3.0]),
    (" 1", &[1.0]),
    ("1 ", &[1.0]),
    ("\r\n1,2\r\n", &[1.0, 2.0]),
    ("\t1 2\t", &[1.0, 2.0]),
    ("1 -2", &[1.0, -2.0]),
    ("1,-2", &[1.0, -2.0]),
    ("1 +2", &[1.0, 2.0]),
    ("1,+2", &[1.0, 2.0]),
    (".5 .5", &[0.5, 0.5]),
    (".5,.5", &[0.5, 0.5]),
    ("1e5,1e5", &[1e5, 1e5]),
    ("1e5 -1e5", &[1e5, -1e5]),
    // what fits the lists of the elements
    (
        "1 0 0 0 0 0 1 0 0 0 0 0 1 0 0 0 0 0 1 0",
        &[1.0, 0.0, 0.0, 0.0, 0.0, 0.0, 1.0, 0.0, 0.0, 0.0, 0.0, 0.0, 1.0, 0.0, 0.0, 0.0, 0.0, 0.0, 1.0, 0.0],
    ),
    ("0.2126 0.7152 0.0722", &[0.2126, 0.7152, 0.0722]),
];

/// Texts that are 10 as a whole, beside the items that are 10 wherever they stand.
const OUTSIDE: &[&[u8]] = &[
    b",", b" ,", b", ", b" , ", b",,", b",1", b" ,1", b", 1", b"1,", b"1 ,", b"1, ", b"1 2,", b",1 2", b"1,2,,3",
    b"1 2 ,", b"1;", b"1 2 3.", b"1 2 x",
];

/// The digits and powers on the inner side of each limit.
const WITHIN: &[&str] = &[
    // 15 digits: leading zeros are none, trailing ones are
    "123456789012345",
    "-123456789012345",
    "999999999999999",
    "100000000000000",
    "000123456789012345",
    "00000000000000000000000000123456789012345",
    "12345678901234.5",
    "1.23456789012345",
    "1.00000000000000",
    "12345678901234.0",
    "0.123456789012345",
    ".123456789012345",
    "0000000.123456789012345",
    ".0000000123456789012345",
    "0.0000000123456789012345",
    "00.00000000123456789012345e2",
    "123456789012345e0",
    "123456789012345e22",
    "123456789012345e-22",
    "999999999999999e22",
    "-999999999999999e22",
    "999999999999999e-22",
    // zeros only: no digit
    "0000000000000000",
    "00000000000000000000000000000000",
    "0.0000000000000000",
    "0000000000000000.0000000000000000",
    // powers: the exponent less the decimals
    "1e22",
    "1E+22",
    "1e0022",
    "0e22",
    "-0e22",
    "1e-22",
    "0e-22",
    "-0e-22",
    "1e21",
    "1e-21",
    "1.5e23",
    "1.5e-21",
    ".5e23",
    "10.25e24",
    "0.0e23",
    "0.00e-20",
    "0.0000000000000000000001",
    ".0000000000000000000000",
    "-0.0000000000000000000000",
    "0.00000000000000000000001e1",
    "0.00000000000000000000000e1",
    "0.00000000000000000000000000000000000000000000000001e28",
    "0.00000000000000000000000000000000000000000000000001e72",
    "10000000000000e22",
];

/// More on the outer side.
const FURTHER: &[&str] = &[
    "1234567890123450",
    "123456789012345.00",
    "00.000000001234567890123456e2",
    "0000000.1234567890123456",
    "1.0000000000000000",
    "1e0023",
    "1e-0023",
    "1.5e24",
    "0.0e24",
    "0.0000000000000000000000e-1",
    "0.00000000000000000000001e0",
    "0.00000000000000000000000000000000000000000000000001e27",
    "0.00000000000000000000000000000000000000000000000001e73",
    "1e2147483647",
    "1e-2147483648",
    "1e9223372036854775808",
    "1e-9223372036854775809",
    "0e340282366920938463463374607431768211456",
    "1e22 1e23",
    "1e23 1e22",
    "1e23,1234567890123456",
];

/// Numbers on and next to the middle between two f32, by name; and the bits that they are read as.
const MIDDLES: &[(&str, u32)] = &[
    ("16777216", 0x4b80_0000),
    ("16777217", 0x4b80_0000),
    ("16777218", 0x4b80_0001),
    ("16777219", 0x4b80_0002),
    ("16777220", 0x4b80_0002),
    ("16777221", 0x4b80_0002),
    ("-16777217", 0xcb80_0000),
    ("-16777219", 0xcb80_0002),
    ("16777217.0", 0x4b80_0000),
    ("16777217.0000001", 0x4b80_0001),
    ("16777216.9999999", 0x4b80_0000),
    ("16777219.0000001", 0x4b80_0002),
    ("16777218.9999999", 0x4b80_0001),
    ("33554433", 0x4c00_0000),
    ("33554434", 0x4c00_0000),
    ("33554435", 0x4c00_0001),
    ("33554438", 0x4c00_0002),
    ("8388608.5", 0x4b00_0000),
    ("8388609.5", 0x4b00_0002),
    ("4194304.25", 0x4a80_0000),
    ("4194304.75", 0x4a80_0002),
    ("16385.0009765625", 0x4680_0200),
    ("1.00000005960464", 0x3f80_0000),
    ("1.00000005960465", 0x3f80_0001),
    ("1.00000017881393", 0x3f80_0001),
    ("1.00000017881394", 0x3f80_0002),
    ("0.999999970197678", 0x3f80_0000),
    ("0.999999970197677", 0x3f7f_ffff),
    // exactly between two f64, one of which is exactly between two f32
    ("360288206412841e2", 0x5b00_0006),
    ("360288120513495e2", 0x5b00_0004),
    ("72057856030933e3", 0x5b80_001e),
    ("72057624102699e3", 0x5b80_0004),
    ("14412215451281e4", 0x5c00_0196),
    ("14412383813999e4", 0x5c00_01f8),
    ("2882657838621e5", 0x5c80_0406),
    ("2883335756259e5", 0x5c80_0bbc),
    ("576746316089e6", 0x5d00_103c),
    ("577526144711e6", 0x5d00_3c90),
    ("116208256677e7", 0x5d81_0460),
    ("115719977307e7", 0x5d80_7998),
    ("23671148065e8", 0x5e03_66ba),
    ("23573492191e8", 0x5e02_dbf2),
    ("4734229613e9", 0x5e83_66ba),
    ("4929446803e9", 0x5e88_d1d4),
    ("1591091017e10", 0x5f5c_cee8),
    ("1630134455e10", 0x5f62_3a02),
    ("326026891e11", 0x5fe2_3a02),
    // read as an f64 exactly between two f32, and not there themselves: rounded once, some would be another f32
    ("28874659e15", 0x64c3_a98c),
    ("144373295e14", 0x6443_a98c),
    ("163364931e13", 0x62b1_1ee0),
    ("248237791e-20", 0x2c2e_ae8c),
    ("265092267e-13", 0x37de_6022),
    ("316694311e18", 0x6b82_fb50),
    ("374751039e16", 0x6846_643c),
    ("477805429e-14", 0x36a0_532c),
    ("544286477e-18", 0x3015_9cc2),
    ("682972221e-16", 0x3392_aacc),
    ("816824655e12", 0x6231_1ee0),
    ("896981543e20", 0x6f90_ea4a),
    ("939430711e-17", 0x3221_649a),
    ("967498269e-19", 0x2ed4_c150),
    ("1194047921e17", 0x6ac5_89e6),
    ("1241188955e-21", 0x2bae_ae8c),
    ("1561392549e-22", 0x2a2f_cc14),
    ("2389027145e-15", 0x3620_532c),
    ("4484907715e19", 0x6f10_ea4a),
    ("64974679513e22", 0x7600_23d4),
    ("324873397565e21", 0x7580_23d4),
];

fn table(text: &[u8]) -> Sheet {
    reading(1, typed_attr(AId::TableValues, text))
}

/// On a feTile, which reads no list.
fn unused(text: &[u8]) -> Node {
    with(fe(EId::FeTile), [typed_attr(AId::Values, text)])
}

struct Corners(Vec<Corner>);

impl Corners {
    fn add(&mut self, group: &'static str, sheet: Sheet) {
        self.0.push(Corner { group, sheet });
    }

    /// A text that is to have this answer: the number of the refusal, or 0.
    fn text(&mut self, group: &'static str, text: &[u8], number: u8) {
        assert_eq!(read(text).err().unwrap_or(0), number, "{}", text.escape_ascii());
        self.add(group, table(text));
    }

    fn items(&mut self) {
        for (t, numbers) in PASS {
            let bits = |l: &[f32]| l.iter().map(|n| n.to_bits()).collect::<Vec<_>>();
            assert_eq!(read(t.as_bytes()).map(|l| bits(&l)), Ok(bits(numbers)), "{:?}", t);
            self.add("typed: items and what parts them", table(t.as_bytes()));
        }
        for t in NO_ITEMS.iter().chain(OUTSIDE) {
            self.text("typed: outside the grammar", t, 10);
        }
        for t in NO_ITEMS {
            self.text("typed: outside the grammar, among items", &[b"1 ", *t, b" 2"].concat(), 10);
        }
        for t in WITHIN {
            self.text("typed: both sides of the limits", t.as_bytes(), 0);
        }
        for t in BEYOND.iter().chain(FURTHER) {
            self.text("typed: both sides of the limits", t.as_bytes(), 11);
        }
        for digits in [1, 14, 15, 16, 17, 30] {
            for zeros in [0, 1, 30] {
                for decimals in [0, 1, 7, 15, 16, 22] {
                    let all = "0".repeat(zeros) + &"7".repeat(digits);
                    let all = format!("{:0>decimals$}", all);
                    let (whole, rest) = all.split_at(all.len() - decimals);
                    let t = if decimals > 0 { format!("{}.{}", whole, rest) } else { all.clone() };
                    self.text(
                        "typed: digits on both sides of the point",
                        t.as_bytes(),
                        if digits > 15 { 11 } else { 0 },
                    );
                }
            }
        }
        for power in [-24, -23, -22, -21, 0, 21, 22, 23, 24] {
            for decimals in [0, 1, 10, 22, 23, 44, 45] {
                for digit in ["0", "-0", "3"] {
                    let point = if decimals > 0 { ".".to_string() + &"0".repeat(decimals) } else { String::new() };
                    let t = format!("{}{}e{}", digit, point, power + decimals as i32);
                    // zeros behind a 3 are digits
                    let digits = if digit == "3" { 1 + decimals } else { 0 };
                    let pass = digits <= 15 && (-22..=22).contains(&power);
                    self.text("typed: powers, as exponents less decimals", t.as_bytes(), if pass { 0 } else { 11 });
                }
            }
        }
    }

    fn rounding(&mut self) {
        for (t, bits) in MIDDLES {
            assert_eq!(read(t.as_bytes()).map(|l| l[0].to_bits()), Ok(*bits), "{}", t);
            self.add("typed: the middle between two f32", table(t.as_bytes()));
        }
        // the nearest of each power, in lists: below, on and above each of the three places, in each binade
        for power in -22..=22 {
            let mut hard: Vec<Decimal> = Vec::new();
            for b in binades(power) {
                hard.extend(PLACES.iter().flat_map(|p| b.at(*p)));
            }
            // a short list of each power, from all binades, is stored
            let some: Vec<Decimal> = hard.iter().step_by(hard.len().div_ceil(60).max(1)).copied().collect();
            self.decimals("typed: hard to round, some of each power", &some, false);
            self.decimals("typed: hard to round", &hard, false);
            self.decimals("typed: hard to round", &hard, true);
        }
    }

    /// In lists that are too long to be stored, or in one.
    fn decimals(&mut self, group: &'static str, all: &[Decimal], minus: bool) {
        for part in all.chunks(150) {
            let items: Vec<String> = part.iter().map(|d| Decimal { minus, ..*d }.plain()).collect();
            self.text(group, items.join(" ").as_bytes(), 0);
        }
    }

    fn bytes(&mut self) {
        for b in 0..=255u8 {
            let low = b < 128;
            let texts: [(&str, Vec<u8>); 8] = [
                ("alone", vec![b]),
                ("between two digits", vec![b'1', b, b'2']),
                ("behind a digit", vec![b'1', b]),
                ("before a digit", vec![b, b'1']),
                ("as a separator among white space", vec![b'1', b' ', b, b'\t', b'2']),
                ("behind a comma", vec![b'1', b',', b, b'2']),
                ("behind an e", vec![b'1', b'e', b, b'2']),
                ("behind a point", vec![b'1', b'.', b]),
            ];
            for (place, t) in texts {
                let group = match (place, low) {
                    (_, false) => "typed: each byte from 128, in eight places",
                    ("alone", _) => "typed: each byte below 128 alone",
                    ("between two digits", _) => "typed: each byte below 128 between two digits",
                    _ => "typed: each byte below 128 in six more places",
                };
                self.add(group, table(&t));
            }
        }
    }

    fn ids(&mut self) {
        for depth in [0, 1] {
            for id in AIDS {
                match kind_of(depth, *id) {
                    Some(3) => {
                        for t in ["", "0.5", "2 3", "-1 5", "1 2 3", "1.", "1e23"] {
                            self.add("typed: each id of a list", reading(depth, typed_attr(*id, t.as_bytes())));
                            self.add("typed: each id of a list", on(depth, typed_attr(*id, t.as_bytes())));
                        }
                    }
                    Some(_) => {
                        self.add("typed: each id of another kind", on(depth, typed_attr(*id, b"1")));
                        self.add("typed: each id of another kind", on(depth, typed_attr(*id, b"")));
                    }
                    // among each id with each kind
                    None => {}
                }
            }
        }
        for id in [AId::Values, AId::KernelMatrix, AId::Radius, AId::BaseFrequency] {
            self.add("typed: each id of a list at the other depth", on(1, typed_attr(id, b"1")));
        }
        self.add("typed: each id of a list at the other depth", on(0, typed_attr(AId::TableValues, b"1")));
    }

    /// Two or more faults: which number comes first.
    fn order(&mut self) {
        let (ten, eleven) = (&b"1."[..], &b"1e23"[..]);
        let nan = || with(fe(EId::FeTile), [list_attr(AId::Values, &[0x7fc0_0000])]);
        let image = || fe(EId::FeImage);
        let layout = || Node { zero: 1, ..fe(EId::FeTile) };
        let short = || unused(b"1 2");
        let kinds: [Node; 6] = [unused(ten), unused(eleven), nan(), image(), layout(), short()];
        for a in &kinds {
            self.add("typed: the order of refusals", Sheet::plain(vec![a.clone()]));
            for b in &kinds {
                self.add("typed: the order of refusals", Sheet::plain(vec![a.clone(), b.clone()]));
                // beside what comes after 4
                let mut s = Sheet::plain(vec![a.clone(), b.clone()]);
                s.units[0] = 1;
                self.add("typed: the order of refusals", s);
            }
        }
        for t in ["1. 1e23", "1e23 1.", "1e23,1e23,1.", "1e23 ,", ",1e23", "1234567890123456 +", "1.e23"] {
            self.text("typed: the order of refusals", t.as_bytes(), 10);
        }
        // two lists of one node
        for (a, b) in [(ten, eleven), (eleven, ten), (eleven, b"1"), (b"1", eleven), (ten, b"1"), (b"1", ten)] {
            let lists = [typed_attr(AId::Values, a), typed_attr(AId::KernelMatrix, b)];
            self.add("typed: the order of refusals", Sheet::plain(vec![with(fe(EId::FeTile), lists)]));
        }
        // on any node: without effect, of an unknown tag, below another element, behind the end of the chain
        let end = || with(fe(EId::FeTile), [crate::generate::length_attr(AId::Width, 0, 0)]);
        for t in [ten, eleven] {
            self.add(
                "typed: the order of refusals",
                Sheet::plain(vec![with(fe(EId::G), [typed_attr(AId::Radius, t)])]),
            );
            self.add("typed: the order of refusals", Sheet::plain(vec![fe(EId::FeTile), end(), unused(t)]));
            let node = with(below(EId::FeMergeNode), [typed_attr(AId::TableValues, t)]);
            self.add("typed: the order of refusals", Sheet::plain(vec![fe(EId::FeMerge), node.clone()]));
            self.add("typed: the order of refusals", Sheet::plain(vec![fe(EId::FeTile), node]));
            let mut s = Sheet::plain(vec![unused(t)]);
            for (i, bad) in [(0, 0x7fc0_0000), (1, 0), (2, 0xbf80_0000)] {
                s.view_box[0] = 2f32.to_bits();
                match i {
                    0 => s.dpi = bad,
                    1 => s.view_box[0] = bad,
                    _ => s.font_size = bad,
                }
                self.add("typed: the order of refusals", s.clone());
            }
            self.add("typed: the order of refusals", Sheet { count: Some(2), ..Sheet::plain(vec![unused(t)]) });
            self.add("typed: the order of refusals", Sheet { count: Some(513), ..Sheet::plain(vec![unused(t)]) });
        }
    }

    /// Each element that reads a list, with numbers at which something changes there.
    fn elements(&mut self) {
        let kernel = |t: &str| with(fe(EId::FeConvolveMatrix), [typed_attr(AId::KernelMatrix, t.as_bytes())]);
        for t in [
            "1 1 1 1 1 1 1 1 1",
            "1,1,1 1,-8,1 1,1,1",
            "1 1 1 1 1 1 1 1",
            "",
            "0 0 0 0 4e-7 0 0 0 0",
            "0 0 0 0 5e-7 0 0 0 0",
        ] {
            self.add("typed: elements that read lists", Sheet::plain(vec![kernel(t)]));
            let more = [tries_attr(AId::Order, &[3f64.to_bits()]), number_attr(AId::TargetX, 1.0)];
            self.add("typed: elements that read lists", Sheet::plain(vec![with(kernel(t), more)]));
        }
        for t in ["0 5", "-0 5", "0", "2", "2 3", "-1 5", "1e-22", "0 0", "1 2 3", ""] {
            let node = with(fe(EId::FeMorphology), [typed_attr(AId::Radius, t.as_bytes())]);
            let mut s = Sheet::plain(vec![node.clone()]);
            self.add("typed: elements that read lists", s.clone());
            s.units = [0, 1];
            s.set_box([0.0, 0.0, 3e38, 3e38]);
            self.add("typed: elements that read lists", s);
            let node = with(fe(EId::FeTurbulence), [typed_attr(AId::BaseFrequency, t.as_bytes())]);
            self.add("typed: elements that read lists", Sheet::plain(vec![node]));
        }
        for kind in ["matrix", "saturate", "hueRotate", "luminanceToAlpha"] {
            for t in ["", "0.5", "-0", "180", "1 2", "1e-22", "1 2 3 4 5 6 7 8 9 10 11 12 13 14 15 16 17 18 19 20"] {
                let attrs = [crate::generate::text_attr(AId::Type, kind), typed_attr(AId::Values, t.as_bytes())];
                self.add("typed: elements that read lists", Sheet::plain(vec![with(fe(EId::FeColorMatrix), attrs)]));
            }
        }
    }
}

/// A text of exactly so many bytes: this one, with white space behind it.
fn padded(text: &str, bytes: usize) -> Vec<u8> {
    let mut t = text.as_bytes().to_vec();
    t.resize(bytes, b' ');
    t
}

/// So many items with this between them.
fn many(item: &str, between: &str, count: usize) -> Vec<u8> {
    vec![item; count].join(between).into_bytes()
}

/// 1,024 items in so many bytes, 4,096 or more: three bytes each and a comma, and the last has the rest.
fn full(bytes: usize) -> Vec<u8> {
    let mut t = many("0.5", ",", ITEMS);
    t.resize(bytes, b'5');
    t
}

/// The long texts, with the answer of each. All of them are stored.
pub fn long_texts() -> Vec<(Vec<u8>, u8)> {
    let zeros = |n: usize| "0".repeat(n);
    let nines = |n: usize| "9".repeat(n);
    let text = |t: String| t.into_bytes();
    vec![
        // bytes
        (padded("", BYTES), 0),
        (padded("1 2", BYTES), 0),
        (padded("1 2", BYTES + 1), 2),
        (padded("1.", BYTES + 1), 2),
        (vec![0; BYTES + 1], 2),
        ([&padded("1", BYTES - 1)[..], b"x"].concat(), 10),
        ([&padded("1", BYTES - 1)[..], b"2"].concat(), 0),
        // items
        (many("1", " ", ITEMS - 1), 0),
        (many("1", " ", ITEMS), 0),
        (many("1", " ", ITEMS + 1), 10),
        (many("1", ",", ITEMS), 0),
        (many("1", ",", ITEMS + 1), 10),
        (full(BYTES), 0),
        (full(BYTES + 1), 2),
        ([&many("1", ",", ITEMS)[..], b" 2"].concat(), 10),
        ([&many("1", ",", ITEMS)[..], b","].concat(), 10),
        ([&many("1", ",", ITEMS - 1)[..], b" 1e23"].concat(), 11),
        ([&many("1", ",", ITEMS)[..], b" 1e23"].concat(), 10),
        (many("1", ",", 2048), 10),
        (many("0", "\r\n", 1365), 10),
        // one item
        (text(zeros(BYTES)), 0),
        (text(zeros(BYTES + 1)), 2),
        (text(zeros(BYTES - 15) + "123456789012345"), 0),
        (text(zeros(BYTES - 16) + "1234567890123456"), 11),
        (text("7".to_string() + &zeros(BYTES - 1)), 11),
        (text(nines(BYTES)), 11),
        (text("-".to_string() + &zeros(1200) + ".5"), 0),
        (text("1e".to_string() + &zeros(1200) + "5"), 0),
        (text("1e-".to_string() + &zeros(1200) + "22"), 0),
        (text("1e".to_string() + &zeros(1200) + "23"), 11),
        (text("1e".to_string() + &nines(BYTES - 2)), 11),
        (text("1e-".to_string() + &nines(1200)), 11),
        (text("0e".to_string() + &nines(1200)), 11),
        (text("1e".to_string() + &nines(1200) + "."), 10),
        (text("0.".to_string() + &zeros(1200)), 11),
        (text("0.".to_string() + &zeros(1200) + "e1178"), 0),
        (text("0.".to_string() + &zeros(1200) + "e1177"), 11),
        (text("0.".to_string() + &zeros(1200) + "e1222"), 0),
        (text("0.".to_string() + &zeros(1200) + "e1223"), 11),
        (text("-.".to_string() + &zeros(4080) + "1e+4059"), 0),
        (text("-.".to_string() + &zeros(4080) + "1e+4058"), 11),
        (text(".".to_string() + &zeros(1185) + "123456789012345E1222"), 0),
        (text(".".to_string() + &zeros(1185) + "123456789012345E1223"), 11),
        (text(".".to_string() + &zeros(1185) + "1234567890123456E1200"), 11),
        (text(zeros(600) + "." + &zeros(600) + "25e" + &zeros(50) + "600"), 0),
    ]
}

/// The sheets of the long texts: read where it's short, unused where the list would be long.
pub fn long_sheets() -> Vec<Sheet> {
    let all = long_texts().into_iter();
    all.map(|(t, number)| {
        let s = Sheet::plain(vec![unused(&t)]);
        assert_eq!(oracle::run::sheet(&s.bytes()).answer.err().unwrap_or(0), number, "{}", s);
        s
    })
    .collect()
}

/// A sheet of exactly so many bytes that is full of typed lists.
fn of_size(size: usize, count: usize) -> Sheet {
    let mut s = Sheet::plain(vec![fe(EId::FeTile)]);
    let text = many("7", " ", count);
    while s.bytes().len() + 2 * (22 + text.len()) + 22 <= size {
        s.nodes.push(unused(&text));
    }
    let left = size - s.bytes().len();
    for part in [left / 2, left - left / 2] {
        s.nodes.push(unused(&padded("", part - 22)));
    }
    assert_eq!(s.bytes().len(), size);
    s
}

/// 1,024 items for each of the elements that can hold them, in the list too.
fn large_lists() -> Vec<Sheet> {
    let order = |n: f64| tries_attr(AId::Order, &[n.to_bits()]);
    let mut all = Vec::new();
    for count in [ITEMS - 1, ITEMS, ITEMS + 1] {
        for t in [many("1", " ", count), many("-1", ",", count), many(".5", "\n", count)] {
            all.push(table(&t));
            let kernel: [Attr; 2] = [typed_attr(AId::KernelMatrix, &t), order(32.0)];
            all.push(Sheet::plain(vec![with(fe(EId::FeConvolveMatrix), kernel)]));
            all.push(reading(0, typed_attr(AId::Values, &t)));
            all.push(reading(0, typed_attr(AId::Radius, &t)));
            all.push(reading(0, typed_attr(AId::BaseFrequency, &t)));
        }
    }
    // lists whose numbers take more room than their text
    let mut nodes = vec![fe(EId::FeComponentTransfer)];
    let one = reading(1, typed_attr(AId::TableValues, &many("1", " ", ITEMS))).nodes.remove(1);
    nodes.extend(vec![one; 31]);
    all.push(Sheet::plain(nodes));
    all
}

pub fn corners() -> Vec<Corner> {
    let mut c = Corners(Vec::new());
    c.items();
    c.rounding();
    c.bytes();
    c.ids();
    c.order();
    c.elements();
    for s in long_sheets() {
        c.add("typed: long texts", s);
    }
    for (t, _) in long_texts() {
        c.add("typed: long texts, read", table(&t));
    }
    for s in large_lists() {
        c.add("typed: around 1,024 items in each list", s);
    }
    for size in [65_535, 65_536, 65_537] {
        for count in [60, 200, 1024] {
            c.add("typed: sheets around 65,536 bytes", of_size(size, count));
        }
    }
    c.0
}
