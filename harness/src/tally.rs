//! Counts of what a run has reached: refusals, kinds, the cases of every enum in a list, attributes, broken rules.

use std::collections::BTreeMap;

use oracle::run::{Named, Verdict};
use oracle::typed::{BYTES, read};
use oracle::{AIDS, kind_of};

use crate::model::Sheet;

/// One more than the highest number.
pub const NUMBERS: usize = 12;

/// The kinds in the order of their declaration.
pub const KINDS: [&str; 17] = [
    "Blend",
    "ColorMatrix",
    "ComponentTransfer",
    "Composite",
    "ConvolveMatrix",
    "DiffuseLighting",
    "DisplacementMap",
    "DropShadow",
    "Flood",
    "GaussianBlur",
    "Image",
    "Merge",
    "Morphology",
    "Offset",
    "SpecularLighting",
    "Tile",
    "Turbulence",
];

/// The enums of a list, with the number of their cases.
const ENUMS: [(&str, usize); 16] = [
    ("color interpolation", 2),
    ("input", 3),
    ("blend mode", 16),
    ("colour matrix", 4),
    ("transfer function", 5),
    ("composite operator", 7),
    ("edge mode", 3),
    ("preserve alpha", 2),
    ("light source", 3),
    ("limiting cone angle", 2),
    ("x channel", 4),
    ("y channel", 4),
    ("morphology operator", 2),
    ("stitch tiles", 2),
    ("turbulence kind", 2),
    ("light on", 2),
];

#[derive(Default)]
pub struct Tally {
    pub sheets: u64,
    pub calls: u64,
    pub refusals: [u64; NUMBERS],
    pub kinds: [u64; 17],
    pub enums: [[u64; 16]; 16],
    pub primitives: u64,
    pub longest_list: usize,
    /// Lists of the library's that reader.rs found in the layout.
    pub lists_read: u64,
    pub longest_sheet: usize,
    /// Attributes on nodes of accepted sheets, by depth and place.
    pub attributes: [Vec<u64>; 2],
    /// Rules broken, with the numbers that came of it.
    pub rules: BTreeMap<&'static str, (u64, [u64; NUMBERS])>,
    pub groups: BTreeMap<&'static str, u64>,
    pub order_product: u64,
    pub displacement_sum: u64,
    pub dy_percent: u64,
    pub octaves_half: u64,
    pub box_units: u64,
    pub box_units_otherwise: u64,
    pub records: u64,
    pub record_refusals: [u64; NUMBERS],
    pub record_kinds: [u64; 17],
    pub record_codes: [u64; 10],
    pub narrowed: u64,
    pub narrowed_nan: u64,
    pub differences: u64,
    pub lengths: [u64; 5],
    /// Typed lists in accepted sheets, and in all others.
    pub typed: [Typed; 2],
    /// Those in accepted sheets, by depth and place.
    pub typed_ids: [Vec<u64>; 2],
}

pub const LENGTHS: [&str; 5] = ["plenty", "exactly full", "one short", "empty", "shorter still"];

/// Typed lists by outcome.
#[derive(Default)]
pub struct Typed {
    pass: u64,
    empty: u64,
    items: u64,
    outside: u64,
    beyond: u64,
    too_long: u64,
    /// The most of those that pass.
    most_items: usize,
    most_bytes: usize,
}

impl Typed {
    pub fn add(&mut self, text: &[u8]) {
        if text.len() > BYTES {
            self.too_long += 1;
            return;
        }
        match read(text) {
            Err(10) => self.outside += 1,
            Err(_) => self.beyond += 1,
            Ok(numbers) => {
                self.pass += 1;
                self.empty += u64::from(numbers.is_empty());
                self.items += numbers.len() as u64;
                self.most_items = self.most_items.max(numbers.len());
                self.most_bytes = self.most_bytes.max(text.len());
            }
        }
    }
}

impl std::fmt::Display for Typed {
    fn fmt(&self, f: &mut std::fmt::Formatter) -> std::fmt::Result {
        write!(
            f,
            "{} pass (of which empty {}; items {}, at most {} in {} bytes), 10: {}, 11: {}, over 4,096 bytes: {}",
            grouped(self.pass),
            grouped(self.empty),
            grouped(self.items),
            grouped(self.most_items as u64),
            grouped(self.most_bytes as u64),
            grouped(self.outside),
            grouped(self.beyond),
            grouped(self.too_long)
        )
    }
}

/// Reads a list, or a Kind by itself, and counts.
struct Reader<'a, 'b> {
    bytes: &'a [u8],
    at: usize,
    enums: &'b mut [[u64; 16]; 16],
    kinds: &'b mut [u64; 17],
}

impl Reader<'_, '_> {
    fn u8(&mut self) -> usize {
        self.at += 1;
        self.bytes[self.at - 1] as usize
    }
    fn u16(&mut self) -> usize {
        self.u8() + 256 * self.u8()
    }
    fn case(&mut self, which: usize) -> usize {
        let n = self.u8();
        self.enums[which][n] += 1;
        n
    }
    fn text(&mut self) {
        let n = self.u16();
        self.at += n;
    }
    fn numbers(&mut self) {
        let n = self.u16();
        self.at += 4 * n;
    }
    fn input(&mut self) {
        if self.case(1) == 2 {
            self.text();
        }
    }
    fn transfer(&mut self) {
        match self.case(4) {
            1 | 2 => self.numbers(),
            3 => self.at += 8,
            4 => self.at += 12,
            _ => {}
        }
    }
    fn light(&mut self) {
        match self.case(8) {
            0 => self.at += 8,
            1 => self.at += 12,
            _ => {
                self.at += 28;
                if self.case(9) == 1 {
                    self.at += 4;
                }
            }
        }
    }
    fn kind(&mut self) {
        let k = self.u8();
        self.kinds[k] += 1;
        match k {
            0 | 3 | 6 => {
                self.input();
                self.input();
            }
            8 | 11 | 16 => {}
            _ => self.input(),
        }
        match k {
            0 => drop(self.case(2)),
            1 => match self.case(3) {
                0 => self.numbers(),
                1 | 2 => self.at += 4,
                _ => {}
            },
            2 => (0..4).for_each(|_| self.transfer()),
            3 => {
                if self.case(5) == 6 {
                    self.at += 16;
                }
            }
            4 => {
                self.at += 16;
                self.numbers();
                self.at += 8;
                self.case(6);
                self.case(7);
            }
            5 => {
                self.at += 11;
                self.enums[15][0] += 1;
                self.light();
            }
            6 => {
                self.at += 4;
                self.case(10);
                self.case(11);
            }
            7 => self.at += 23,
            8 => self.at += 7,
            9 => self.at += 8,
            11 => {
                let n = self.u16();
                (0..n).for_each(|_| self.input());
            }
            12 => {
                self.case(12);
                self.at += 8;
            }
            13 => self.at += 8,
            14 => {
                self.at += 15;
                self.enums[15][1] += 1;
                self.light();
            }
            15 => {}
            16 => {
                self.at += 16;
                self.case(13);
                self.case(14);
            }
            _ => panic!("kind {} in a list", k),
        }
    }
}

impl Tally {
    pub fn new() -> Tally {
        let ids = || [vec![0; AIDS.len()], vec![0; AIDS.len()]];
        Tally { attributes: ids(), typed_ids: ids(), ..Default::default() }
    }

    fn named(&mut self, v: &Verdict) {
        for n in &v.named {
            match n {
                Named::OrderProduct => self.order_product += 1,
                Named::DisplacementSum => self.displacement_sum += 1,
                Named::DyPercent => self.dy_percent += 1,
                Named::OctavesHalf => self.octaves_half += 1,
                Named::BoxUnits => self.box_units += 1,
                Named::BoxUnitsOtherwise => self.box_units_otherwise += 1,
            }
        }
    }

    /// Counts a sheet and reads its list; a list that doesn't end where its last record does is a fault of the oracle.
    pub fn sheet(&mut self, s: &Sheet, size: usize, v: &Verdict) {
        self.sheets += 1;
        self.longest_sheet = self.longest_sheet.max(size);
        self.named(v);
        for a in s.nodes.iter().flat_map(|n| &n.attrs).filter(|a| a.kind == 7) {
            self.typed[usize::from(v.answer.is_err())].add(&a.value);
        }
        let list = match &v.answer {
            Err(n) => {
                self.refusals[*n as usize] += 1;
                return;
            }
            Ok(list) => list,
        };
        self.refusals[0] += 1;
        self.longest_list = self.longest_list.max(list.len());
        let mut r = Reader { bytes: list, at: 0, enums: &mut self.enums, kinds: &mut self.kinds };
        let count = r.u16();
        r.at = 2 + 8 * count;
        for _ in 0..count {
            r.at += 16;
            r.case(0);
            r.text();
            r.kind();
        }
        assert_eq!(r.at, list.len());
        self.primitives += count as u64;
        for n in &s.nodes {
            for a in &n.attrs {
                self.attributes[n.depth as usize][a.id as usize] += 1;
                if a.kind == 7 {
                    self.typed_ids[n.depth as usize][a.id as usize] += 1;
                }
            }
        }
    }

    pub fn rule(&mut self, name: &'static str, v: &Verdict) {
        let (count, numbers) = self.rules.entry(name).or_default();
        *count += 1;
        numbers[v.answer.as_ref().map_or_else(|n| *n as usize, |_| 0)] += 1;
    }

    pub fn record(&mut self, record: &[u8], v: &Verdict) {
        self.records += 1;
        self.named(v);
        match &v.answer {
            Err(n) => self.record_refusals[*n as usize] += 1,
            Ok(kind) => {
                self.record_refusals[0] += 1;
                self.record_codes[record[12] as usize] += 1;
                let mut enums = [[0; 16]; 16];
                let mut r = Reader { bytes: kind, at: 0, enums: &mut enums, kinds: &mut self.record_kinds };
                r.kind();
                assert_eq!(r.at, kind.len());
            }
        }
    }

    pub fn print(&self, parts: Parts) {
        let pairs = |names: &[&str], counts: &[u64]| {
            names.iter().zip(counts).map(|(n, c)| format!("{} {}", n, grouped(*c))).collect::<Vec<_>>().join(", ")
        };
        println!(
            "\nsheets {}, longest {} bytes; primitives {}, longest list {} bytes",
            grouped(self.sheets),
            self.longest_sheet,
            grouped(self.primitives),
            self.longest_list
        );
        println!("calls {}, with an output: {}", grouped(self.calls), pairs(&LENGTHS, &self.lengths));
        println!("lists that the library gave and the second reader found in the layout: {}", grouped(self.lists_read));
        println!("numbers, with an output that suffices:");
        for (n, c) in self.refusals.iter().enumerate() {
            match n {
                7 => println!("   7 {:>12}  (not to be met: every base frequency is finite after 3)", grouped(*c)),
                9 => println!(
                    "   9 {:>12}  (the calls with an output one short, empty or shorter still, of accepted sheets)",
                    grouped(self.nines())
                ),
                _ => println!("  {:>2} {:>12}", n, grouped(*c)),
            }
        }
        println!("kinds:");
        for (k, c) in KINDS.iter().zip(self.kinds) {
            if *k != "Image" {
                println!("  {:<18} {:>12}", k, grouped(c));
            }
        }
        println!("cases of the enums in a list, in the order of their declaration:");
        for ((name, cases), counts) in ENUMS.iter().zip(&self.enums) {
            let counts: Vec<String> = counts[..*cases].iter().map(|c| grouped(*c)).collect();
            println!("  {:<20} {}", name, counts.join(" "));
        }
        let mut least = (u64::MAX, String::new());
        let mut missing = Vec::new();
        for depth in [0, 1] {
            for id in AIDS.iter().filter(|id| kind_of(depth, **id).is_some()) {
                let c = self.attributes[depth as usize][*id as usize];
                if c == 0 {
                    missing.push(format!("{} at depth {}", id, depth));
                }
                if c < least.0 {
                    least = (c, format!("{} at depth {}", id, depth));
                }
            }
        }
        println!(
            "attributes in accepted sheets: the rarest is {}, {} times; never: {:?}",
            least.1,
            grouped(least.0),
            missing
        );
        self.print_typed();
        println!("rules broken, how often, and the numbers that came of it:");
        for (name, (count, numbers)) in &self.rules {
            let got: Vec<String> =
                (0..NUMBERS).filter(|n| numbers[*n] > 0).map(|n| format!("{}: {}", n, grouped(numbers[n]))).collect();
            println!("  {:<58} {:>8}  {}", name, grouped(*count), got.join(", "));
        }
        println!("sheets made by rule:");
        for (name, count) in &self.groups {
            println!("  {:<58} {:>8}", name, grouped(*count));
        }
        let skipped = |there: bool| if there { "" } else { " (NOT IN THE LIBRARY: not compared)" };
        println!("function records {}{}", grouped(self.records), skipped(parts.function));
        println!("  by code: {:?}", self.record_codes.map(grouped));
        println!(
            "  numbers: 0: {}, 2: {}, 3: {}",
            grouped(self.record_refusals[0]),
            grouped(self.record_refusals[2]),
            grouped(self.record_refusals[3])
        );
        println!(
            "f64 narrowed {}, of which NaN {}{}",
            grouped(self.narrowed),
            grouped(self.narrowed_nan),
            skipped(parts.narrow)
        );
        println!("where docs/DIFFERENCES.md names an answer in the place of the crate's:");
        println!(
            "  order product wraps {}, displacement sum {}, percent in a function's dy {}, octaves that end in a half {}",
            grouped(self.order_product),
            grouped(self.displacement_sum),
            grouped(self.dy_percent),
            grouped(self.octaves_half)
        );
        println!(
            "  primitives in box units, held to document 02 {}, of which the crate answers otherwise {}",
            grouped(self.box_units),
            grouped(self.box_units_otherwise)
        );
        println!("differences that docs/DIFFERENCES.md doesn't name: {}", self.differences);
    }

    fn print_typed(&self) {
        println!("typed lists in accepted sheets: {}", self.typed[0]);
        println!("typed lists in refused sheets: {}", self.typed[1]);
        let mut ids = Vec::new();
        for depth in [0, 1] {
            for id in AIDS.iter().filter(|id| kind_of(depth, **id) == Some(3)) {
                ids.push(format!("{} {}", id, grouped(self.typed_ids[depth as usize][*id as usize])));
            }
        }
        println!("typed lists in accepted sheets, by id: {}", ids.join(", "));
    }

    fn nines(&self) -> u64 {
        self.refusals[9]
    }
}

/// What the library has beside the call for sheets.
#[derive(Clone, Copy)]
pub struct Parts {
    pub function: bool,
    pub narrow: bool,
}

pub fn grouped(n: u64) -> String {
    let s = n.to_string();
    let mut out = String::new();
    for (i, c) in s.chars().enumerate() {
        if i > 0 && (s.len() - i) % 3 == 0 {
            out.push(',');
        }
        out.push(c);
    }
    out
}
