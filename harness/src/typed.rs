//! The command `typed`: items as typed tableValues through the whole call, each number of the list compared with oracle/src/typed.rs. Three judges:
//! the library, whole-number arithmetic, and Rust's own `parse`.

use std::process::ExitCode;

use oracle::typed::{BYTES, ITEMS, Item, items, read};
use oracle::{AId, EId};

use crate::corners::{below, fe, with};
use crate::generate::{text_attr, typed_attr};
use crate::hard::{PLACES, all_binades};
use crate::library;
use crate::model::{Sheet, twin};
use crate::rng::Rng;
use crate::tally::{Typed, grouped};
use crate::texts::{Decimal, any_list, decimal, scrambled};

/// The run stops after so many differences.
const ENOUGH: u64 = 20;
/// Every text of up to so many of these bytes.
const SHORT: usize = 6;
const SHORT_BYTES: &[u8] = b"07+-.eE, \n";

fn sheet(text: &[u8]) -> Sheet {
    let function = [text_attr(AId::Type, "table"), typed_attr(AId::TableValues, text)];
    Sheet::plain(vec![fe(EId::FeComponentTransfer), with(below(EId::FeFuncR), function)])
}

/// The numbers of the table, or the refusal's number.
type Answer = Result<Vec<u32>, u32>;

/// Calls the library with such sheets. Their lists have one record, which ends with the table's count, its numbers, and a byte for each of the other channels.
struct Caller {
    /// The crate's list for a table of no numbers.
    bare: Vec<u8>,
    out: Vec<u8>,
}

/// Where the record begins, and how many bytes stand behind the table's count in a table of no numbers.
const RECORD: usize = 10;
const BEHIND: usize = 3;

impl Caller {
    fn new() -> Caller {
        let none = twin(&sheet(b"")).unwrap();
        let bare = oracle::run::sheet(&none.bytes()).answer.expect("an accepted sheet");
        Caller { bare, out: vec![0; 8192] }
    }

    fn wanted(&self, numbers: &[u32]) -> Vec<u8> {
        let (front, behind) = self.bare.split_at(self.bare.len() - BEHIND);
        let mut list = front[..front.len() - 2].to_vec();
        list.extend((numbers.len() as u16).to_le_bytes());
        list.extend(numbers.iter().flat_map(|n| n.to_le_bytes()));
        list.extend(behind);
        let length = (list.len() - RECORD) as u32;
        list[RECORD - 4..RECORD].copy_from_slice(&length.to_le_bytes());
        list
    }

    /// The library's answer. None: another list than one with the numbers that it has.
    fn call(&mut self, text: &[u8]) -> Option<Answer> {
        let got = library::convert(&sheet(text).bytes(), &mut self.out);
        if got.number != 0 {
            return Some(Err(got.number)).filter(|_| got.length == 0);
        }
        let list = self.out.get(..got.length)?;
        let numbers = list.get(self.bare.len() - BEHIND..got.length - BEHIND)?;
        let numbers: Vec<u32> = numbers.chunks_exact(4).map(|c| u32::from_le_bytes(c.try_into().unwrap())).collect();
        (list == self.wanted(&numbers)).then_some(Ok(numbers))
    }
}

/// What the numbers were like.
#[derive(Default)]
struct Counts {
    items: u64,
    exact: u64,
    f64_ties: u64,
    /// The f64 lies exactly between two f32; and the item itself does not.
    f32_ties: u64,
    two_roundings: u64,
    minus_zero: u64,
    digits: [u64; 16],
    powers: Vec<u64>,
}

/// Exactly between two f32: the 29 bits that an f32 lacks are 1 and zeros. Every f32 of an item is normal, or 0.
fn between_f32(n: f64) -> bool {
    n.to_bits() & 0x1fff_ffff == 0x1000_0000
}

impl Counts {
    fn add(&mut self, item: &Item) {
        let n = item.nearest();
        self.items += 1;
        self.exact += u64::from(n.exact);
        self.f64_ties += u64::from(n.tie);
        self.f32_ties += u64::from(between_f32(n.number));
        self.two_roundings += u64::from(between_f32(n.number) && !n.exact);
        self.minus_zero += u64::from(item.minus && n.number == 0.0);
        self.digits[item.digits.len()] += 1;
        self.powers[(item.power + 22) as usize] += 1;
    }

    fn print(&self) {
        let all = |counts: &[u64]| counts.iter().map(|c| grouped(*c)).collect::<Vec<_>>().join(" ");
        println!("  items that an f64 is: {}, others: {}", grouped(self.exact), grouped(self.items - self.exact));
        println!("  items exactly between two f64: {}", grouped(self.f64_ties));
        println!(
            "  items whose f64 is exactly between two f32: {}, of which not there themselves: {}",
            grouped(self.f32_ties),
            grouped(self.two_roundings)
        );
        println!("  minus zero: {}", grouped(self.minus_zero));
        println!("  by digits, 0 to 15: {}", all(&self.digits));
        println!("  by power, -22 to 22: {}", all(&self.powers));
    }
}

fn words(text: &[u8]) -> impl Iterator<Item = &[u8]> {
    text.split(|b| b" \t\r\n,".contains(b)).filter(|w| !w.is_empty())
}

fn shown(answer: &Option<Answer>) -> String {
    match answer {
        None => "another list".to_string(),
        Some(Err(number)) => format!("number {}", number),
        Some(Ok(numbers)) => {
            let some: Vec<String> = numbers.iter().take(8).map(|n| format!("{:08x}", n)).collect();
            format!("{} numbers [{}]", numbers.len(), some.join(" "))
        }
    }
}

struct Run {
    caller: Caller,
    counts: Counts,
    sheets: u64,
    /// Texts by outcome, of those that may be refused.
    outcomes: Typed,
    differences: u64,
    /// Where Rust's `parse` differs from oracle/src/typed.rs.
    parse_differences: u64,
}

impl Run {
    /// What the library answers in place of what it should.
    fn differs(&mut self, text: &[u8]) -> Option<String> {
        let wanted = read(text).map(|l| l.iter().map(|n| n.to_bits()).collect()).map_err(u32::from);
        let got = self.caller.call(text);
        let wanted = Some(wanted);
        (got != wanted).then(|| format!("{} in place of {}", shown(&got), shown(&wanted)))
    }

    /// One text: number and numbers. If they differ, the items that do so by themselves are printed, or else the text.
    fn text(&mut self, text: &[u8]) {
        self.sheets += 1;
        let Some(what) = self.differs(text) else { return };
        let mut alone: Vec<(&[u8], String)> = words(text).filter_map(|w| Some((w, self.differs(w)?))).collect();
        if alone.is_empty() {
            alone.push((text, what));
        }
        for (text, what) in alone {
            self.differences += 1;
            if self.differences <= ENOUGH {
                println!("DIFFERENCE: {}: typed \"{}\"", what, text.escape_ascii());
            }
        }
    }

    /// The items of a text that passes: what they are like, and what Rust makes of them.
    fn judge(&mut self, text: &[u8]) {
        let all = items(text).expect("a text in the grammar");
        for (word, item) in words(text).zip(&all) {
            self.counts.add(item);
            let word = std::str::from_utf8(word).unwrap();
            let (ours, rust) = (item.nearest().number, word.parse::<f64>());
            if rust.as_ref().map(|n| n.to_bits()) != Ok(ours.to_bits()) {
                self.parse_differences += 1;
                println!("PARSE: {}: {:?} by Rust, {:?} by typed.rs", word, rust, ours);
            }
        }
    }

    fn enough(&self) -> bool {
        self.differences >= ENOUGH
    }

    /// Items in lists of up to 1,024 and 4,096 bytes.
    fn in_lists(&mut self, mut next: impl FnMut(&mut Rng) -> Option<String>, rng: &mut Rng) {
        let mut text = String::new();
        let mut count = 0;
        while !self.enough() {
            let item = next(rng);
            let full = item.as_ref().is_none_or(|i| count == ITEMS || text.len() + 2 + i.len() > BYTES);
            if full && count > 0 {
                self.judge(text.as_bytes());
                self.text(text.as_bytes());
                (text, count) = (String::new(), 0);
            }
            let Some(item) = item else { return };
            let between = if count == 0 { "" } else { *rng.pick(&[" ", ",", ", ", "\n", "\t"]) };
            text = text + between + &item;
            count += 1;
        }
    }

    /// A text that may be refused.
    fn any_text(&mut self, text: &[u8]) {
        self.outcomes.add(text);
        self.text(text);
    }
}

/// Both signs of what is hardest.
fn hard_ones() -> Vec<Decimal> {
    let mut all = Vec::new();
    for b in all_binades() {
        let places = PLACES.iter().flat_map(|p| b.at(*p));
        all.extend(places.chain(b.f64_ties()).flat_map(|d| [d, Decimal { minus: true, ..d }]));
    }
    all
}

/// Every text of up to so many bytes.
fn short_texts(each: &mut dyn FnMut(&[u8]) -> bool) {
    for length in 0..=SHORT {
        for code in 0..SHORT_BYTES.len().pow(length as u32) {
            let place = |i: usize| code / SHORT_BYTES.len().pow(i as u32) % SHORT_BYTES.len();
            let text: Vec<u8> = (0..length).map(|i| SHORT_BYTES[place(i)]).collect();
            if !each(&text) {
                return;
            }
        }
    }
}

pub fn typed(count: u64, seed: u64) -> Option<ExitCode> {
    let mut r = Run {
        caller: Caller::new(),
        counts: Counts { powers: vec![0; 45], ..Default::default() },
        sheets: 0,
        outcomes: Typed::default(),
        differences: 0,
        parse_differences: 0,
    };
    let mut rng = Rng::of_case(seed, 0);

    let hard = hard_ones();
    let mut left = hard.iter();
    r.in_lists(|rng| left.next().map(|d| if rng.percent(50) { d.plain() } else { d.form(rng) }), &mut rng);
    println!("items by rule, on and next to the places where a rounding changes: {}", grouped(r.counts.items));
    let by_rule = r.counts.items;

    let mut done = 0;
    r.in_lists(
        |rng| {
            done += 1;
            (done <= count).then(|| decimal(rng).form(rng))
        },
        &mut rng,
    );
    println!("random items: {}; all of them in {} sheets", grouped(r.counts.items - by_rule), grouped(r.sheets));
    r.counts.print();
    println!("  on which Rust's parse differs from typed.rs: {}", r.parse_differences);

    short_texts(&mut |t| {
        r.any_text(t);
        !r.enough()
    });
    println!("every text of up to {} bytes of \"{}\": {}", SHORT, SHORT_BYTES.escape_ascii(), r.outcomes);
    r.outcomes = Typed::default();
    for _ in 0..count / 4 {
        let mut t = any_list(&mut rng, 4);
        // now and then as it is
        if rng.percent(95) {
            t = scrambled(&mut rng, &t);
        }
        if r.enough() {
            break;
        }
        r.any_text(&t);
    }
    println!("random texts with bytes changed: {}", r.outcomes);
    println!("calls {}, differences {}", grouped(r.sheets), r.differences + r.parse_differences);
    Some(if r.differences + r.parse_differences == 0 { ExitCode::SUCCESS } else { ExitCode::FAILURE })
}
