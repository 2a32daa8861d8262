//! The differential harness: the library against usvg's own filter code. ../README.md says how to run it.

mod box_corners;
mod compare;
mod corners;
mod damage;
mod generate;
mod hard;
mod library;
mod lists;
mod model;
mod numbers;
mod reader;
mod real;
mod records;
mod rng;
mod shrink;
mod speed;
mod store;
mod tally;
mod texts;
mod twins;
mod typed;
mod typed_corners;
mod values;

use std::io::{IsTerminal, Write};
use std::process::ExitCode;
use std::time::{Duration, Instant};

use oracle::run::Verdict;

use compare::{Call, Room, Wanted};
use model::Sheet;
use rng::Rng;
use tally::{Parts, Tally, grouped};

const HELP: &str = "\
harness [compare] [SHEETS] [--seed N] [--first I] [--trace]
    SHEETS random sheets (1,000,000) after those made by rule; exits 1 if any answer differs.
    --first I begins with sheet I of the seed; --first I 1 runs that one alone, and prints it.
    --trace says which sheet comes next before each call, for a library that doesn't return.
harness store [FOLDER] [--seed N]
    writes stored answers: data/cases and stdout of the program crate in FOLDER (crates/replay).
harness lists [FOLDER] [--seed N]
    writes stored lists and which are in the layout: stdin and stdout of the program crate in FOLDER (crates/read).
harness numbers [FOLDER]
    works out again the answers in stdout of the program crate in FOLDER (crates/worked_numbers); functions and arguments stay.
harness typed [ITEMS] [--seed N]
    ITEMS random items (1,000,000), those that are hard to round, and texts of few bytes, as typed lists through the whole call;
    each number is compared with oracle/src/typed.rs, and that with Rust's own reading; exits 1 if any differs.
harness twins [SHEETS] [--seed N]
    SHEETS random sheets (100,000) with typed lists that pass, and their twins with the numbers as kind 3: the library's answers to
    both are compared; exits 1 if any differ.
harness speed
    times the library and the crate's conversion, and prints the first two tables of docs/SPEED.md and one of typed lists.
harness real FOLDER [--trace]
    compares and times the sheets of a folder, which real/sheets.py made of SVG files, and prints the third table.
    --trace prints a line for each filter. run.sh takes the folders of SVG files instead, and makes the sheets.
harness names [N]
    converts sheet N of those with many made names, once, and says what it is; without N, says how many there are. For spellings.py.
harness hex HEX [OUTPUT LENGTH]
    one sheet: what is wanted, by the crate or by name, and what the library answers.
harness show [--seed N] [--first I]
    prints the sheet that a seed and an index make.
";

const SEED: u64 = 1;
/// The run stops after so many differences.
const ENOUGH: u64 = 50;

pub fn hex(bytes: &[u8]) -> String {
    bytes.iter().map(|b| format!("{:02x}", b)).collect()
}

fn unhex(s: &str) -> Option<Vec<u8>> {
    if s.len() % 2 != 0 {
        return None;
    }
    (0..s.len() / 2).map(|i| u8::from_str_radix(s.get(2 * i..2 * i + 2)?, 16).ok()).collect()
}

/// Typing takes its random numbers from a place of its own, so that it moves nothing else in a sheet.
const TYPING: u64 = 1 << 63;

/// A random sheet of a run, and the rule that was broken in it.
pub fn case(seed: u64, index: u64) -> (Sheet, Option<&'static damage::Rule>, Rng) {
    let mut typing = Rng::of_case(seed, index | TYPING);
    let (mut s, rule, rng) = case_of(seed, index, |s| generate::type_lists(s, &mut typing));
    if rule.is_none() && typing.percent(8) {
        generate::scramble(&mut s, &mut typing);
    }
    (s, rule, rng)
}

/// The same with no list typed, but by a rule that is about typed lists.
pub fn untyped_case(seed: u64, index: u64) -> (Sheet, Option<&'static damage::Rule>, Rng) {
    case_of(seed, index, |_| {})
}

fn case_of(seed: u64, index: u64, type_lists: impl FnOnce(&mut Sheet)) -> (Sheet, Option<&'static damage::Rule>, Rng) {
    let mut rng = Rng::of_case(seed, index);
    let mut s = generate::sheet(&mut rng);
    type_lists(&mut s);
    let mut rule = None;
    if rng.percent(30) && s.nodes.len() < 500 && s.bytes().len() < 50_000 {
        let r = rng.pick(damage::RULES);
        (r.break_it)(&mut s, &mut rng);
        rule = Some(r);
        // now and then two rules, for the order of the refusals
        if rng.percent(10) {
            (rng.pick(damage::RULES).break_it)(&mut s, &mut rng);
            rule = None;
        }
    }
    (s, rule, rng)
}

/// Output lengths to try with a list of this length: a place in tally::LENGTHS, and the length.
fn lengths(rng: &mut Rng, wanted: &Wanted) -> Vec<(usize, usize)> {
    let n = match wanted {
        Ok(list) => list.len(),
        Err(_) => *rng.pick(&[0, 0, 64, 200, 4096]),
    };
    let slack = *rng.pick(&[1, 2, 7, 64, 300, 4096]);
    let mut all = vec![(0, n + slack)];
    if wanted.is_ok() {
        all.push(match rng.below(8) {
            0..=2 => (1, n),
            3..=5 => (2, n - 1),
            6 => (3, 0),
            _ => (4, rng.below(n - 1)),
        });
    } else if n == 0 {
        all.push((3, 0));
    }
    if rng.percent(1) {
        all.push((if n < 65_536 { 0 } else { 4 }, 65_536));
    }
    all
}

struct Driver {
    room: Room,
    tally: Tally,
    parts: Parts,
    /// The differing sheets so far, made smaller.
    seen: std::collections::HashSet<Vec<u8>>,
}

impl Driver {
    fn new() -> Driver {
        let parts = Parts { function: cfg!(has_function), narrow: cfg!(has_narrow) };
        Driver { room: Room::new(), tally: Tally::new(), parts, seen: Default::default() }
    }

    fn fails(room: &mut Room, s: &Sheet, length: usize, exact: bool, salt: usize) -> Option<String> {
        let bytes = s.bytes();
        let v = oracle::run::sheet(&bytes);
        // a length that was told from the list goes with the list
        let length = match (&v.answer, exact) {
            (Ok(list), true) => list.len() - 1 + length,
            _ => length,
        };
        room.check(Call::Sheet, &bytes, length, &v.answer, salt).flatten()
    }

    fn report(&mut self, s: &Sheet, from: &str, length: usize, wanted: &Wanted, salt: usize, what: &str) {
        self.tally.differences += 1;
        println!("\nDIFFERENCE, {}, output of {} bytes: {}", from, length, what);
        println!("as found: {} bytes", s.bytes().len());
        let near = wanted.as_ref().is_ok_and(|l| length == l.len() || length + 1 == l.len());
        let (length, exact) = if near { (length + 1 - wanted.as_ref().unwrap().len(), true) } else { (length, false) };
        let room = &mut self.room;
        let small = shrink::shrink(s.clone(), &mut |s| Self::fails(room, s, length, exact, salt).is_some());
        let bytes = small.bytes();
        if !self.seen.insert(bytes.clone()) {
            println!("made smaller: a sheet that was printed already");
            return;
        }
        let wanted = oracle::run::sheet(&bytes).answer;
        println!("made smaller: {} bytes\n{}", bytes.len(), small);
        println!("hex {}", hex(&bytes));
        match &wanted {
            Ok(list) => println!("wanted {}", hex(list)),
            Err(n) => println!("wanted {}", n),
        }
        println!("what: {}", Self::fails(room, &small, length, exact, salt).unwrap_or_default());
    }

    fn check_sheet(&mut self, s: &Sheet, from: &dyn Fn() -> String, rng: &mut Rng, every_length: bool) -> Verdict {
        let bytes = s.bytes();
        let v = oracle::run::sheet(&bytes);
        self.tally.sheet(s, bytes.len(), &v);
        let mut all = lengths(rng, &v.answer);
        if every_length {
            if let Ok(list) = &v.answer {
                let n = list.len();
                all = vec![
                    (0, n + 1),
                    (1, n),
                    (2, n - 1),
                    (3, 0),
                    (4, 1),
                    (4, n / 2),
                    (if n <= 65_536 { 0 } else { 4 }, 65_536),
                ];
            }
        }
        for (which, length) in all {
            self.tally.calls += 1;
            self.tally.lengths[which] += 1;
            if v.answer.as_ref().is_ok_and(|l| l.len() > length) {
                self.tally.refusals[9] += 1;
            }
            let salt = rng.below(251);
            if let Some(Some(what)) = self.room.check(Call::Sheet, &bytes, length, &v.answer, salt) {
                self.report(s, &from(), length, &v.answer, salt, &what);
                break;
            }
            if v.answer.as_ref().is_ok_and(|l| l.len() <= length) {
                self.tally.lists_read += 1;
            }
        }
        v
    }

    fn check_record(&mut self, r: &[u8], from: &dyn Fn() -> String, rng: &mut Rng) -> Verdict {
        let v = oracle::run::function(r);
        self.tally.record(r, &v);
        for (_, length) in lengths(rng, &v.answer) {
            if let Some(Some(what)) = self.room.check(Call::Function, r, length, &v.answer, rng.below(251)) {
                self.tally.differences += 1;
                println!("\nDIFFERENCE, {}, output of {} bytes: {}\nfunction record {}", from(), length, what, hex(r));
                match &v.answer {
                    Ok(kind) => println!("wanted {}", hex(kind)),
                    Err(n) => println!("wanted {}", n),
                }
                break;
            }
        }
        v
    }

    /// Rust's own `as f32`; of a NaN only that it stays one is Rust's, its bits are the library's promise.
    fn check_narrow(&mut self, bits: u64) {
        let Some(got) = library::narrow(bits) else { return };
        let n = f64::from_bits(bits);
        self.tally.narrowed += 1;
        let wanted = if n.is_nan() {
            self.tally.narrowed_nan += 1;
            0x7fc0_0000
        } else {
            (n as f32).to_bits()
        };
        if got != wanted {
            self.tally.differences += 1;
            println!("\nDIFFERENCE: {:#018x} narrowed is {:#010x} in place of {:#010x}", bits, got, wanted);
        }
    }

    fn by_rule(&mut self) {
        let mut rng = Rng::of_case(0, u64::MAX);
        for (i, c) in corners::corners().into_iter().enumerate() {
            *self.tally.groups.entry(c.group).or_default() += 1;
            self.check_sheet(&c.sheet, &|| format!("sheet {} made by rule ({})", i, c.group), &mut rng, true);
            if self.tally.differences >= ENOUGH {
                return;
            }
        }
        for (i, r) in records::corners().iter().enumerate() {
            self.check_record(r, &|| format!("record {} made by rule", i), &mut rng);
            if self.tally.differences >= ENOUGH {
                return;
            }
        }
        // every exponent, with fractions around each place where an f32 ends
        for exponent in 0..2048u64 {
            for fraction in [
                0,
                1,
                0x0fff_ffff,
                0x1000_0000,
                0x1000_0001,
                0x1fff_ffff,
                0x2000_0000,
                0x3000_0000,
                0xf_ffff_e000_0000,
                0xf_ffff_efff_ffff,
                0xf_ffff_f000_0000,
                0xf_ffff_ffff_ffff,
                0x8_0000_0000_0000,
            ] {
                for sign in [0, 1 << 63] {
                    self.check_narrow(sign | exponent << 52 | fraction);
                }
            }
        }
    }

    fn random(&mut self, seed: u64, index: u64) {
        let (s, rule, mut rng) = case(seed, index);
        let from = || format!("seed {} sheet {} ({})", seed, index, rule.map_or("no rule broken, or two", |r| r.name));
        let v = self.check_sheet(&s, &from, &mut rng, false);
        if let Some(rule) = rule {
            self.tally.rule(rule.name, &v);
            let got = v.answer.as_ref().map_or_else(|n| *n, |_| 0);
            assert!(got == rule.number, "the oracle gives {} for {}: {}\n{}", got, from(), hex(&s.bytes()), s);
        }
        if index % 4 == 0 {
            let mut r = records::random(&mut rng);
            let mut rule = None;
            if rng.percent(25) {
                let broken = rng.pick(records::RULES);
                (broken.break_it)(&mut r, &mut rng);
                rule = Some(broken);
            }
            let v = self.check_record(&r, &|| format!("seed {} record of sheet {}", seed, index), &mut rng);
            if let Some(rule) = rule {
                self.tally.rule(rule.name, &v);
                assert_eq!(v.answer, Err(rule.number), "{}: {}", rule.name, hex(&r));
            } else {
                assert!(v.answer.is_ok(), "a sound record is refused: {}", hex(&r));
            }
        }
        for _ in 0..8 {
            self.check_narrow(values::bits64(&mut rng));
        }
    }
}

struct Progress {
    began: Instant,
    said: Instant,
    every: Duration,
    terminal: bool,
}

impl Progress {
    fn new() -> Progress {
        let terminal = std::io::stderr().is_terminal();
        let every = Duration::from_secs(if terminal { 1 } else { 10 });
        Progress { began: Instant::now(), said: Instant::now(), every, terminal }
    }

    fn say(&mut self, done: u64, all: u64, t: &Tally) {
        if self.said.elapsed() < self.every && done < all {
            return;
        }
        self.said = Instant::now();
        let rate = done as f64 / self.began.elapsed().as_secs_f64();
        let end = if self.terminal && done < all { "\r" } else { "\n" };
        eprint!(
            "{} of {} sheets, {} a second, {} differences{}",
            grouped(done),
            grouped(all),
            grouped(rate as u64),
            t.differences,
            end
        );
        std::io::stderr().flush().ok();
    }
}

struct Options {
    words: Vec<String>,
    seed: u64,
    first: u64,
    trace: bool,
}

fn options() -> Option<Options> {
    let mut o = Options { words: Vec::new(), seed: SEED, first: 0, trace: false };
    let mut args = std::env::args().skip(1);
    while let Some(a) = args.next() {
        match a.as_str() {
            "--seed" => o.seed = args.next()?.parse().ok()?,
            "--first" => o.first = args.next()?.parse().ok()?,
            "--trace" => o.trace = true,
            _ => o.words.push(a),
        }
    }
    if o.words.first().is_none_or(|w| w.bytes().all(|b| b.is_ascii_digit() || b == b',')) {
        o.words.insert(0, "compare".to_string());
    }
    Some(o)
}

/// The number behind the command, or this one.
fn count_or(o: &Options, usual: u64) -> Option<u64> {
    match o.words.get(1) {
        Some(n) => n.replace(',', "").parse().ok(),
        None => Some(usual),
    }
}

fn compare(o: &Options) -> Option<ExitCode> {
    let count = count_or(o, 1_000_000)?;
    let mut d = Driver::new();
    println!("seed {}, sheets {} to {}", o.seed, o.first, o.first + count.saturating_sub(1));
    if count == 1 {
        println!("{}", case(o.seed, o.first).0);
    } else {
        d.by_rule();
    }
    let mut p = Progress::new();
    for i in 0..count {
        if d.tally.differences >= ENOUGH {
            println!("stopped after {} differences", d.tally.differences);
            break;
        }
        if o.trace {
            eprintln!("sheet {}", o.first + i);
        }
        d.random(o.seed, o.first + i);
        p.say(i + 1, count, &d.tally);
    }
    d.tally.print(d.parts);
    println!("{:.1} s", p.began.elapsed().as_secs_f64());
    Some(if d.tally.differences == 0 { ExitCode::SUCCESS } else { ExitCode::FAILURE })
}

fn one(o: &Options) -> Option<ExitCode> {
    let bytes = unhex(o.words.get(1)?)?;
    let v = oracle::run::sheet(&bytes);
    match &v.answer {
        Ok(list) => println!("wanted: 0, {} bytes\n{}", list.len(), hex(list)),
        Err(n) => println!("wanted: {}", n),
    }
    for n in &v.named {
        println!("(named difference: {:?})", n);
    }
    let length = match o.words.get(2) {
        Some(n) => n.parse().ok()?,
        None => compare::PLENTY,
    };
    let mut out = vec![0; length];
    let got = library::convert(&bytes, &mut out);
    println!("the library: {}, {} bytes\n{}", got.number, got.length, hex(&out[..got.length.min(length)]));
    match Room::new().check(Call::Sheet, &bytes, length, &v.answer, 0)? {
        None => Some(ExitCode::SUCCESS),
        Some(what) => {
            println!("DIFFERENCE: {}", what);
            Some(ExitCode::FAILURE)
        }
    }
}

/// One call on a sheet with many made names.
fn names(o: &Options) -> Option<ExitCode> {
    let sheets = corners::by_the_hundred();
    let Some(n) = o.words.get(1) else {
        println!("{}", sheets.len());
        return Some(ExitCode::SUCCESS);
    };
    let (name, sheet) = sheets.get(n.parse::<usize>().ok()?)?;
    let got = library::convert(&sheet.bytes(), &mut vec![0; compare::PLENTY]);
    assert_eq!(got.number, 0, "{} is refused", name);
    println!("{}", name);
    Some(ExitCode::SUCCESS)
}

fn run() -> Option<ExitCode> {
    let o = options()?;
    match o.words[0].as_str() {
        "compare" => compare(&o),
        "store" => store::store(o.words.get(1).map_or("crates/replay", |s| s), o.seed),
        "lists" => lists::lists(o.words.get(1).map_or("crates/read", |s| s), o.seed),
        "numbers" => numbers::numbers(o.words.get(1).map_or("crates/worked_numbers", |s| s)),
        "typed" => typed::typed(count_or(&o, 1_000_000)?, o.seed),
        "twins" => twins::twins(count_or(&o, 100_000)?, o.seed),
        "speed" => Some(speed::speed()),
        "real" => real::real(o.words.get(1)?, o.trace),
        "names" => names(&o),
        "hex" => one(&o),
        "show" => {
            let (s, rule, _) = case(o.seed, o.first);
            println!("{}hex {}\nbroken: {}", s, hex(&s.bytes()), rule.map_or("no rule, or two", |r| r.name));
            Some(ExitCode::SUCCESS)
        }
        _ => None,
    }
}

fn main() -> ExitCode {
    oracle::begin();
    run().unwrap_or_else(|| {
        eprint!("{}", HELP);
        ExitCode::from(2)
    })
}
