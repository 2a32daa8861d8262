//! Stored answers of the crate's code, for the program crates/replay.
//!
//! A case is five numbers of four bytes, the lowest first: what is called (0 a sheet, 1 a function record, 2 narrowing), the input's
//! length, the output's length, the number wanted, the length wanted; then the input, then the bytes wanted. Narrowing has the f64 as
//! its input, and the f32 as its number.

use std::collections::BTreeMap;
use std::process::ExitCode;

use oracle::{AId, EId};

use crate::compare::Wanted;
use crate::model::Sheet;
use crate::rng::Rng;
use crate::tally::{KINDS, NUMBERS, Tally, grouped};
use crate::values::bits64;
use crate::{case, corners, damage, generate, records, typed_corners};

/// The longest sheet and output that the program has room for.
const SHEET: usize = 65_537;
const OUTPUT: usize = 65_536;
/// The file stays below this.
const FILE: usize = 2_300_000;

#[derive(Default)]
struct File {
    bytes: Vec<u8>,
    cases: [u64; 3],
    numbers: [u64; NUMBERS],
}

impl File {
    fn put(&mut self, call: u32, input: &[u8], room: usize, number: u32, wanted: &[u8]) {
        assert!(input.len() <= SHEET && room <= OUTPUT);
        for n in [call, input.len() as u32, room as u32, number, wanted.len() as u32] {
            self.bytes.extend(n.to_le_bytes());
        }
        self.bytes.extend(input);
        self.bytes.extend(wanted);
        self.cases[call as usize] += 1;
    }

    /// A case with an output of this length.
    fn add(&mut self, call: u32, input: &[u8], room: usize, answer: &Wanted) {
        let (number, list): (u32, &[u8]) = match answer {
            Ok(list) if list.len() <= room => (0, list),
            Ok(_) => (9, &[]),
            Err(n) => (u32::from(*n), &[]),
        };
        self.numbers[number as usize] += 1;
        self.put(call, input, room, number, list);
    }

    /// With plenty, exactly enough, one short, or nothing, in turn; mostly enough.
    fn in_turn(&mut self, call: u32, input: &[u8], answer: &Wanted) {
        let n = answer.as_ref().map_or(40, |l| l.len());
        let turn = self.cases[call as usize];
        let room = match turn % 8 {
            0 | 1 | 4 => n,
            6 => n.saturating_sub(1),
            7 if turn % 3 == 0 => 0,
            _ => n + (turn % 70) as usize,
        };
        self.add(call, input, room.min(OUTPUT), answer);
    }
}

fn by_rule(f: &mut File, t: &mut Tally) {
    let all = corners::corners();
    let mut groups: BTreeMap<&str, Vec<&Sheet>> = BTreeMap::new();
    for c in &all {
        groups.entry(c.group).or_default().push(&c.sheet);
    }
    for (name, group) in &groups {
        // some two hundred of each group, at equal steps
        for s in group.iter().step_by(group.len().div_ceil(200)) {
            let bytes = s.bytes();
            let v = oracle::run::sheet(&bytes);
            // the large ones are picked below
            if bytes.len() + v.answer.as_ref().map_or(0, |l| l.len()) <= 2_000 {
                t.sheet(s, bytes.len(), &v);
                if name.starts_with("typed: ") {
                    // every number is seen
                    f.add(0, &bytes, 64 + v.answer.as_ref().map_or(0, |l| l.len()), &v.answer);
                } else {
                    f.in_turn(0, &bytes, &v.answer);
                }
            }
        }
    }
    let full = corners::of_list_size(OUTPUT);
    let over = corners::of_list_size(OUTPUT + 1);
    let mut tail = Sheet::plain(vec![corners::fe(EId::FeTile)]);
    tail.tail = vec![0; SHEET - 1 - tail.bytes().len()];
    let tiles = |n: usize| Sheet::plain(vec![corners::fe(EId::FeTile); n]);
    let kernel = |n: usize| {
        let list = generate::list_attr(AId::KernelMatrix, &vec![0x3f80_0000; n]);
        let order = generate::tries_attr(AId::Order, &[32f64.to_bits()]);
        Sheet::plain(vec![corners::with(corners::fe(EId::FeConvolveMatrix), [list, order])])
    };
    let large = [
        corners::of_size(SHEET - 1),
        corners::of_size(SHEET),
        tail,
        full,
        over,
        tiles(512),
        tiles(513),
        kernel(1023),
        kernel(1024),
        kernel(1025),
    ];
    let many_names = corners::by_the_hundred().map(|(_, s)| s);
    for s in large.into_iter().chain(many_names).chain(typed_corners::long_sheets()) {
        let bytes = s.bytes();
        let v = oracle::run::sheet(&bytes);
        t.sheet(&s, bytes.len(), &v);
        f.add(0, &bytes, OUTPUT, &v.answer);
    }
}

fn functions(f: &mut File, seed: u64) {
    let all = records::corners();
    for r in all.iter().step_by(all.len().div_ceil(300)) {
        f.in_turn(1, r, &oracle::run::function(r).answer);
    }
    for i in 0..400 {
        let mut rng = Rng::of_case(seed, i);
        let mut r = records::random(&mut rng);
        if i % 5 == 0 {
            (rng.pick(records::RULES).break_it)(&mut r, &mut rng);
        }
        f.in_turn(1, &r, &oracle::run::function(&r).answer);
    }
}

fn narrowing(f: &mut File, seed: u64) {
    let mut rng = Rng::of_case(seed, 0);
    for _ in 0..600 {
        let bits = bits64(&mut rng);
        let n = f64::from_bits(bits);
        let wanted = if n.is_nan() { 0x7fc0_0000 } else { (n as f32).to_bits() };
        f.put(2, &bits.to_le_bytes(), 0, wanted, &[]);
    }
}

/// Random sheets with each rule broken: five of each where they are short, one where only its list is long.
fn broken(f: &mut File, t: &mut Tally, seed: u64) {
    for (i, rule) in damage::RULES.iter().enumerate() {
        let mut index = 0;
        let mut stored = 0;
        while stored < 5 && index < 500 || stored == 0 && index < 1000 {
            let mut rng = Rng::of_case(seed, 1000 * i as u64 + index);
            index += 1;
            let mut s = generate::sheet(&mut rng);
            if s.nodes.len() > 4 {
                continue;
            }
            generate::type_lists(&mut s, &mut rng);
            (rule.break_it)(&mut s, &mut rng);
            let bytes = s.bytes();
            if bytes.len() > if index <= 500 { 700 } else { 5_000 } {
                continue;
            }
            stored += 1;
            let v = oracle::run::sheet(&bytes);
            t.sheet(&s, bytes.len(), &v);
            f.in_turn(0, &bytes, &v.answer);
        }
        // what makes a sheet long stands among those made by rule
        assert!(stored > 0 || rule.number < 3, "{}", rule.name);
    }
}

/// Random sheets with nothing broken, as long as there is room.
fn sound(f: &mut File, t: &mut Tally, seed: u64) {
    let mut index = 0;
    while f.bytes.len() < FILE - 10_000 {
        let (s, rule, _) = case(seed, index);
        index += 1;
        let bytes = s.bytes();
        if rule.is_some() || bytes.len() > 600 {
            continue;
        }
        let v = oracle::run::sheet(&bytes);
        t.sheet(&s, bytes.len(), &v);
        f.in_turn(0, &bytes, &v.answer);
    }
}

/// Writes data/cases and stdout of the crate in this folder.
pub fn store(folder: &str, seed: u64) -> Option<ExitCode> {
    let mut f = File::default();
    let mut t = Tally::new();
    by_rule(&mut f, &mut t);
    // only what the library has can be replayed
    if cfg!(has_function) {
        functions(&mut f, seed);
    }
    if cfg!(has_narrow) {
        narrowing(&mut f, seed);
    }
    broken(&mut f, &mut t, seed);
    sound(&mut f, &mut t, seed);
    assert!(f.bytes.len() < FILE);
    for (n, c) in f.numbers.iter().enumerate() {
        assert!(n == 7 || *c > 0, "no case with number {}", n);
        println!("number {}: {}", n, grouped(*c));
    }
    for (k, c) in KINDS.iter().zip(t.kinds) {
        assert!(*k == "Image" || c > 0, "no case with a {}", k);
        println!("{}: {}", k, grouped(c));
    }
    let [sheets, functions, narrowed] = f.cases;
    // what the program prints when it finds the same
    let records = if functions > 0 { format!("{} function records, ", functions) } else { String::new() };
    let line = format!("{} sheets, {}{} numbers narrowed, 0 differences\n", sheets, records, narrowed);
    print!("seed {}, {} bytes: {}", seed, f.bytes.len(), line);
    let folder = std::path::Path::new(folder);
    std::fs::write(folder.join("data/cases"), &f.bytes).expect("data/cases can be written");
    std::fs::write(folder.join("stdout"), line).expect("stdout can be written");
    Some(ExitCode::SUCCESS)
}
