//! The command `twins`: sheets with typed lists that pass, and the same sheets with the numbers as kind 3. The library's answers to the two are compared
//! as wholes: number, length, the bytes written and the bytes not written.

use std::process::ExitCode;

use oracle::{AId, EId};

use crate::compare::{Call, PLENTY, Room};
use crate::corners::{below, fe, with};
use crate::generate::{self, Generator, text_attr, tries_attr, typed_attr};
use crate::model::{Node, Sheet, twin};
use crate::rng::Rng;
use crate::tally::{NUMBERS, grouped};
use crate::texts;
use crate::{damage, hex, library, shrink};

/// The run stops after so many differences.
const ENOUGH: u64 = 10;
const LONGEST: usize = 65_536;
/// Bytes that a list seldom has, to see what was written.
const FILL: u8 = 0xa5;

/// Sheets of long lists: with few bytes an item a twin is longer than its sheet, with many it is shorter.
fn of_long_lists(rng: &mut Rng) -> Sheet {
    let mut s = generate::header(rng, false);
    for _ in 0..rng.within(1, 40) {
        let count = *rng.pick(&[1024, 1024, 1000, 512, 256, 20, 9]);
        let text = if rng.percent(50) {
            texts::list(rng, &vec![0; count])
        } else {
            vec!["5"; count].join(*rng.pick(&[" ", ",", " ,"])).into_bytes()
        };
        s.nodes.append(&mut with_list(rng, count, &text));
    }
    if rng.percent(80) {
        generate::fit(&mut s);
    }
    s
}

fn with_list(rng: &mut Rng, count: usize, text: &[u8]) -> Vec<Node> {
    match rng.below(4) {
        0 => vec![with(fe(EId::FeColorMatrix), [typed_attr(AId::Values, text)])],
        1 => {
            let order = tries_attr(AId::Order, &[(count as f64).to_bits(), 1f64.to_bits()]);
            vec![with(fe(EId::FeConvolveMatrix), [order, typed_attr(AId::KernelMatrix, text)])]
        }
        2 => vec![with(fe(EId::FeMorphology), [typed_attr(AId::Radius, text)])],
        _ => {
            let kind = text_attr(AId::Type, *rng.pick(&["table", "discrete", "linear"]));
            vec![fe(EId::FeComponentTransfer), with(below(EId::FeFuncG), [kind, typed_attr(AId::TableValues, text)])]
        }
    }
}

/// A sheet with typed lists that pass. Some break a rule from 3 on, which breaks no typed list.
fn sheet(rng: &mut Rng) -> Sheet {
    if rng.percent(2) {
        return of_long_lists(rng);
    }
    let mut s = generate::sheet(rng);
    let percent = *rng.pick(&[50, 100, 100]);
    generate::type_some(&mut s, rng, percent);
    if rng.percent(25) && s.nodes.len() < 500 {
        let rules: Vec<_> = damage::RULES.iter().filter(|r| (3..9).contains(&r.number)).collect();
        (rng.pick(&rules).break_it)(&mut s, rng);
    }
    // one typed list at least
    if !s.nodes.iter().flat_map(|n| &n.attrs).any(|a| a.kind == 7) {
        let mut nodes = Generator::new(rng, false).child(EId::FeColorMatrix);
        nodes[0].set(typed_attr(AId::Values, &texts::any_list(rng, 20)));
        s.nodes.append(&mut nodes);
    }
    generate::fit(&mut s);
    s
}

/// The whole answer: number, length, the output.
fn answer(bytes: &[u8], length: usize) -> (library::Answer, Vec<u8>) {
    let mut out = vec![FILL; length];
    (library::convert(bytes, &mut out), out)
}

fn differ(a: &[u8], b: &[u8], length: usize) -> Option<String> {
    let ((x, xs), (y, ys)) = (answer(a, length), answer(b, length));
    if x != y {
        return Some(format!("number {} and length {}, the twin {} and {}", x.number, x.length, y.number, y.length));
    }
    let at = xs.iter().zip(&ys).position(|(p, q)| p != q)?;
    Some(format!("byte {} of the output is {:02x}, the twin's {:02x}", at, xs[at], ys[at]))
}

#[derive(Default)]
struct Counts {
    pairs: u64,
    calls: u64,
    lists: u64,
    items: u64,
    numbers: [u64; NUMBERS],
    nines: u64,
    /// Sheets over 65,536 bytes, and sheets whose twin is; these are held to the oracle.
    no_sheet: u64,
    no_twin: u64,
    differences: u64,
}

/// With room, exactly full, one short, empty: of the list that comes with room.
fn lengths(rng: &mut Rng, list: usize) -> [usize; 4] {
    [list + rng.below(300), list, list.saturating_sub(1), 0]
}

struct Run {
    counts: Counts,
    room: Room,
}

impl Run {
    fn report(&mut self, s: &Sheet, index: u64, what: &str) {
        self.counts.differences += 1;
        println!("\nDIFFERENCE, sheet {}: {}", index, what);
        let mut fails = |s: &Sheet| {
            let (Some(t), b) = (twin(s), s.bytes()) else { return false };
            let t = t.bytes();
            b.len() <= LONGEST && t.len() <= LONGEST && differ(&b, &t, PLENTY).is_some()
        };
        if fails(s) {
            let small = shrink::shrink(s.clone(), &mut fails);
            let (b, t) = (small.bytes(), twin(&small).unwrap().bytes());
            println!("made smaller: {}\n{}\nhex {}", differ(&b, &t, PLENTY).unwrap(), small, hex(&b));
        } else {
            println!("{}\nhex {}", s, hex(&s.bytes()));
        }
    }

    fn pair(&mut self, s: &Sheet, twin: &[u8], index: u64, rng: &mut Rng) {
        let bytes = s.bytes();
        let with_room = library::convert(twin, &mut vec![0; PLENTY]);
        self.counts.pairs += 1;
        self.counts.numbers[with_room.number as usize] += 1;
        for length in lengths(rng, with_room.length) {
            self.counts.calls += 1;
            self.counts.nines += u64::from(with_room.number == 0 && length < with_room.length);
            if let Some(what) = differ(&bytes, twin, length) {
                self.report(s, index, &format!("output of {} bytes: {}", length, what));
                return;
            }
        }
    }

    fn alone(&mut self, s: &Sheet, index: u64, rng: &mut Rng) {
        let bytes = s.bytes();
        let wanted = oracle::run::sheet(&bytes).answer;
        for length in lengths(rng, wanted.as_ref().map_or(0, Vec::len)) {
            if let Some(Some(what)) = self.room.check(Call::Sheet, &bytes, length, &wanted, 0) {
                self.report(s, index, &format!("without a twin, output of {} bytes: {}", length, what));
                return;
            }
        }
    }

    fn sheet(&mut self, s: &Sheet, index: u64, rng: &mut Rng) {
        let twin = twin(s).expect("typed lists that pass");
        for a in s.nodes.iter().flat_map(|n| &n.attrs).filter(|a| a.kind == 7) {
            self.counts.lists += 1;
            self.counts.items += oracle::typed::items(&a.value).unwrap().len() as u64;
        }
        let (bytes, twin) = (s.bytes().len(), twin.bytes());
        if bytes > LONGEST {
            self.counts.no_sheet += 1;
            self.alone(s, index, rng);
        } else if twin.len() > LONGEST {
            self.counts.no_twin += 1;
            self.alone(s, index, rng);
        } else {
            self.pair(s, &twin, index, rng);
        }
    }
}

pub fn twins(count: u64, seed: u64) -> Option<ExitCode> {
    let mut r = Run { counts: Counts::default(), room: Room::new() };
    for index in 0..count {
        let mut rng = Rng::of_case(seed ^ 0x7777, index);
        let s = sheet(&mut rng);
        r.sheet(&s, index, &mut rng);
        if r.counts.differences >= ENOUGH {
            println!("stopped after {} differences", ENOUGH);
            break;
        }
    }
    let c = &r.counts;
    println!("sheets and their twins, both within 65,536 bytes: {}", grouped(c.pairs));
    println!("  typed lists {}, of {} items in all", grouped(c.lists), grouped(c.items));
    println!(
        "  calls of each with outputs of one length: {}, of which refused by 9: {}",
        grouped(c.calls),
        grouped(c.nines)
    );
    println!("  numbers of both, with an output that suffices:");
    for (n, many) in c.numbers.iter().enumerate().filter(|(_, many)| **many > 0) {
        println!("    {}: {}", n, grouped(*many));
    }
    println!("sheets whose twin is over 65,536 bytes, compared with the crate alone: {}", grouped(c.no_twin));
    println!("sheets over 65,536 bytes themselves, compared likewise: {}", grouped(c.no_sheet));
    println!("differences {}", c.differences);
    Some(if c.differences == 0 { ExitCode::SUCCESS } else { ExitCode::FAILURE })
}
