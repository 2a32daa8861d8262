//! Stored lists for the program crates/read, with the answers that reader.rs gives: lists of the crate's own, lists made by rule from both
//! sides of each limit, damaged ones, and the crate's own with a byte changed.
//!
//! A list is stored as its name's length in one byte, its own length in four, the lowest first; then the name, then the list.

use std::process::ExitCode;

use oracle::{AId, EId};

use crate::model::Sheet;
use crate::reader::in_layout;
use crate::rng::Rng;
use crate::tally::{KINDS, Tally};
use crate::{corners, generate, untyped_case};

/// stdin stays below this.
const FILE: usize = 300_000;
/// How many of the crate's own lists, and how many changes of each.
const OWN: usize = 240;
const CHANGES: usize = 3;

#[derive(Default)]
struct File {
    stdin: Vec<u8>,
    stdout: String,
    inside: usize,
    outside: usize,
}

impl File {
    fn add(&mut self, name: &str, list: &[u8]) -> bool {
        let inside = in_layout(list);
        self.stdin.push(u8::try_from(name.len()).expect("a name of 255 bytes at most"));
        self.stdin.extend((list.len() as u32).to_le_bytes());
        self.stdin.extend(name.as_bytes());
        self.stdin.extend(list);
        self.stdout += &format!("{}: {}\n", name, if inside { "in" } else { "out" });
        if inside {
            self.inside += 1
        } else {
            self.outside += 1
        }
        inside
    }

    /// A list that was made to be inside, or to be outside.
    fn made(&mut self, name: &str, list: &[u8], inside: bool) {
        assert_eq!(self.add(name, list), inside, "the second reader on {}: {}", name, crate::hex(list));
    }

    /// A list of one primitive of this kind.
    fn kind(&mut self, name: &str, kind: &[u8], inside: bool) {
        self.made(name, &list(&[record(1, b"a", kind)]), inside);
    }

    /// A byte at each of these values, and whether each is inside.
    fn bytes(&mut self, name: &str, below: u8, kind: impl Fn(u8) -> Vec<u8>) {
        for b in [0, 1, below - 1, below, below + 1, 128, 255] {
            self.kind(&format!("{} {}", name, b), &kind(b), b < below);
        }
    }

    /// An enum whose cases have these fields: each case, and places behind the last with the fields of each.
    fn cases(&mut self, name: &str, fields: &[Vec<u8>], kind: impl Fn(&[u8]) -> Vec<u8>) {
        for (i, case) in fields.iter().enumerate() {
            self.kind(&format!("{} {}", name, i), &kind(&[&[i as u8], &case[..]].concat()), true);
            for b in [fields.len() as u8, 255] {
                let name = format!("{} {} with the fields of {}", name, b, i);
                self.kind(&name, &kind(&[&[b], &case[..]].concat()), false);
            }
        }
    }
}

/// n numbers: the bits are free, so among them are NaNs and infinities.
fn numbers(n: usize) -> Vec<u8> {
    let bits = [0x3f80_0000u32, 0x7fc0_0000, 0xff80_0000, 0xffff_ffff, 0x8000_0000];
    (0..n).flat_map(|i| bits[i % bits.len()].to_le_bytes()).collect()
}

fn counted(n: usize, bytes: &[u8]) -> Vec<u8> {
    [&(n as u16).to_le_bytes(), bytes].concat()
}

fn vec(n: usize) -> Vec<u8> {
    counted(n, &numbers(n))
}

fn text(t: &[u8]) -> Vec<u8> {
    counted(t.len(), t)
}

fn reference(t: &[u8]) -> Vec<u8> {
    [&[2], &text(t)[..]].concat()
}

fn merge(n: usize) -> Vec<u8> {
    let inputs: Vec<u8> = (0..n).flat_map(|i| if i % 3 == 2 { reference(b"") } else { vec![(i % 3) as u8] }).collect();
    [&[11], &counted(n, &inputs)[..]].concat()
}

fn kernel(n: usize, edge_mode: u8, preserve_alpha: u8) -> Vec<u8> {
    [&[4, 0][..], &numbers(4), &vec(n), &numbers(2), &[edge_mode, preserve_alpha]].concat()
}

fn spot(angle: &[u8]) -> Vec<u8> {
    [&[2], &numbers(7)[..], angle].concat()
}

fn lighting(kind: u8, light: &[u8]) -> Vec<u8> {
    let n = if kind == 5 { 2 } else { 3 };
    [&[kind, 1], &numbers(n)[..], &[1, 2, 3], light].concat()
}

fn turbulence(stitch_tiles: u8, kind: u8) -> Vec<u8> {
    [&[16], &numbers(4)[..], &[stitch_tiles, kind]].concat()
}

fn record(color_interpolation: u8, result: &[u8], kind: &[u8]) -> Vec<u8> {
    [&numbers(4)[..], &[color_interpolation], &text(result), kind].concat()
}

/// Records with these bytes before each of them: none in a list, some where there is a gap.
fn list_with_gaps(records: &[Vec<u8>], gap: impl Fn(usize) -> usize) -> Vec<u8> {
    let mut pairs = (records.len() as u16).to_le_bytes().to_vec();
    let mut tail: Vec<u8> = Vec::new();
    for (i, r) in records.iter().enumerate() {
        tail.resize(tail.len() + gap(i), 0);
        pairs.extend(((2 + 8 * records.len() + tail.len()) as u32).to_le_bytes());
        pairs.extend((r.len() as u32).to_le_bytes());
        tail.extend(r);
    }
    [pairs, tail].concat()
}

fn list(records: &[Vec<u8>]) -> Vec<u8> {
    list_with_gaps(records, |_| 0)
}

/// The kinds with nothing wrong, by their place.
fn kinds() -> Vec<(usize, Vec<u8>)> {
    vec![
        (0, [&[0, 0], &reference(b"a")[..], &[7]].concat()),
        (1, [&[1, 0, 0], &vec(20)[..]].concat()),
        (2, [&[2, 0, 0, 1], &vec(2)[..], &[3], &numbers(2), &[4], &numbers(3)].concat()),
        (3, [&[3, 0, 1, 6], &numbers(4)[..]].concat()),
        (4, kernel(9, 1, 1)),
        (5, lighting(5, &[&[0], &numbers(2)[..]].concat())),
        (6, [&[6, 0, 1], &numbers(1)[..], &[3, 2]].concat()),
        (7, [&[7, 0], &numbers(4)[..], &[1, 2, 3], &numbers(1)].concat()),
        (8, [&[8, 1, 2, 3], &numbers(1)[..]].concat()),
        (9, [&[9, 0], &numbers(2)[..]].concat()),
        (11, merge(3)),
        (12, [&[12, 0, 1], &numbers(2)[..]].concat()),
        (13, [&[13, 0], &numbers(2)[..]].concat()),
        (14, lighting(14, &spot(&[&[1], &numbers(1)[..]].concat()))),
        (15, vec![15, 0]),
        (16, turbulence(1, 1)),
    ]
}

fn counts(f: &mut File) {
    f.made("no byte", &[], false);
    f.made("one byte", &[0], false);
    f.made("no primitive", &[0, 0], true);
    f.made("no primitive and a byte behind", &[0, 0, 0], false);
    let tile = |i: usize| record(1, format!("r{}", i % 10).as_bytes(), &[15, 0]);
    let tiles: Vec<Vec<u8>> = (0..513).map(tile).collect();
    for n in [1, 2, 512, 513] {
        f.made(&format!("{} primitives", n), &list(&tiles[..n]), n <= 512);
    }
    for n in [0, 1, 2, 510, 511, 512, 513] {
        f.kind(&format!("merge of {} inputs", n), &merge(n), n <= 511);
    }
    for n in [0, 1, 1024, 1025] {
        f.kind(&format!("kernel of {} numbers", n), &kernel(n, 0, 0), n <= 1024);
        for (function, name) in [(1, "table"), (2, "discrete")] {
            let kind = [&[2, 0, function], &vec(n)[..], &[0, 0, 0]].concat();
            f.kind(&format!("{} of {} numbers", name, n), &kind, n <= 1024);
        }
    }
    for n in [0, 1, 19, 20, 21, 1024] {
        f.kind(&format!("colour matrix of {} numbers", n), &[&[1, 0, 0], &vec(n)[..]].concat(), n == 20);
    }
    for n in [0, 1, 254, 255, 256, 257, 511] {
        let t = vec![b'a'; n];
        f.made(&format!("result of {} bytes", n), &list(&[record(1, &t, &[15, 0])]), n <= 255);
        f.kind(&format!("reference of {} bytes", n), &[&[15], &reference(&t)[..]].concat(), n <= 255);
    }
}

/// Every enum, bool and option at its bound.
fn places(f: &mut File) {
    for b in [0, 1, 2, 255] {
        f.made(&format!("color interpolation {}", b), &list(&[record(b, b"a", &[15, 0])]), b < 2);
    }
    for (k, kind) in kinds() {
        f.kind(KINDS[k], &kind, true);
    }
    f.kind("Image, no field", &[10], false);
    f.kind("Image, an input", &[10, 0], false);
    for (k, kind) in kinds() {
        for b in [10, 17, 255] {
            let name = format!("kind {} with the fields of {}", b, KINDS[k]);
            f.kind(&name, &[&[b], &kind[1..]].concat(), false);
        }
    }
    for b in [0, 1, 2, 3, 4, 255] {
        let input = |b: u8| if b == 2 { reference(b"nowhere") } else { vec![b] };
        for (name, kind) in [
            ("input of a tile", [&[15], &input(b)[..]].concat()),
            ("first input of a blend", [&[0], &input(b)[..], &[0, 0]].concat()),
            ("second input of a blend", [&[0, 0], &input(b)[..], &[0]].concat()),
            ("second input of a composite", [&[3, 0], &input(b)[..], &[0]].concat()),
            ("second input of a displacement map", [&[6, 0], &input(b)[..], &numbers(1), &[0, 0]].concat()),
            ("last input of a merge", [&[11, 2, 0, 0], &input(b)[..]].concat()),
        ] {
            f.kind(&format!("{}: {}", name, b), &kind, b < 3);
        }
    }
    f.bytes("blend mode", 16, |b| vec![0, 0, 0, b]);
    f.bytes("edge mode", 3, |b| kernel(9, b, 0));
    f.bytes("preserve alpha", 2, |b| kernel(9, 0, b));
    f.bytes("x channel", 4, |b| [&[6, 0, 0], &numbers(1)[..], &[b, 0]].concat());
    f.bytes("y channel", 4, |b| [&[6, 0, 0], &numbers(1)[..], &[0, b]].concat());
    f.bytes("morphology operator", 2, |b| [&[12, 0, b], &numbers(2)[..]].concat());
    f.bytes("stitch tiles", 2, |b| turbulence(b, 0));
    f.bytes("turbulence kind", 2, |b| turbulence(0, b));
    let matrices = [vec(20), numbers(1), numbers(1), vec![]];
    f.cases("colour matrix kind", &matrices, |k| [&[1, 0], k].concat());
    let operators = [numbers(0), numbers(0), numbers(0), numbers(0), numbers(0), numbers(0), numbers(4)];
    f.cases("composite operator", &operators, |o| [&[3, 0, 0], o].concat());
    let functions = [vec![], vec(1), vec(2), numbers(2), numbers(3)];
    for (c, channel) in ["red", "green", "blue", "alpha"].iter().enumerate() {
        f.cases(&format!("{} function", channel), &functions, |function| {
            [&[2, 0], &vec![0; c][..], function, &vec![0; 3 - c]].concat()
        });
    }
    for (kind, name) in [(5, "diffuse"), (14, "specular")] {
        let lights = [numbers(2), numbers(3), spot(&[0])[1..].to_vec()];
        f.cases(&format!("{} light source", name), &lights, |light| lighting(kind, light));
        let angles = [vec![], numbers(1)];
        f.cases(&format!("{} option of an angle", name), &angles, |angle| lighting(kind, &spot(angle)));
        f.kind(&format!("{} angle that is said and not there", name), &lighting(kind, &spot(&[1])), false);
        let there = spot(&[&[0], &numbers(1)[..]].concat());
        f.kind(&format!("{} angle that is there and not said", name), &lighting(kind, &there), false);
    }
}

fn texts(f: &mut File) {
    for (name, t, inside) in [
        ("NUL", &[0][..], true),
        ("7f", &[0x7f], true),
        ("a continuation alone", &[0x80], false),
        ("bf alone", &[0xbf], false),
        ("a continuation behind a letter", &[b'a', 0x80], false),
        ("c0 80", &[0xc0, 0x80], false),
        ("c1 bf", &[0xc1, 0xbf], false),
        ("c2 80", &[0xc2, 0x80], true),
        ("df bf", &[0xdf, 0xbf], true),
        ("c3 and a letter", &[0xc3, 0x28], false),
        ("c3 and another lead", &[0xc3, 0xc3, 0xa9], false),
        ("c3 cut", &[0xc3], false),
        ("e0 9f bf", &[0xe0, 0x9f, 0xbf], false),
        ("e0 a0 80", &[0xe0, 0xa0, 0x80], true),
        ("ed 9f bf", &[0xed, 0x9f, 0xbf], true),
        ("the surrogate ed a0 80", &[0xed, 0xa0, 0x80], false),
        ("the surrogate ed bf bf", &[0xed, 0xbf, 0xbf], false),
        ("ee 80 80", &[0xee, 0x80, 0x80], true),
        ("ef bf bf", &[0xef, 0xbf, 0xbf], true),
        ("e2 and a letter", &[0xe2, 0x28, 0xa1], false),
        ("e2 82 and a letter", &[0xe2, 0x82, 0x28], false),
        ("e2 82 cut", &[0xe2, 0x82], false),
        ("f0 8f bf bf", &[0xf0, 0x8f, 0xbf, 0xbf], false),
        ("f0 90 80 80", &[0xf0, 0x90, 0x80, 0x80], true),
        ("f3 bf bf bf", &[0xf3, 0xbf, 0xbf, 0xbf], true),
        ("f4 8f bf bf", &[0xf4, 0x8f, 0xbf, 0xbf], true),
        ("f4 90 80 80", &[0xf4, 0x90, 0x80, 0x80], false),
        ("f5 80 80 80", &[0xf5, 0x80, 0x80, 0x80], false),
        ("f0 9f 98 cut", &[0xf0, 0x9f, 0x98], false),
        ("f0 9f 98 and a letter", &[0xf0, 0x9f, 0x98, 0x28], false),
        ("f8 88 80 80 80", &[0xf8, 0x88, 0x80, 0x80, 0x80], false),
        ("fe", &[0xfe], false),
        ("ff", &[0xff], false),
        ("text of all lengths", "aé€😀z".as_bytes(), true),
    ] {
        f.made(&format!("result {}", name), &list(&[record(1, t, &[15, 0])]), inside);
        f.kind(&format!("reference {}", name), &[&[15], &reference(t)[..]].concat(), inside);
    }
    // the bytes behind a text end it; they do not complete it
    let whole = [&[b'a'; 253][..], &[0xc3, 0xa9]].concat();
    f.made("result of 255 bytes, the last character of two", &list(&[record(1, &whole, &[15, 0])]), true);
    let cut = [&[b'a'; 254][..], &[0xc3]].concat();
    f.made("result of 255 bytes, the last character cut", &list(&[record(1, &cut, &[15, 0])]), false);
}

/// The list with four of its bytes moved by a difference, which wraps.
fn moved(list: &[u8], at: usize, by: i32) -> Vec<u8> {
    let n = u32::from_le_bytes(list[at..at + 4].try_into().unwrap()).wrapping_add_signed(by);
    [&list[..at], &n.to_le_bytes(), &list[at + 4..]].concat()
}

/// Offsets, lengths, counts; bytes too many or too few.
fn frames(f: &mut File) {
    let records = [record(1, b"a", &[15, 0]), record(0, b"", &merge(2)), record(1, b"b", &turbulence(0, 1))];
    let good = list(&records);
    f.made("three records", &good, true);
    for i in 0..3 {
        for by in [-1, 1, 256, 65_536, i32::MIN] {
            f.made(&format!("offset {} moved by {}", i, by), &moved(&good, 2 + 8 * i, by), false);
            f.made(&format!("length {} moved by {}", i, by), &moved(&good, 6 + 8 * i, by), false);
        }
        f.made(
            &format!("gap of a byte before record {}", i),
            &list_with_gaps(&records, |j| usize::from(i == j)),
            false,
        );
        let from_pairs_end = moved(&good, 2 + 8 * i, -26);
        f.made(&format!("offset {} from the end of the pairs", i), &from_pairs_end, false);
        let longer = |j: usize| [&records[j][..], &[0][..usize::from(i == j)]].concat();
        f.made(&format!("byte behind the fields of record {}", i), &list(&[0, 1, 2].map(longer)), false);
    }
    let boundary = moved(&moved(&moved(&good, 6, 1), 10, 1), 14, -1);
    f.made("boundary of two records a byte later", &boundary, false);
    f.made("byte behind the last record", &[&good[..], &[0]].concat(), false);
    f.made("a list behind the list", &[&good[..], &good].concat(), false);
    f.made("a byte before the list", &[&[0], &good[..]].concat(), false);
    let swapped = [&good[..2], &good[10..18], &good[2..10], &good[18..]].concat();
    f.made("pairs in another order", &swapped, false);
    let same = [&good[..2], &good[2..10], &good[2..10], &good[2..10], &good[26..26 + records[0].len()]].concat();
    f.made("one record three times", &same, false);
    for count in [0u16, 2, 4, 255, 259, 512, 513, 65_535] {
        f.made(&format!("count {} over three records", count), &[&count.to_le_bytes(), &good[2..]].concat(), false);
    }
    f.made("two records of one name", &list(&[records[0].clone(), records[0].clone()]), true);
    for (k, kind) in kinds() {
        let name = KINDS[k];
        f.kind(&format!("{}, the last byte cut", name), &kind[..kind.len() - 1], false);
        f.kind(&format!("{}, a byte more", name), &[&kind[..], &[0]].concat(), false);
    }
    let tile = list(&[record(1, b"result1", &[15, 0])]);
    for n in 0..tile.len() {
        f.made(&format!("list of a tile cut to {} bytes", n), &tile[..n], false);
    }
    for (name, kind) in [("a tile", vec![15, 0]), ("a specular lighting", kinds()[13].1.clone())] {
        let r = record(1, b"result1", &kind);
        for n in 0..r.len() {
            f.made(&format!("record of {} cut to {} bytes, and its length", name, n), &list(&[r[..n].to_vec()]), false);
        }
    }
}

/// Form 2 opens with 65,535; a reference is a place.
fn form_two(f: &mut File) {
    f.made("form 2, no primitive", &[0xff, 0xff, 0, 0], false);
    f.made("form 2, its first two bytes", &[0xff, 0xff], false);
    let records = [record(1, b"a", &[15, 0]), record(1, b"b", &[15, 2, 0, 0])];
    let mut two = [&[0xff, 0xff], &list(&records)[..]].concat();
    for at in [4, 12] {
        two = moved(&two, at, 2);
    }
    f.made("form 2, two tiles", &two, false);
    // read in form 1, the place 0 is an empty text
    f.made("form 2 without its first two bytes, place 0", &list(&records), true);
    let place_one = [&records[..], &[record(1, b"c", &[15, 2, 1, 0])]].concat();
    f.made("form 2 without its first two bytes, place 1", &list(&place_one), false);
}

/// A good list with one byte changed: the second reader alone says which are still in the layout.
fn change(f: &mut File, name: &str, list: &[u8], rng: &mut Rng) {
    let mut changed = list.to_vec();
    let at = rng.below(list.len());
    changed[at] = match rng.below(4) {
        0 => list[at].wrapping_add(1),
        1 => list[at].wrapping_sub(1),
        2 => list[at] ^ 1 << rng.below(8),
        _ => list[at].wrapping_add(1 + rng.below(255) as u8),
    };
    f.add(&format!("{}, byte {} is {:02x} in place of {:02x}", name, at, changed[at], list[at]), &changed);
}

/// The crate's own lists, and changes of them.
fn own(f: &mut File, t: &mut Tally, seed: u64) {
    let mut index = 0;
    let mut stored = 0;
    while stored < OWN {
        let (s, rule, mut rng) = untyped_case(seed, index);
        index += 1;
        let bytes = s.bytes();
        let v = oracle::run::sheet(&bytes);
        let Ok(list) = &v.answer else { continue };
        if rule.is_some() || list.len() > 250 {
            continue;
        }
        t.sheet(&s, bytes.len(), &v);
        let name = format!("sheet {}", index - 1);
        f.made(&name, list, true);
        for _ in 0..CHANGES {
            change(f, &name, list, &mut rng);
        }
        stored += 1;
    }
    let kernel = [
        generate::list_attr(AId::KernelMatrix, &[0x3f80_0000; 1024]),
        generate::tries_attr(AId::Order, &[32f64.to_bits()]),
    ];
    for (name, s) in [
        ("sheet of 512 tiles", Sheet::plain(vec![corners::fe(EId::FeTile); 512])),
        ("sheet with a kernel of 1,024", Sheet::plain(vec![corners::with(corners::fe(EId::FeConvolveMatrix), kernel)])),
    ] {
        f.made(name, &oracle::run::sheet(&s.bytes()).answer.expect("an accepted sheet"), true);
    }
}

/// Writes stdin and stdout of the crate in this folder.
pub fn lists(folder: &str, seed: u64) -> Option<ExitCode> {
    let mut f = File::default();
    let mut t = Tally::new();
    counts(&mut f);
    places(&mut f);
    texts(&mut f);
    frames(&mut f);
    form_two(&mut f);
    own(&mut f, &mut t, seed);
    assert!(f.stdin.len() < FILE, "{} bytes", f.stdin.len());
    for (k, c) in KINDS.iter().zip(t.kinds) {
        assert!(*k == "Image" || c > 0, "no list of the crate's with a {}", k);
    }
    // what the program prints when it finds the same
    let line = format!("{} lists, {} in the layout, {} not\n", f.inside + f.outside, f.inside, f.outside);
    print!("seed {}, {} bytes: {}", seed, f.stdin.len(), line);
    let folder = std::path::Path::new(folder);
    std::fs::write(folder.join("stdin"), &f.stdin).expect("stdin can be written");
    std::fs::write(folder.join("stdout"), f.stdout + &line).expect("stdout can be written");
    Some(ExitCode::SUCCESS)
}
