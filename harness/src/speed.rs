//! Times the library and the crate's conversion on the same sheets, from one driver, in turns, and prints the first two tables of docs/SPEED.md; then
//! the library alone on typed lists and on the same lists as kind 3.
//!
//! The library is given the sheet's bytes: it checks them, measures and writes the list. The crate is given its tree, already built,
//! and makes its `Vec<Primitive>`, which is dropped; once more with the list's bytes written behind it. The output buffers of both are
//! made once and not cleared between calls.

use std::hint::black_box;
use std::process::ExitCode;

use oracle::run::Prepared;
use oracle::{AId, EId};

use crate::corners::{below, by_the_hundred, fe, of_longest_list, with};
use crate::generate::{list_attr, number_attr, text_attr, tries_attr, typed_attr};
use crate::library;
use crate::model::{Attr, Node, Sheet, twin};

/// How many samples are taken of a sheet, and about how long each is, in nanoseconds.
pub struct Effort {
    pub samples: usize,
    pub sample_ns: f64,
}

const EFFORT: Effort = Effort { samples: 101, sample_ns: 2e6 };

/// A tenth of the samples lie below the first, nine tenths below the last. In nanoseconds a call, where they are times.
#[derive(Clone, Copy)]
pub struct Times {
    pub tenth: f64,
    pub median: f64,
    pub nine_tenths: f64,
}

pub fn times(mut samples: Vec<f64>) -> Times {
    samples.sort_by(f64::total_cmp);
    let at = |p: f64| samples[((samples.len() - 1) as f64 * p).round() as usize];
    Times { tenth: at(0.1), median: at(0.5), nine_tenths: at(0.9) }
}

#[repr(C)]
struct Timespec {
    seconds: i64,
    nanoseconds: i64,
}

unsafe extern "C" {
    fn clock_gettime(clock: i32, time: *mut Timespec) -> i32;
}

/// Time that this thread has had a processor, in nanoseconds: what others do on the machine counts less.
fn cpu_time() -> f64 {
    const THREAD_CPUTIME: i32 = 3;
    let mut t = Timespec { seconds: 0, nanoseconds: 0 };
    let failed = unsafe { clock_gettime(THREAD_CPUTIME, &mut t) };
    assert_eq!(failed, 0);
    t.seconds as f64 * 1e9 + t.nanoseconds as f64
}

fn sample(calls: usize, f: &mut dyn FnMut()) -> f64 {
    let t = cpu_time();
    for _ in 0..calls {
        f();
    }
    (cpu_time() - t) / calls as f64
}

/// Times several functions in turns, so that what disturbs the machine disturbs all alike.
fn measure(effort: &Effort, fs: &mut [&mut dyn FnMut()]) -> Vec<Times> {
    let calls: Vec<usize> = fs
        .iter_mut()
        .map(|f| {
            let once = sample(3, *f);
            (effort.sample_ns / once).max(1.0) as usize
        })
        .collect();
    let mut samples = vec![Vec::new(); fs.len()];
    for _ in 0..effort.samples {
        for ((f, n), s) in fs.iter_mut().zip(&calls).zip(&mut samples) {
            s.push(sample(*n, *f));
        }
    }
    samples.into_iter().map(times).collect()
}

pub struct Row {
    pub name: String,
    sheet: usize,
    list: usize,
    pub primitives: usize,
    pub library: Times,
    pub crate_alone: Times,
    pub crate_bytes: Times,
}

impl Row {
    pub fn ratio(&self) -> f64 {
        self.library.median / self.crate_alone.median
    }
}

/// A sheet that is accepted.
pub fn row(name: &str, bytes: &[u8], effort: &Effort) -> Row {
    let mut out = vec![0; 300_000];
    let got = library::convert(bytes, &mut out);
    assert_eq!(got.number, 0, "{} is refused", name);
    let prepared = Prepared::new(bytes).unwrap();
    let mut list = Vec::with_capacity(300_000);
    prepared.convert_to(&mut list);
    assert!(list == out[..got.length], "{}: the two lists differ", name);
    let t = measure(
        effort,
        &mut [
            &mut || {
                black_box(library::convert(black_box(bytes), black_box(&mut out)));
            },
            &mut || {
                black_box(black_box(&prepared).convert());
            },
            &mut || {
                black_box(&prepared).convert_to(&mut list);
                black_box(&list);
            },
        ],
    );
    Row {
        name: name.to_string(),
        sheet: bytes.len(),
        list: got.length,
        primitives: prepared.convert(),
        library: t[0],
        crate_alone: t[1],
        crate_bytes: t[2],
    }
}

/// Nanoseconds with three figures at least.
pub fn ns(n: f64) -> String {
    if n < 100.0 { format!("{:.1}", n) } else { crate::tally::grouped(n.round() as u64) }
}

fn spread(t: Times) -> String {
    format!("{} ({} to {})", ns(t.median), ns(t.tenth), ns(t.nine_tenths))
}

fn print_rows(rows: &[Row]) {
    println!("| sheet | bytes | primitives | list | library, ns | crate, ns | crate and bytes, ns | library / crate |");
    println!("|---|---|---|---|---|---|---|---|");
    for r in rows {
        println!(
            "| {} | {} | {} | {} | {} | {} | {} | {:.2} |",
            r.name,
            r.sheet,
            r.primitives,
            r.list,
            spread(r.library),
            spread(r.crate_alone),
            spread(r.crate_bytes),
            r.ratio()
        );
    }
}

// ---- the sheets

fn named(n: Node, name: &str) -> Node {
    with(n, [text_attr(AId::Result, name)])
}

fn reads(n: Node, name: &str) -> Node {
    with(n, [text_attr(AId::In, name)])
}

fn blur(n: f64) -> Node {
    with(fe(EId::FeGaussianBlur), [tries_attr(AId::StdDeviation, &[n.to_bits()])])
}

fn offset(dx: f32, dy: f32) -> Node {
    with(fe(EId::FeOffset), [number_attr(AId::Dx, dx), number_attr(AId::Dy, dy)])
}

fn merge(of: &[&str]) -> Vec<Node> {
    let mut nodes = vec![fe(EId::FeMerge)];
    nodes.extend(of.iter().map(|i| reads(below(EId::FeMergeNode), i)));
    nodes
}

fn page(nodes: Vec<Node>) -> Sheet {
    let mut s = Sheet::plain(nodes);
    s.view_box = [600f32.to_bits(), 120f32.to_bits()];
    s.font_size = 12f32.to_bits();
    s.set_region([0.0, 0.0, 600.0, 120.0]);
    s
}

/// A drop shadow by hand: blur, offset, merge.
fn small() -> Sheet {
    let mut nodes = vec![named(reads(blur(3.0), "SourceAlpha"), "blur"), named(offset(2.0, 2.0), "moved")];
    nodes.extend(merge(&["moved", "SourceGraphic"]));
    page(nodes)
}

/// A shaded letterhead: twelve primitives of eleven kinds.
fn typical() -> Sheet {
    let one = 1f32.to_bits();
    let number = |id: AId, n: f32| number_attr(id, n);
    let mut nodes = vec![
        named(reads(blur(4.0), "SourceAlpha"), "blur"),
        named(
            with(
                fe(EId::FeSpecularLighting),
                [
                    text_attr(AId::In, "blur"),
                    number(AId::SurfaceScale, 5.0),
                    number(AId::SpecularConstant, 0.75),
                    number(AId::SpecularExponent, 20.0),
                    Attr::new(AId::LightingColor as u16, 5, vec![187, 187, 187, 255]),
                ],
            ),
            "shine",
        ),
        with(below(EId::FePointLight), [number(AId::X, -50.0), number(AId::Y, -100.0), number(AId::Z, 200.0)]),
        named(
            with(
                fe(EId::FeComposite),
                [text_attr(AId::In, "shine"), text_attr(AId::In2, "SourceAlpha"), text_attr(AId::Operator, "in")],
            ),
            "cut",
        ),
        with(
            fe(EId::FeComposite),
            [
                text_attr(AId::In, "SourceGraphic"),
                text_attr(AId::In2, "cut"),
                text_attr(AId::Operator, "arithmetic"),
                number(AId::K2, 1.0),
                number(AId::K3, 1.0),
            ],
        ),
        named(with(fe(EId::FeColorMatrix), [list_attr(AId::Values, &[one; 20])]), "tinted"),
        fe(EId::FeComponentTransfer),
        with(below(EId::FeFuncR), [text_attr(AId::Type, "linear"), number(AId::Slope, 0.5)]),
        with(below(EId::FeFuncA), [text_attr(AId::Type, "table"), list_attr(AId::TableValues, &[0, one])]),
        with(fe(EId::FeConvolveMatrix), [list_attr(AId::KernelMatrix, &[one; 9])]),
        named(
            with(
                fe(EId::FeFlood),
                [Attr::new(AId::FloodColor as u16, 5, vec![20, 40, 80, 255]), number(AId::FloodOpacity, 0.5)],
            ),
            "flood",
        ),
        with(fe(EId::FeBlend), [text_attr(AId::In2, "tinted"), text_attr(AId::Mode, "multiply")]),
        with(fe(EId::FeMorphology), [list_attr(AId::Radius, &[one])]),
        offset(2.0, 2.0),
    ];
    nodes.extend(merge(&["tinted", "flood", "SourceGraphic"]));
    page(nodes)
}

/// Unnamed, each reads the one before.
fn tiles(n: usize) -> Sheet {
    page(vec![fe(EId::FeTile); n])
}

/// Each child named, each reads the first.
fn named_tiles(n: usize) -> Sheet {
    page(
        (0..n)
            .map(|i| {
                with(fe(EId::FeTile), [text_attr(AId::Result, &format!("name{}", i)), text_attr(AId::In, "name0")])
            })
            .collect(),
    )
}

/// Half have names that the other half has to skip.
fn skipped(n: usize) -> Sheet {
    let mut nodes: Vec<Node> =
        (0..n / 2).map(|i| named(fe(EId::FeTile), &format!("result{}", n / 2 + 1 + i))).collect();
    nodes.extend(vec![fe(EId::FeTile); n - n / 2]);
    page(nodes)
}

/// No name is known: every lookup goes through all.
fn unknown(n: usize) -> Sheet {
    page(
        (0..n)
            .map(|i| {
                with(fe(EId::FeTile), [text_attr(AId::Result, &format!("name{}", i)), text_attr(AId::In, "nowhere")])
            })
            .collect(),
    )
}

/// One feMerge, each child reads a known name.
fn merged(n: usize) -> Sheet {
    let mut nodes = vec![named(fe(EId::FeTile), "a"), fe(EId::FeMerge)];
    nodes.extend(vec![reads(below(EId::FeMergeNode), "a"); n - 2]);
    page(nodes)
}

/// Every kind in turn, unnamed.
fn kinds(n: usize) -> Sheet {
    page((0..n).map(|i| fe(crate::generate::PRIMITIVES[i % 16])).collect())
}

// ---- typed lists

/// An element that reads a list, with a typed one of so many items.
fn typed_sheet(id: AId, items: usize, text: &[u8]) -> Sheet {
    let list = typed_attr(id, text);
    page(match id {
        AId::Values => vec![with(fe(EId::FeColorMatrix), [list])],
        AId::KernelMatrix => {
            let order = tries_attr(AId::Order, &[(items as f64).sqrt().to_bits()]);
            vec![with(fe(EId::FeConvolveMatrix), [list, order])]
        }
        _ => {
            let function = with(below(EId::FeFuncR), [text_attr(AId::Type, "table"), list]);
            vec![fe(EId::FeComponentTransfer), function]
        }
    })
}

/// Times of a sheet with a typed list and of its twin: both accepted, with the same list.
fn typed_row(id: AId, what: &str, items: usize, text: &[u8]) {
    let s = typed_sheet(id, items, text);
    let (typed, twin) = (s.bytes(), twin(&s).expect("a text that passes").bytes());
    let (mut out, mut other) = (vec![0; 300_000], vec![0; 300_000]);
    let got = library::convert(&typed, &mut out);
    assert!(got.number == 0 && got == library::convert(&twin, &mut other) && out == other, "{}: the two differ", what);
    let t = measure(
        &EFFORT,
        &mut [
            &mut || {
                black_box(library::convert(black_box(&typed), black_box(&mut out)));
            },
            &mut || {
                black_box(library::convert(black_box(&twin), black_box(&mut other)));
            },
        ],
    );
    let more = t[0].median - t[1].median;
    println!(
        "| {} | {} | {} | {} | {} | {} | {:.1} | {:.2} |",
        id,
        what,
        items,
        text.len(),
        spread(t[0]),
        spread(t[1]),
        more / items as f64,
        more / text.len() as f64
    );
}

fn typed_rows() {
    println!(
        "\nTyped lists and the same lists as kind 3, ns; what typing costs more, for each item and for each byte of text:\n"
    );
    println!("| list | item | items | bytes of text | typed, ns | kind 3, ns | more an item, ns | more a byte, ns |");
    println!("|---|---|---|---|---|---|---|---|");
    let list = |item: &str, items: usize| vec![item; items].join(" ").into_bytes();
    for id in [AId::Values, AId::KernelMatrix, AId::TableValues] {
        for items in [64, 256, 1024] {
            typed_row(id, "`0.5`", items, &list("0.5", items));
        }
    }
    for items in [60, 120, 240] {
        typed_row(AId::TableValues, "`1234567890.12345`", items, &list("1234567890.12345", items));
    }
    for items in [48, 96, 192] {
        typed_row(AId::TableValues, "`-123456789012345e-22`", items, &list("-123456789012345e-22", items));
    }
    for bytes in [1024, 2048, 4096] {
        typed_row(AId::TableValues, "zeros and a 1", 1, format!("{:0>bytes$}", 1).as_bytes());
    }
    for bytes in [1024, 2048, 4096] {
        typed_row(AId::TableValues, "spaces and a 1", 1, format!("{:>bytes$}", 1).as_bytes());
    }
}

/// What the times were taken on and how.
pub fn print_machine(effort: &Effort) {
    let version = std::process::Command::new("rustc")
        .arg("--version")
        .output()
        .map(|o| String::from_utf8_lossy(&o.stdout).trim().to_string());
    let cpu = std::fs::read_to_string("/proc/cpuinfo").ok().and_then(|s| {
        s.lines().find(|l| l.starts_with("model name")).and_then(|l| l.split(':').nth(1)).map(|s| s.trim().to_string())
    });
    println!(
        "{}, {}; processor time; median of {} samples of about {} ms each, and in brackets the first and the ninth tenth\n",
        cpu.unwrap_or_default(),
        version.unwrap_or_default(),
        effort.samples,
        effort.sample_ns / 1e6
    );
}

pub fn speed() -> ExitCode {
    print_machine(&EFFORT);
    let timed = |name: &str, s: Sheet| row(name, &s.bytes(), &EFFORT);
    print_rows(&[
        timed("small: blur, offset, merge", small()),
        timed("typical: twelve primitives", typical()),
        timed("largest: 512 feTile", tiles(512)),
        timed("largest: 512 of all kinds", kinds(512)),
        timed("largest: 512 named, all read the first", named_tiles(512)),
        timed("longest list", of_longest_list()),
    ]);
    println!("\nMany made names:\n");
    print_rows(&by_the_hundred().map(|(name, s)| timed(name, s)));
    println!("\nGrowth, ns (library \\| crate) and the library's over the crate's, by the number of nodes:\n");
    let sizes = [8, 16, 32, 64, 128, 256, 512];
    println!("| chain | {} |", sizes.map(|n| n.to_string()).join(" | "));
    println!("|---|{}", "---|".repeat(sizes.len()));
    let chains: [(&str, fn(usize) -> Sheet); 6] = [
        ("unnamed", tiles),
        ("named, all read the first", named_tiles),
        ("named, none found", unknown),
        ("half named so that the rest skip", skipped),
        ("one feMerge", merged),
        ("every kind in turn", kinds),
    ];
    for (name, make) in chains {
        let cells: Vec<String> = sizes
            .iter()
            .map(|n| {
                let r = timed(name, make(*n));
                format!("{} \\| {}: {:.2}", ns(r.library.median), ns(r.crate_alone.median), r.ratio())
            })
            .collect();
        println!("| {} | {} |", name, cells.join(" | "));
    }
    typed_rows();
    ExitCode::SUCCESS
}
