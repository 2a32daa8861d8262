//! Sheets and function records made by rule, the same in every run: each boundary from both sides, each id, tag, unit and word,
//! each number at which something changes in each place that reads one.

use oracle::{AIDS, AId, EId, kind_of};

use crate::generate::{Generator, PRIMITIVES, length_attr, list_attr, number_attr, text_attr, tries_attr};
use crate::model::{ABSENT, Attr, Node, Sheet, tag};
use crate::rng::Rng;
use crate::values::{EDGES, NOT_FINITE, NOT_FINITE_64, NOT_UTF8};

pub struct Corner {
    pub group: &'static str,
    pub sheet: Sheet,
}

pub fn with(mut n: Node, attrs: impl IntoIterator<Item = Attr>) -> Node {
    for a in attrs {
        n.set(a);
    }
    n
}

pub fn fe(e: EId) -> Node {
    Node::fe(e)
}

pub fn below(e: EId) -> Node {
    Node::new(1, tag(e))
}

fn one(bits: u32) -> [u32; 1] {
    [bits]
}

fn bits(n: f32) -> u32 {
    n.to_bits()
}

/// A sheet of exactly so many bytes (117 at least), sound in its layout: a feTile, and further ones with an attribute that is unused.
pub fn of_size(size: usize) -> Sheet {
    let mut s = Sheet::plain(vec![fe(EId::FeTile)]);
    let mut left = size - s.bytes().len();
    while left > 277 {
        let count = ((left - 44) / 4).min(1024);
        s.nodes.push(with(fe(EId::FeTile), [list_attr(AId::Values, &vec![0x3f80_0000; count])]));
        left -= 22 + 4 * count;
    }
    if left > 0 {
        s.nodes.push(with(fe(EId::FeTile), [Attr::new(AId::Type as u16, 1, vec![b'a'; left - 22])]));
    }
    assert_eq!(s.bytes().len(), size);
    s
}

/// A sheet whose list has exactly so many bytes (600 at least): feMerge repeats the name of a feTile.
pub fn of_list_size(size: usize) -> Sheet {
    let named = |n: usize| with(fe(EId::FeTile), [Attr::new(AId::Result as u16, 1, vec![b'n'; n])]);
    // count and three pairs; a feTile with a name of 253; a feMerge `result2`; a last feTile that reads it, named to fit
    let merge = 2 + 24 + (19 + 253 + 2) + (19 + 7 + 3) + (19 + 1 + 1 + 2 + 7);
    let inputs = (size - merge) / 256;
    let last = size - merge - 256 * inputs;
    let mut nodes = vec![named(253), fe(EId::FeMerge)];
    nodes.extend(vec![below(EId::FeMergeNode); inputs]);
    nodes.push(named(last));
    Sheet::plain(nodes)
}

/// The largest list that a sheet can ask for, or near it: long names, each read several times.
pub fn of_longest_list() -> Sheet {
    let mut nodes = vec![with(fe(EId::FeTile), [Attr::new(AId::Result as u16, 1, vec![b'm'; 255])]), fe(EId::FeMerge)];
    nodes.extend(vec![below(EId::FeMergeNode); 290]);
    while nodes.len() < 512 {
        let mut name = vec![b'0'; 255];
        name[..3].copy_from_slice(format!("{:03}", nodes.len()).as_bytes());
        nodes.push(with(fe(EId::FeComposite), [Attr::new(AId::Result as u16, 1, name)]));
    }
    let mut s = Sheet::plain(nodes);
    while s.bytes().len() > 65_536 {
        s.nodes.pop();
    }
    s
}

/// An element that reads this number at this depth, with what else it takes to be read.
fn reader(depth: u8, id: AId) -> (Node, Vec<Node>, bool) {
    use AId::*;
    let light = |n: Node| (fe(EId::FeDiffuseLighting), vec![n], true);
    let func = |t: &str| (fe(EId::FeComponentTransfer), vec![with(below(EId::FeFuncG), [text_attr(Type, t)])], true);
    if depth == 1 {
        return match id {
            Slope | Intercept => func("linear"),
            Amplitude | Exponent | Offset => func("gamma"),
            TableValues => func("table"),
            Azimuth | Elevation => light(below(EId::FeDistantLight)),
            X | Y | Z => light(below(EId::FePointLight)),
            _ => light(below(EId::FeSpotLight)),
        };
    }
    let distant = vec![below(EId::FeDistantLight)];
    match id {
        K1 | K2 | K3 | K4 => (with(fe(EId::FeComposite), [text_attr(Operator, "arithmetic")]), vec![], false),
        Divisor | Bias | TargetX | TargetY => {
            (with(fe(EId::FeConvolveMatrix), [list_attr(KernelMatrix, &[0x3f80_0000; 9])]), vec![], false)
        }
        Scale => (fe(EId::FeDisplacementMap), vec![], false),
        FloodOpacity => (fe(EId::FeFlood), vec![], false),
        Dx | Dy => (fe(EId::FeDropShadow), vec![], false),
        SurfaceScale | DiffuseConstant => (fe(EId::FeDiffuseLighting), distant, false),
        SpecularConstant | SpecularExponent => (fe(EId::FeSpecularLighting), distant, false),
        KernelMatrix => (with(fe(EId::FeConvolveMatrix), [tries_attr(Order, &[1f64.to_bits()])]), vec![], false),
        Values => (with(fe(EId::FeColorMatrix), [text_attr(Type, "saturate")]), vec![], false),
        Radius => (fe(EId::FeMorphology), vec![], false),
        _ => (fe(EId::FeTurbulence), vec![], false),
    }
}

/// A sheet in which an element reads this attribute.
pub fn reading(depth: u8, a: Attr) -> Sheet {
    let (mut n, mut children, on_child) = reader(depth, AIDS[a.id as usize]);
    if on_child {
        children[0].set(a);
    } else {
        n.set(a);
    }
    let mut nodes = vec![n];
    nodes.append(&mut children);
    Sheet::plain(nodes)
}

struct Corners(Vec<Corner>);

impl Corners {
    fn add(&mut self, group: &'static str, sheet: Sheet) {
        self.0.push(Corner { group, sheet });
    }

    fn sizes(&mut self) {
        let whole = Sheet::plain(vec![with(fe(EId::FeTile), [text_attr(AId::In, "a")])]);
        for n in 0..whole.bytes().len() {
            self.add("a sheet cut at each byte", Sheet { keep: Some(n), ..whole.clone() });
        }
        for size in [65_534, 65_535, 65_536, 65_537, 65_538, 70_000, 131_072] {
            self.add("sheets around 65,536 bytes", of_size(size));
            let mut s = Sheet::plain(vec![fe(EId::FeTile)]);
            s.tail = vec![0; size - s.bytes().len()];
            self.add("sheets around 65,536 bytes, by a tail", s);
        }
        for count in [1, 2, 255, 256, 257, 510, 511, 512, 513, 514] {
            let mut merge = vec![fe(EId::FeMerge)];
            merge.extend(vec![below(EId::FeMergeNode); count - 1]);
            for nodes in [vec![fe(EId::FeTile); count], vec![Node::new(0, 0); count], vec![fe(EId::G); count], merge] {
                self.add("node counts around 512", Sheet::plain(nodes));
            }
        }
        for count in [0, 1, 2, 511, 512, 513, 0x0300, 0x8000, 0xffff] {
            let s = Sheet::plain(vec![fe(EId::FeTile)]);
            self.add("node counts that lie", Sheet { count: Some(count), ..s });
        }
        for size in [600, 1000, 65_534, 65_535, 65_536, 65_537, 65_538, 100_000] {
            self.add("lists around 65,536 bytes", of_list_size(size));
        }
        self.add("lists around 65,536 bytes", of_longest_list());
    }

    fn texts(&mut self) {
        for depth in [0, 1] {
            for id in AIDS.iter().filter(|id| kind_of(depth, **id) == Some(1)) {
                for n in [0, 1, 2, 253, 254, 255, 256, 257, 300] {
                    self.add("texts around 255 bytes", on(depth, Attr::new(*id as u16, 1, vec![b'a'; n])));
                }
                for n in 252..=255 {
                    let mut v = vec![b'a'; n];
                    v.extend("é".bytes());
                    self.add("texts around 255 bytes", on(depth, Attr::new(*id as u16, 1, v)));
                }
            }
        }
        let ends = [
            '\0',
            '\u{7f}',
            '\u{80}',
            '\u{7ff}',
            '\u{800}',
            '\u{fff}',
            '\u{d7ff}',
            '\u{e000}',
            '\u{ffff}',
            '\u{10000}',
            '\u{10ffff}',
        ];
        for c in ends {
            self.add("UTF-8, each end of a range", on(0, text_attr(AId::Result, &c.to_string())));
        }
        for t in NOT_UTF8 {
            self.add("not UTF-8", on(0, Attr::new(AId::Result as u16, 1, t.to_vec())));
            self.add("not UTF-8", on(1, Attr::new(AId::In as u16, 1, t.to_vec())));
        }
    }

    fn lists(&mut self) {
        for depth in [0, 1] {
            for id in AIDS.iter().filter(|id| kind_of(depth, **id) == Some(3)) {
                for n in [0, 1, 2, 3, 19, 20, 21, 1023, 1024, 1025, 1026] {
                    self.add("lists around 1,024 numbers", reading(depth, list_attr(*id, &vec![0x3f00_0000; n])));
                }
                for b in EDGES.iter().chain(NOT_FINITE) {
                    self.add("each number at an edge", reading(depth, list_attr(*id, &one(*b))));
                    self.add("each number at an edge", reading(depth, list_attr(*id, &[0x4000_0000, *b])));
                }
            }
        }
        for b in EDGES {
            let hue = [text_attr(AId::Type, "hueRotate"), list_attr(AId::Values, &one(*b))];
            self.add("each number at an edge", Sheet::plain(vec![with(fe(EId::FeColorMatrix), hue)]));
        }
    }

    fn ids(&mut self) {
        let mut rng = Rng::of_case(0, 0);
        for depth in [0, 1] {
            for id in AIDS {
                let right = kind_of(depth, *id);
                for kind in 0..=8 {
                    let value = match kind {
                        0 => Vec::new(),
                        8 => vec![0; 4],
                        k => Generator::new(&mut rng, false).any_value(*id, k).value,
                    };
                    let mut s = on(depth, Attr::new(*id as u16, kind, value));
                    // the element that reads it, too
                    if right == Some(kind) && kind > 1 && kind < 4 {
                        self.add("each id with each kind", s);
                        let a = Generator::new(&mut rng, false).any_value(*id, kind);
                        s = reading(depth, a);
                    }
                    self.add("each id with each kind", s);
                }
            }
            for id in AIDS.len() as u16..AIDS.len() as u16 + 60 {
                self.add("each id with each kind", on(depth, Attr::new(id, 0, Vec::new())));
            }
        }
        for t in 0..=255 {
            self.add("each tag", Sheet::plain(vec![fe(EId::FeTile), Node::new(0, t), fe(EId::FeTile)]));
            for parent in [EId::FeMerge, EId::FeComponentTransfer, EId::FeSpecularLighting, EId::G] {
                self.add("each tag", Sheet::plain(vec![fe(parent), Node::new(1, t)]));
            }
            self.add("each tag", Sheet::plain(vec![Node::new(0, t), Node::new(1, tag(EId::FeTile))]));
        }
    }

    fn header(&mut self) {
        let tile = || Sheet::plain(vec![fe(EId::FeTile)]);
        for b in 0..=255 {
            self.add("each header byte", Sheet { units: [b, 0], ..tile() });
            self.add("each header byte", Sheet { units: [0, b], ..tile() });
            self.add("each header byte", Sheet { has_box: b, ..tile() });
            self.add("each header byte", Sheet { zero: b, ..tile() });
            for i in 0..4 {
                for n in [0.0f64, 1.5] {
                    let mut s = tile();
                    s.font_size = bits(10.0);
                    s.lengths[i] = (b, n.to_bits());
                    self.add("each unit", s);
                }
            }
            for id in [AId::X, AId::Y, AId::Width, AId::Height] {
                let mut n = with(fe(EId::FeTile), [length_attr(id, b, 1.5f64.to_bits())]);
                n.font_size = bits(7.0);
                self.add("each unit", Sheet::plain(vec![n]));
            }
        }
        for units in [[0, 0], [0, 1], [0, 2], [1, 0], [1, 1], [1, 2], [2, 0], [2, 1], [2, 2]] {
            for has_box in [false, true] {
                for absent in 0..16 {
                    for e in [EId::FeTile, EId::FeFlood] {
                        let mut s = Sheet::plain(vec![with(fe(e), [length_attr(AId::X, 9, 25f64.to_bits())])]);
                        s.units = units;
                        if has_box {
                            s.set_box([10.0, 20.0, 8.0, 4.0]);
                        }
                        for i in 0..4 {
                            if absent >> i & 1 == 1 {
                                s.lengths[i] = ABSENT;
                            }
                        }
                        self.add("units, box and absent lengths", s);
                    }
                }
            }
        }
        for b in EDGES.iter().chain(NOT_FINITE) {
            for i in 0..4 {
                let mut s = tile();
                s.set_box([1.0, 2.0, 3.0, 4.0]);
                s.object_box[i] = *b;
                self.add("each number at an edge", s.clone());
                s.units = [1, 1];
                self.add("each number at an edge", s);
            }
            for e in [EId::FeDropShadow, EId::FeMorphology, EId::FeGaussianBlur, EId::FeOffset, EId::FeDisplacementMap]
            {
                let mut s = Sheet::plain(vec![with(
                    fe(e),
                    [
                        number_attr(AId::Dx, 1.5),
                        number_attr(AId::Scale, 1.5),
                        tries_attr(AId::StdDeviation, &[1.5f64.to_bits()]),
                        list_attr(AId::Radius, &[bits(1.5), bits(1.5)]),
                    ],
                )]);
                s.units = [0, 1];
                s.set_box([0.0, 0.0, f32::from_bits(*b), 4.0]);
                self.add("each number at an edge", s);
            }
            for i in 0..2 {
                let mut s = tile();
                s.lengths = [(9, 10f64.to_bits()); 4];
                s.view_box[i] = *b;
                self.add("each number at an edge", s);
            }
            let mut s = tile();
            s.lengths = [(4, 1f64.to_bits()); 4];
            self.add("each number at an edge", Sheet { dpi: *b, ..s.clone() });
            s.lengths = [(1, 1f64.to_bits()); 4];
            self.add("each number at an edge", Sheet { font_size: *b, ..s });
            let mut n = with(fe(EId::FeTile), [length_attr(AId::Width, 2, 1f64.to_bits())]);
            n.font_size = *b;
            self.add("each number at an edge", Sheet::plain(vec![n]));
        }
    }

    fn numbers(&mut self) {
        for depth in [0, 1] {
            for id in AIDS.iter().filter(|id| kind_of(depth, **id) == Some(2)) {
                for b in EDGES.iter().chain(NOT_FINITE) {
                    self.add("each number at an edge", reading(depth, number_attr(*id, f32::from_bits(*b))));
                }
            }
        }
        let mut doubles: Vec<u64> = EDGES.iter().map(|b| f64::from(f32::from_bits(*b)).to_bits()).collect();
        doubles.extend(NOT_FINITE_64);
        doubles.extend([0x47ef_ffff_efff_ffff, 0xc7ef_ffff_efff_ffff, 1, 0x3690_0000_0000_0000, 0x3690_0000_0000_0001]);
        for d in doubles {
            for i in 0..4 {
                let mut s = Sheet::plain(vec![fe(EId::FeTile)]);
                s.lengths[i].1 = d;
                self.add("each f64 at an edge", s);
            }
            for id in [AId::X, AId::Y, AId::Width, AId::Height] {
                for unit in [0, 4, 9] {
                    self.add(
                        "each f64 at an edge",
                        Sheet::plain(vec![with(fe(EId::FeTile), [length_attr(id, unit, d)])]),
                    );
                }
            }
            for (e, id) in [
                (EId::FeGaussianBlur, AId::StdDeviation),
                (EId::FeDropShadow, AId::StdDeviation),
                (EId::FeConvolveMatrix, AId::Order),
            ] {
                for place in 0..3 {
                    let mut t = vec![3f64.to_bits(); place];
                    t.push(d);
                    let kernel = list_attr(AId::KernelMatrix, &[bits(1.0); 9]);
                    let node = if id == AId::Order { with(fe(e), [kernel]) } else { fe(e) };
                    self.add("each f64 at an edge", Sheet::plain(vec![with(node, [tries_attr(id, &t)])]));
                }
            }
        }
    }

    fn words(&mut self) {
        let mut rng = Rng::of_case(0, 1);
        for (e, id, words) in crate::generate::WORD_LISTS {
            for w in *words {
                let mut n = with(fe(*e), [text_attr(*id, w), list_attr(AId::Values, &[bits(0.5)])]);
                if *e == EId::FeConvolveMatrix {
                    n.set(list_attr(AId::KernelMatrix, &[bits(1.0); 9]));
                }
                self.add("each word", Sheet::plain(vec![n.clone()]));
                n.set(list_attr(AId::Values, &[bits(2.0); 20]));
                n.set(number_attr(AId::K3, 2.0));
                self.add("each word", Sheet::plain(vec![n]));
            }
        }
        for w in crate::generate::TRANSFERS {
            for e in [EId::FeFuncR, EId::FeFuncG, EId::FeFuncB, EId::FeFuncA, EId::FeTile] {
                let before = with(below(e), [text_attr(AId::Type, "linear"), number_attr(AId::Slope, 5.0)]);
                let f = with(below(e), [text_attr(AId::Type, w), list_attr(AId::TableValues, &[bits(0.5), bits(1.0)])]);
                self.add("each word", Sheet::plain(vec![fe(EId::FeComponentTransfer), before, f]));
            }
        }
        for w in crate::generate::INPUTS {
            let in_ = text_attr(AId::In, w);
            self.add("each word", Sheet::plain(vec![with(fe(EId::FeTile), [in_.clone()])]));
            self.add(
                "each word",
                Sheet::plain(vec![fe(EId::FeTile), with(fe(EId::FeBlend), [in_.clone(), text_attr(AId::In2, w)])]),
            );
            self.add(
                "each word",
                Sheet::plain(vec![fe(EId::FeTile), fe(EId::FeMerge), with(below(EId::FeMergeNode), [in_])]),
            );
        }
        for e in PRIMITIVES {
            let mut g = Generator::new(&mut rng, false);
            self.add("each kind, bare", Sheet::plain(vec![fe(e)]));
            for _ in 0..20 {
                let nodes = g.child(e);
                self.add("each kind", Sheet::plain(nodes));
            }
            // every attribute that cannot be read
            let mut n = fe(e);
            for id in AIDS.iter().filter(|id| kind_of(0, **id).is_some_and(|k| k != 1)) {
                n.set(Attr::new(*id as u16, 0, Vec::new()));
            }
            self.add("each kind, nothing readable", Sheet::plain(vec![n, below(EId::FeSpotLight)]));
        }
    }

    /// Every chain of one, two and three feTile whose `in` and `result` are each absent, `a` or `result1`.
    fn naming(&mut self) {
        for length in 1..=3usize {
            for code in 0..9usize.pow(length as u32) {
                let nodes = (0..length)
                    .map(|i| {
                        let c = code / 9usize.pow(i as u32);
                        let mut n = fe(EId::FeTile);
                        for (mark, id) in [(c % 3, AId::In), (c / 3 % 3, AId::Result)] {
                            if mark > 0 {
                                n.set(text_attr(id, ["a", "result1"][mark - 1]));
                            }
                        }
                        n
                    })
                    .collect();
                self.add("every short chain of names", Sheet::plain(nodes));
            }
        }
        // names that have to be skipped, in rising and falling order, with one and two digits
        for n in [1, 2, 5, 9, 10, 11, 99, 100, 101, 200] {
            for rising in [true, false] {
                let mut nodes = Vec::new();
                for i in 0..n {
                    let k = if rising { i } else { n - 1 - i } + n;
                    nodes.push(with(fe(EId::FeTile), [text_attr(AId::Result, &format!("result{}", k))]));
                }
                nodes.extend(vec![fe(EId::FeTile); n]);
                self.add("names that are skipped", Sheet::plain(nodes));
            }
        }
    }

    /// Texts that are a made name, or nearly one: as an `in` after 21 made names; as a `result` that the made names behind it may have to skip, beside one with
    /// a higher number; and as both between made names. Fewer than two hundred, so all of them are stored.
    fn numbered_names(&mut self) {
        let unnamed = |n: usize| vec![fe(EId::FeTile); n];
        for t in numbered() {
            let reading = with(fe(EId::FeTile), [text_attr(AId::In, &t)]);
            let called = |t: &str| with(fe(EId::FeTile), [text_attr(AId::Result, t)]);
            let mut put = |nodes: [Vec<Node>; 3]| self.add("names with a number", Sheet::plain(nodes.concat()));
            put([unnamed(21), vec![reading.clone()], vec![]]);
            put([vec![called(&t), called("result30")], unnamed(4), vec![reading.clone()]]);
            put([unnamed(1), vec![called(&t), reading], unnamed(1)]);
        }
        for (_, s) in by_the_hundred() {
            self.add("names by the hundred", s);
        }
    }

    fn kernels(&mut self) {
        let kernel = |count: usize| list_attr(AId::KernelMatrix, &vec![bits(1.0); count]);
        let order = |x: f64, y: f64| tries_attr(AId::Order, &[x.to_bits(), y.to_bits()]);
        let mut put =
            |attrs: Vec<Attr>| self.add("kernels", Sheet::plain(vec![with(fe(EId::FeConvolveMatrix), attrs)]));
        for x in 1..=4 {
            for y in 1..=4 {
                for count in [x * y - 1, x * y, x * y + 1] {
                    put(vec![order(x as f64, y as f64), kernel(count)]);
                }
                for t in -3..=2 * x as i64 + 2 {
                    put(vec![order(x as f64, y as f64), kernel(x * y), number_attr(AId::TargetX, t as f32 / 2.0)]);
                    put(vec![order(y as f64, x as f64), kernel(x * y), number_attr(AId::TargetY, t as f32 / 2.0)]);
                }
            }
        }
        for (x, y) in [(32.0, 32.0), (1.0, 1024.0), (1024.0, 1.0), (2.0, 512.0), (33.0, 31.0)] {
            put(vec![order(x, y), kernel((x * y) as usize)]);
        }
        for (x, y, count) in [
            (65536.0, 65536.0, 0),
            (65536.0, 65536.0, 4),
            (1073741825.0, 4.0, 4),
            (4.0, 1073741825.0, 4),
            (2147483647.0, 2.0, 0),
            (2147483648.0, 1.0, 0),
            (-2147483648.0, 1.0, 9),
            (3.9, 3.9, 9),
            (0.9, 3.0, 9),
            (-0.9, 3.0, 9),
            (2.0, 0.0, 9),
        ] {
            put(vec![order(x, y), kernel(count)]);
        }
        for b in 0..=8 {
            for sign in [0, 0x8000_0000] {
                put(vec![kernel(9), number_attr(AId::Divisor, f32::from_bits(b | sign))]);
                // a sum of so many bits, rounded to millionths
                put(vec![order(1.0, 1.0), list_attr(AId::KernelMatrix, &[b | sign])]);
            }
        }
        for n in [
            4e-7f32, 4.9e-7, 5e-7, 5.1e-7, 6e-7, 1.4e-6, 1.5e-6, 1.6e-6, 1e-3, 8388.607, 8388.608, 8388.609, 16777.216,
            1e30, 3e38,
        ] {
            for n in [n, -n] {
                put(vec![order(1.0, 1.0), list_attr(AId::KernelMatrix, &[bits(n)])]);
                put(vec![order(2.0, 1.0), list_attr(AId::KernelMatrix, &[bits(n), bits(n)])]);
                put(vec![order(2.0, 1.0), list_attr(AId::KernelMatrix, &[bits(n), bits(-n)])]);
            }
        }
    }

    /// Octaves that end in a half and the f32 on either side: small ones, and those next to powers of two up to 2^23, which is whole; then what lies
    /// around 2^32. With either sign. Fewer than two hundred, so all of them are stored.
    fn octaves(&mut self) {
        let small = (0..9).map(|n| n as f32 + 0.5);
        let powers =
            [4, 6, 8, 10, 12, 16, 20, 21, 22, 23].into_iter().flat_map(|k| [-0.5, 0.5].map(|h| (1 << k) as f32 + h));
        let halves = small.chain(powers).map(f32::to_bits).flat_map(|b| [b - 1, b, b + 1]);
        let others = [0, 1, 0x007f_ffff, 0x0080_0000, 0x4f7f_ffff, 0x4f80_0000, 0x4f80_0001, 0x7f7f_ffff];
        for b in halves.chain(others) {
            for sign in [0, 0x8000_0000] {
                let n = number_attr(AId::NumOctaves, f32::from_bits(sign | b));
                self.add("octaves", Sheet::plain(vec![with(fe(EId::FeTurbulence), [n])]));
            }
        }
    }

    /// Cases P1 to P11 and the example of the paper.
    fn cases(&mut self) {
        let tile = |attrs: Vec<Attr>| with(fe(EId::FeTile), attrs);
        let mut put = |nodes: Vec<Node>| self.add("the paper's cases", Sheet::plain(nodes));
        put(vec![tile(vec![])]);
        put(vec![tile(vec![text_attr(AId::In, "a")])]);
        put(vec![tile(vec![]), tile(vec![]), tile(vec![text_attr(AId::In, "result1")])]);
        put(vec![tile(vec![text_attr(AId::Result, "result2")]), tile(vec![])]);
        put(vec![with(fe(EId::FeGaussianBlur), [tries_attr(AId::StdDeviation, &[1f64, 2.0, 3.0].map(f64::to_bits))])]);
        for b in [0x4300_0000, 0x4300_0001] {
            let n = with(fe(EId::FeSpecularLighting), [number_attr(AId::SpecularExponent, f32::from_bits(b))]);
            put(vec![n, below(EId::FeDistantLight)]);
        }
        let nine = || list_attr(AId::KernelMatrix, &[bits(1.0); 9]);
        put(vec![with(fe(EId::FeConvolveMatrix), [nine(), tries_attr(AId::Order, &[2f64.to_bits(), 0])])]);
        for t in [-0.5, 3.0] {
            let order = tries_attr(AId::Order, &[3f64.to_bits()]);
            put(vec![with(fe(EId::FeConvolveMatrix), [nine(), order, number_attr(AId::TargetX, t)])]);
        }
        for n in [2.5, -0.0] {
            put(vec![with(fe(EId::FeTurbulence), [number_attr(AId::NumOctaves, n)])]);
        }
        for n in [-1.9, 3e9] {
            put(vec![with(fe(EId::FeTurbulence), [number_attr(AId::Seed, n)])]);
        }
        for n in [0.0, -1.0] {
            put(vec![with(fe(EId::FeMorphology), [list_attr(AId::Radius, &[bits(n), bits(5.0)])])]);
        }
        let quarter = [length_attr(AId::X, 0, 0.25f64.to_bits()), length_attr(AId::Width, 0, 0.5f64.to_bits())];
        let mut s = Sheet::plain(vec![with(fe(EId::FeTile), quarter)]);
        s.units = [0, 1];
        s.set_box([0.0, 0.0, 8.0, 8.0]);
        s.set_region([0.0, 0.0, 4.0, 4.0]);
        self.add("the paper's cases", s);
    }
}

/// `result` and a number: small ones, and those next to another length, to 2^32 and to 2^64; then what is nearly such a name. The bytes next to the digits would be
/// worth 10 or 20.
fn numbered() -> Vec<String> {
    let numbers = [0, 1, 2, 3, 4, 9, 10, 11, 1 << 32, 1 << 64].into_iter().flat_map(|n: u128| match n {
        0..=11 => vec![n],
        _ => vec![n - 1, n, n + 1, n + 2],
    });
    let digits = numbers.chain([999_999_999, 1_000_000_000, 9_999_999_999, 10_000_000_000]).map(|n| n.to_string());
    let zeros = [2, 3, 9, 10, 11, 20].map(|n| format!("{:0>n$}", 1));
    let others = [
        "", "00", "+1", "-1", " 1", "1 ", "1.", "1e0", "0x1", "1a", "/", ":", "1/", "1:", "/1", ":1", "\u{661}", "\0",
        "1\0",
    ];
    let behind = digits.chain(zeros).chain(others.map(String::from)).map(|d| format!("result{}", d));
    behind.chain(["4", "esult4", "Result4", "resulT4", "1234564", "result4result4"].map(String::from)).collect()
}

/// Sheets with many made names, each with what it is: unnamed children; the same after explicit names that none of them has to skip, and after ones that the
/// first of them has to skip; and children that all read one made name.
pub fn by_the_hundred() -> [(&'static str, Sheet); 4] {
    let unnamed = |n: usize| vec![fe(EId::FeTile); n];
    let after = |from: usize| {
        let explicit =
            (from..from + 212).map(|k| with(fe(EId::FeTile), [text_attr(AId::Result, &format!("result{}", k))]));
        explicit.chain(unnamed(300)).collect()
    };
    let reading = with(fe(EId::FeTile), [text_attr(AId::In, "result400")]);
    [
        ("300 unnamed", Sheet::plain(unnamed(300))),
        ("300 unnamed after `result1` to `result212`", Sheet::plain(after(1))),
        ("300 unnamed after `result213` to `result424`", Sheet::plain(after(213))),
        ("512 that read `result400`", Sheet::plain(vec![reading; 512])),
    ]
}

/// A feTile with an attribute, or a feMergeNode below a feMerge.
pub fn on(depth: u8, a: Attr) -> Sheet {
    Sheet::plain(if depth == 0 {
        vec![with(fe(EId::FeTile), [a])]
    } else {
        vec![fe(EId::FeMerge), with(below(EId::FeMergeNode), [a])]
    })
}

pub fn corners() -> Vec<Corner> {
    let mut c = Corners(Vec::new());
    c.cases();
    c.sizes();
    c.texts();
    c.lists();
    c.ids();
    c.header();
    c.numbers();
    c.words();
    c.naming();
    c.numbered_names();
    c.kernels();
    c.octaves();
    c.0.append(&mut crate::box_corners::corners());
    c.0.append(&mut crate::typed_corners::corners());
    c.0
}
