//! One rule broken at a time. Each rule has a name and the number that a sheet without other faults gets for it.

use oracle::{AIDS, AId, EIDS, EId, kind_of};

use crate::generate::{Generator, length_attr, list_attr, number_attr, text_attr, typed_attr};
use crate::model::{Attr, Node, Sheet, tag};
use crate::rng::Rng;
use crate::texts::{BEYOND, NO_ITEMS, any_list};
use crate::values::{NOT_FINITE, NOT_FINITE_64, NOT_UTF8, le32};

pub struct Rule {
    pub name: &'static str,
    pub number: u8,
    pub break_it: fn(&mut Sheet, &mut Rng),
}

// ---- places to damage

/// Some node; a feTile is added where there is none.
fn node(s: &mut Sheet, rng: &mut Rng) -> usize {
    if s.nodes.is_empty() {
        s.nodes.push(Node::fe(EId::FeTile));
    }
    rng.below(s.nodes.len())
}

/// Some node with a tag, of one depth or any; one is added at the end where there is none.
fn tagged(s: &mut Sheet, rng: &mut Rng, depth: Option<u8>) -> usize {
    let fit: Vec<usize> =
        (0..s.nodes.len()).filter(|i| s.nodes[*i].tag != 0 && depth.is_none_or(|d| s.nodes[*i].depth == d)).collect();
    if !fit.is_empty() {
        return *rng.pick(&fit);
    }
    s.nodes.push(Node::fe(EId::FeMerge));
    if depth == Some(1) {
        s.nodes.push(Node::new(1, tag(EId::FeMergeNode)));
    }
    s.nodes.len() - 1
}

/// The kind that an id asks where it may come as this kind: typed lists stand in the place of lists.
fn asked(kind: u8) -> u8 {
    if kind == 7 { 3 } else { kind }
}

/// An attribute of a kind, sound as yet, on some node: node, place among its attributes.
fn attribute(s: &mut Sheet, rng: &mut Rng, kind: u8) -> (usize, usize) {
    let n = tagged(s, rng, if asked(kind) > 3 { Some(0) } else { None });
    let depth = s.nodes[n].depth;
    let ids: Vec<AId> = AIDS.iter().copied().filter(|id| kind_of(depth, *id) == Some(asked(kind))).collect();
    let id = *rng.pick(&ids);
    let a = Generator::new(rng, false).any_value(id, kind);
    s.nodes[n].set(a);
    let at = s.nodes[n].attrs.iter().position(|a| a.id == id as u16).unwrap();
    (n, at)
}

fn with_value(s: &mut Sheet, rng: &mut Rng, kind: u8, change: impl FnOnce(&mut Vec<u8>, &mut Rng)) {
    let (n, a) = attribute(s, rng, kind);
    change(&mut s.nodes[n].attrs[a].value, rng);
}

/// The value gets another length than its kind asks.
fn resized(s: &mut Sheet, rng: &mut Rng, kind: u8, lengths: &[usize]) {
    with_value(s, rng, kind, |v, rng| v.resize(*rng.pick(lengths), 0));
}

/// Some typed list gets this text.
fn typed(s: &mut Sheet, rng: &mut Rng, text: &[u8]) {
    with_value(s, rng, 7, |v, _| *v = text.to_vec());
}

/// This item among sound ones.
fn among(rng: &mut Rng, item: &[u8]) -> Vec<u8> {
    let (before, behind) = (any_list(rng, 3), any_list(rng, 3));
    [&before[..], b" ", item, b"\n", &behind].concat()
}

/// A text with an item outside the grammar.
fn outside(rng: &mut Rng) -> Vec<u8> {
    let item = *rng.pick(NO_ITEMS);
    among(rng, item)
}

/// A text with an item beyond the limits.
fn beyond(rng: &mut Rng) -> Vec<u8> {
    let item = rng.pick(BEYOND).as_bytes();
    among(rng, item)
}

/// Puts a node at the end, with a typed list of this text that it may have.
fn typed_behind(s: &mut Sheet, rng: &mut Rng, text: &[u8]) {
    s.nodes.push(Node::fe(*rng.pick(&[
        EId::FeTile,
        EId::FeMorphology,
        EId::FeColorMatrix,
        EId::FeComponentTransfer,
        EId::G,
    ])));
    let id = if rng.percent(50) {
        *rng.pick(&[AId::Values, AId::KernelMatrix, AId::Radius, AId::BaseFrequency])
    } else {
        s.nodes.push(Node::new(1, *rng.pick(&[tag(EId::FeFuncR), tag(EId::FeMergeNode)])));
        AId::TableValues
    };
    s.nodes.last_mut().unwrap().set(typed_attr(id, text));
}

/// Puts such a node before all others.
fn typed_before(s: &mut Sheet, rng: &mut Rng, text: &[u8]) {
    let id = *rng.pick(&[AId::Values, AId::KernelMatrix, AId::Radius, AId::BaseFrequency]);
    s.nodes.insert(0, with(Node::fe(*rng.pick(&[EId::FeTile, EId::FeTurbulence, EId::G])), typed_attr(id, text)));
}

/// So many items, each a digit.
fn digits(rng: &mut Rng, count: usize) -> Vec<u8> {
    let between = *rng.pick(b" ,\t\n\r");
    let mut t: Vec<u8> = (0..count).flat_map(|i| [b'0' + (i % 10) as u8, between]).collect();
    t.pop();
    t
}

fn not_in(rng: &mut Rng, good: &[u8]) -> u8 {
    loop {
        let b = if rng.percent(50) { rng.next() as u8 } else { rng.below(16) as u8 };
        if !good.contains(&b) {
            return b;
        }
    }
}

fn bad32(rng: &mut Rng) -> u32 {
    *rng.pick(NOT_FINITE)
}

fn bits_of(s: &Sheet) -> usize {
    s.bytes().len()
}

/// A sheet that stops at a number of its own after 1 to 4.
fn rebuilt(s: &mut Sheet, nodes: Vec<Node>) {
    *s = Sheet { nodes, ..Sheet::plain(Vec::new()) };
}

fn boxed(s: &mut Sheet, units: [u8; 2], b: [f32; 4], region: [f64; 4], nodes: Vec<Node>) {
    rebuilt(s, nodes);
    s.units = units;
    s.set_box(b);
    s.set_region(region);
}

fn with(mut n: Node, a: Attr) -> Node {
    n.set(a);
    n
}

fn tile() -> Node {
    Node::fe(EId::FeTile)
}

fn wide(e: EId, width: f64) -> Node {
    with(Node::fe(e), length_attr(AId::Width, 0, width.to_bits()))
}

const BIG: [f32; 4] = [0.0, 0.0, 3e38, 3e38];

macro_rules! rules {
    ($($number:literal $name:literal |$s:ident, $rng:ident| $body:block)*) => {
        pub static RULES: &[Rule] = &[
            $(Rule {
                name: $name,
                number: $number,
                break_it: |$s: &mut Sheet, $rng: &mut Rng| $body,
            },)*
        ];
    };
}

rules! {
    // ---- 1
    1 "sheet over 65,536 bytes, by a tail" |s, rng| {
        let over = *rng.pick(&[65_537usize, 65_538, 70_000, 131_072]);
        let now = bits_of(s);
        s.tail = vec![rng.next() as u8; over.saturating_sub(now)];
    }
    1 "node count over 512" |s, rng| { s.count = Some(*rng.pick(&[513, 514, 768, 1024, 65_535, 0x8001])); }
    1 "513 nodes, all there" |s, _rng| {
        s.nodes.truncate(2);
        while s.nodes.len() < 513 { s.nodes.push(tile()); }
    }
    // ---- 2, header
    2 "filterUnits above 2" |s, rng| { s.units[0] = not_in(rng, &[0, 1, 2]); }
    2 "primitiveUnits above 2" |s, rng| { s.units[1] = not_in(rng, &[0, 1, 2]); }
    2 "box flag above 1" |s, rng| { s.has_box = not_in(rng, &[0, 1]); }
    2 "header zero byte" |s, rng| { s.zero = not_in(rng, &[0]); }
    2 "bits of an absent box" |s, rng| {
        s.has_box = 0;
        s.object_box = [0; 4];
        s.object_box[rng.below(4)] = 1 << rng.below(32);
    }
    2 "header unit 10 to 254" |s, rng| {
        let unit = not_in(rng, &[0, 1, 2, 3, 4, 5, 6, 7, 8, 9, 255]);
        s.lengths[rng.below(4)].0 = unit;
    }
    2 "header unit 255 with bits" |s, rng| { s.lengths[rng.below(4)] = (255, 1 << rng.below(64)); }
    // ---- 2, extent
    2 "under 74 bytes" |s, rng| { s.keep = Some(rng.below(74)); }
    2 "sheet cut" |s, rng| {
        node(s, rng);
        let n = bits_of(s);
        s.keep = Some(if rng.percent(50) { n - 1 } else { rng.within(74, n as i64 - 1) as usize });
    }
    2 "sheet with a tail" |s, rng| { s.tail = vec![rng.next() as u8; 1 + rng.below(12)]; }
    2 "node count too high" |s, _rng| { s.count = Some(s.nodes.len() as u16 + 1); }
    2 "node count too low" |s, rng| {
        node(s, rng);
        s.count = Some(rng.below(s.nodes.len()) as u16);
    }
    2 "no nodes, and a tail" |s, rng| {
        s.nodes.clear();
        s.tail = vec![0; 1 + rng.below(20)];
    }
    // ---- 2, pairs
    2 "offset off by a little" |s, rng| {
        let n = node(s, rng);
        s.nodes[n].offset_error = *rng.pick(&[1, 8, u32::MAX, 4, u32::MAX - 7]);
    }
    2 "offset off by 2^16 or more" |s, rng| {
        let n = node(s, rng);
        s.nodes[n].offset_error = 1 << rng.within(16, 31);
    }
    2 "length off by a little" |s, rng| {
        let n = node(s, rng);
        s.nodes[n].length_error = *rng.pick(&[1, 2, 6, u32::MAX, u32::MAX - 5]);
    }
    2 "length off by 2^16 or more" |s, rng| {
        let n = node(s, rng);
        s.nodes[n].length_error = 1 << rng.within(16, 31);
    }
    2 "offset and length past 2^32" |s, rng| {
        // their sum is right in 32 bits
        let n = node(s, rng);
        let by = rng.next() as u32 | 1 << 20;
        s.nodes[n].offset_error = by;
        s.nodes[n].length_error = by.wrapping_neg();
    }
    2 "two pairs swapped" |s, rng| {
        let n = node(s, rng);
        if n + 1 == s.nodes.len() { s.nodes.push(tile()); }
        let (a, b) = (s.nodes[n].record().len() as u32, s.nodes[n + 1].record().len() as u32);
        s.nodes[n].offset_error = a;
        s.nodes[n].length_error = b.wrapping_sub(a);
        s.nodes[n + 1].offset_error = a.wrapping_neg();
        s.nodes[n + 1].length_error = a.wrapping_sub(b);
    }
    2 "a gap before a record" |s, rng| {
        let n = node(s, rng);
        s.nodes[n].gap = vec![0; 1 + rng.below(8)];
    }
    2 "records that overlap" |s, rng| {
        if s.nodes.len() < 2 { s.nodes = vec![tile(), tile()]; }
        let n = 1 + rng.below(s.nodes.len() - 1);
        s.nodes[n].offset_error = u32::MAX;
        s.nodes[n].length_error = 1;
    }
    // ---- 2, nodes
    2 "depth above 1" |s, rng| {
        let n = node(s, rng);
        s.nodes[n].depth = not_in(rng, &[0, 1]);
    }
    2 "first node of depth 1" |s, _rng| { s.nodes.insert(0, Node::new(1, tag(EId::FeMergeNode))); }
    2 "child of a node without a tag" |s, rng| {
        s.nodes.push(Node::new(0, 0));
        s.nodes.push(Node::new(1, *rng.pick(&[0, tag(EId::FeMergeNode)])));
    }
    2 "tag past EId" |s, rng| {
        let n = tagged(s, rng, None);
        let first = EIDS.len() as i64 + 1;
        let any = rng.within(first, 255) as u8;
        s.nodes[n].tag = *rng.pick(&[first as u8, 255, any]);
    }
    2 "attributes without a tag" |s, rng| {
        s.nodes.push(with(Node::new(0, 0), text_attr(AId::In, "a")));
        if rng.percent(50) {
            // the count alone
            let n = s.nodes.last_mut().unwrap();
            n.attrs.clear();
            n.count = Some(1);
        }
    }
    2 "node zero byte" |s, rng| {
        let n = node(s, rng);
        s.nodes[n].zero = not_in(rng, &[0]);
    }
    2 "attribute count off by one" |s, rng| {
        let (n, _) = attribute(s, rng, 2);
        let count = s.nodes[n].attrs.len() as u8;
        s.nodes[n].count = Some(if rng.percent(50) { count + 1 } else { count - 1 });
    }
    2 "record under 8 bytes" |s, rng| {
        let n = node(s, rng);
        s.nodes[n].keep = Some(rng.below(8));
    }
    2 "record with a tail" |s, rng| {
        let n = node(s, rng);
        s.nodes[n].tail = vec![0; 1 + rng.below(8)];
    }
    2 "record cut" |s, rng| {
        let (n, _) = attribute(s, rng, 2);
        let whole = s.nodes[n].record().len();
        s.nodes[n].keep = Some(rng.within(8, whole as i64 - 1) as usize);
    }
    // ---- 2, attributes
    2 "ids not rising" |s, rng| {
        let (n, _) = attribute(s, rng, 1);
        if s.nodes[n].attrs.len() < 2 {
            let more = if s.nodes[n].attrs[0].id == AId::In as u16 { AId::Type } else { AId::In };
            s.nodes[n].set(text_attr(more, "a"));
        }
        let i = rng.below(s.nodes[n].attrs.len() - 1);
        s.nodes[n].attrs.swap(i, i + 1);
    }
    2 "id twice" |s, rng| {
        let kind = rng.within(1, 7) as u8;
        let (n, a) = attribute(s, rng, kind);
        let again = s.nodes[n].attrs[a].clone();
        s.nodes[n].attrs.insert(a, again);
    }
    2 "id past AId" |s, rng| {
        let n = tagged(s, rng, None);
        let id = *rng.pick(&[AIDS.len() as u16, 255, 256, 511, 512, 0xffff, AIDS.len() as u16 + 256]);
        s.nodes[n].set(Attr::new(id, *rng.pick(&[0, 1, 2]), Vec::new()));
    }
    2 "id not read at its depth" |s, rng| {
        let n = tagged(s, rng, None);
        let depth = s.nodes[n].depth;
        let ids: Vec<AId> = AIDS.iter().copied().filter(|id| kind_of(depth, *id).is_none()).collect();
        let id = *rng.pick(&ids);
        // with a value that would do at the other depth
        let kind = kind_of(1 - depth, id).unwrap_or(*rng.pick(&[0, 1, 2]));
        let a = if kind == 0 { Attr::new(id as u16, 0, Vec::new()) } else { Generator::new(rng, false).any_value(id, kind) };
        s.nodes[n].set(a);
    }
    2 "id of feImage" |s, rng| {
        s.nodes.push(with(Node::fe(EId::FeImage), text_attr(
            *rng.pick(&[AId::Href, AId::ImageRendering, AId::PreserveAspectRatio]), "a")));
    }
    2 "kind of another id" |s, rng| {
        let kind = rng.within(1, 6) as u8;
        let other = 1 + (kind + rng.below(5) as u8) % 6;
        let (n, a) = attribute(s, rng, kind);
        let id = s.nodes[n].attrs[a].id;
        let fresh = Generator::new(rng, false).any_value(AIDS[id as usize], other);
        let current = other == 1 && id == AId::LightingColor as u16 && fresh.value == b"currentColor";
        s.nodes[n].attrs[a] = if current { text_attr(AId::LightingColor, "x") } else { fresh };
    }
    2 "kind above 7" |s, rng| {
        let kind = rng.within(1, 7) as u8;
        let (n, a) = attribute(s, rng, kind);
        s.nodes[n].attrs[a].kind = not_in(rng, &[0, 1, 2, 3, 4, 5, 6, 7]);
    }
    2 "text as kind 0" |s, rng| {
        let (n, a) = attribute(s, rng, 1);
        s.nodes[n].attrs[a].kind = 0;
        s.nodes[n].attrs[a].value.clear();
    }
    2 "kind 0 with bytes" |s, rng| {
        let kind = rng.within(2, 6) as u8;
        let (n, a) = attribute(s, rng, kind);
        s.nodes[n].attrs[a].kind = 0;
        s.nodes[n].attrs[a].value = vec![0; 1 + rng.below(6)];
    }
    2 "attribute zero byte" |s, rng| {
        let kind = rng.within(1, 7) as u8;
        let (n, a) = attribute(s, rng, kind);
        s.nodes[n].attrs[a].zero = not_in(rng, &[0]);
    }
    2 "attribute past its record" |s, rng| {
        let n = tagged(s, rng, None);
        let id = AId::Type as u16;
        s.nodes[n].attrs.retain(|a| a.id < id);
        s.nodes[n].set(text_attr(AId::Type, "table"));
        s.nodes[n].attrs.last_mut().unwrap().length = Some(*rng.pick(&[6, 7, 255, 0xffff]));
    }
    2 "attribute length off by one" |s, rng| {
        let kind = rng.within(2, 7) as u8;
        let (n, a) = attribute(s, rng, kind);
        let length = s.nodes[n].attrs[a].value.len() as u16;
        s.nodes[n].attrs[a].length = Some(length.wrapping_add(*rng.pick(&[1, 0xffff])));
    }
    2 "text over 255 bytes" |s, rng| {
        with_value(s, rng, 1, |v, rng| *v = vec![b'a'; *rng.pick(&[256, 257, 300, 511, 512])]);
    }
    2 "text of 256 bytes in UTF-8" |s, rng| {
        with_value(s, rng, 1, |v, rng| {
            *v = vec![b'a'; 253 + rng.below(2)];
            v.extend("é".bytes());
            v.resize(256, b'a');
        });
    }
    2 "text not UTF-8" |s, rng| {
        with_value(s, rng, 1, |v, rng| {
            let bad = *rng.pick(NOT_UTF8);
            v.clear();
            if rng.percent(30) { v.extend("aé".bytes()); }
            v.extend(bad);
            // a text cut off is bad only at the end or before a character
            if rng.percent(30) { v.push(b'b'); }
        });
    }
    2 "number not of 4 bytes" |s, rng| { resized(s, rng, 2, &[0, 1, 3, 5, 8]); }
    2 "list not of whole numbers" |s, rng| { resized(s, rng, 3, &[1, 2, 3, 5, 79, 81]); }
    2 "list over 1,024" |s, rng| { resized(s, rng, 3, &[4100, 4104, 8192]); }
    2 "length not of 9 bytes" |s, rng| { resized(s, rng, 4, &[0, 1, 8, 10, 18]); }
    2 "length with unit 10 to 254" |s, rng| {
        with_value(s, rng, 4, |v, rng| v[0] = not_in(rng, &[0, 1, 2, 3, 4, 5, 6, 7, 8, 9, 255]));
    }
    2 "length with unit 255" |s, rng| {
        with_value(s, rng, 4, |v, rng| {
            v[0] = 255;
            if rng.percent(70) { v[1..].fill(0); }
        });
    }
    2 "colour not of 4 bytes" |s, rng| { resized(s, rng, 5, &[0, 3, 5, 8]); }
    2 "tries not of 27 bytes" |s, rng| { resized(s, rng, 6, &[0, 9, 18, 26, 28, 36]); }
    2 "try above 1" |s, rng| { with_value(s, rng, 6, |v, rng| v[9 * rng.below(3)] = not_in(rng, &[0, 1])); }
    2 "bits after a failed try" |s, rng| {
        with_value(s, rng, 6, |v, rng| {
            v.fill(0);
            let ok = rng.below(3);
            for i in 0..ok { v[9 * i] = 1; }
            v[9 * ok + 1 + rng.below(8)] = 1 << rng.below(8);
        });
    }
    2 "a try after a failed one" |s, rng| {
        with_value(s, rng, 6, |v, rng| {
            v.fill(0);
            match rng.below(3) {
                0 => v[9] = 1,
                1 => v[18] = 1,
                _ => { v[0] = 1; v[18] = 1; }
            }
        });
    }
    2 "lighting-color of other text" |s, rng| {
        let n = tagged(s, rng, Some(0));
        s.nodes[n].set(text_attr(AId::LightingColor, *rng.pick(
            &["white", "", "currentcolor", "currentColo", "currentColor ", "CurrentColor", "currentColorcurrentColor"])));
    }
    2 "flood-color or color as text" |s, rng| {
        let n = tagged(s, rng, Some(0));
        s.nodes[n].set(text_attr(*rng.pick(&[AId::FloodColor, AId::Color]), "currentColor"));
    }
    // ---- 2, typed lists
    2 "typed list over 4,096 bytes" |s, rng| {
        let mut t = any_list(rng, 5);
        t.resize(*rng.pick(&[4097, 4098, 4099, 5000, 8192]), b' ');
        if rng.percent(30) { t.rotate_right(4000); }
        typed(s, rng, &t);
    }
    2 "typed list over 4,096 bytes, outside the grammar" |s, rng| {
        let b = *rng.pick(b"\0,a\xff");
        typed(s, rng, &[b; 4097]);
    }
    2 "typed list under an id of another kind" |s, rng| {
        let kind = *rng.pick(&[1, 2, 4, 5, 6]);
        let (n, a) = attribute(s, rng, kind);
        s.nodes[n].attrs[a].kind = 7;
        s.nodes[n].attrs[a].value = rng.pick(&[&b""[..], b"1", b"1 2", b"true", b"currentColor", b"1.", b"1e23"]).to_vec();
    }
    2 "typed list at the other depth" |s, rng| {
        let depth = rng.below(2) as u8;
        let n = tagged(s, rng, Some(depth));
        let id = if depth == 0 {
            AId::TableValues
        } else {
            *rng.pick(&[AId::Values, AId::KernelMatrix, AId::Radius, AId::BaseFrequency])
        };
        s.nodes[n].set(typed_attr(id, rng.pick(&["", "1", "1 2", "1.", "1e23"]).as_bytes()));
    }
    2 "layout broken behind a typed list that is 10 or 11" |s, rng| {
        let t = if rng.percent(50) { outside(rng) } else { beyond(rng) };
        typed_before(s, rng, &t);
        s.nodes.push(Node::new(0, 0));
        s.nodes.last_mut().unwrap().zero = 1;
    }
    1 "sheet over 65,536 bytes, with a typed list that is 10 or 11" |s, rng| {
        let t = if rng.percent(50) { outside(rng) } else { beyond(rng) };
        typed_before(s, rng, &t);
        s.tail = vec![0; 65_537usize.saturating_sub(bits_of(s))];
    }
    // ---- 10
    10 "typed list outside the grammar" |s, rng| {
        let t = outside(rng);
        typed(s, rng, &t);
    }
    10 "typed list, one item outside the grammar" |s, rng| {
        let item = *rng.pick(NO_ITEMS);
        typed(s, rng, item);
    }
    10 "typed list that begins or ends with a comma" |s, rng| {
        let mut t = any_list(rng, 4);
        let at = if rng.percent(50) { 0 } else { t.len() };
        t.insert(at, b',');
        typed(s, rng, &t);
    }
    10 "typed list with a byte that no item has" |s, rng| {
        let b = not_in(rng, b"0123456789+-.eE, \t\n\r");
        let mut t = any_list(rng, 4);
        let at = rng.below(t.len() + 1);
        t.insert(at, b);
        typed(s, rng, &t);
    }
    10 "typed list not UTF-8" |s, rng| {
        let bad = *rng.pick(NOT_UTF8);
        let t = if rng.percent(50) { among(rng, bad) } else { [b"1", bad].concat() };
        typed(s, rng, &t);
    }
    10 "typed list over 1,024 items" |s, rng| {
        let count = *rng.pick(&[1025, 1026, 1100, 2048]);
        let t = digits(rng, count);
        typed(s, rng, &t);
    }
    10 "typed list over 1,024 items, some beyond the limits" |s, rng| {
        let mut t = digits(rng, 1025);
        t.extend(b" 1e23");
        typed(s, rng, &t);
    }
    10 "10 behind 11 in one typed list" |s, rng| {
        let mut t = beyond(rng);
        t.push(b' ');
        t.extend(outside(rng));
        typed(s, rng, &t);
    }
    10 "11 behind 10 in one typed list" |s, rng| {
        let mut t = outside(rng);
        t.push(b' ');
        t.extend(beyond(rng));
        typed(s, rng, &t);
    }
    10 "10 in a later typed list than 11" |s, rng| {
        let (first, later) = (beyond(rng), outside(rng));
        typed_before(s, rng, &first);
        typed_behind(s, rng, &later);
    }
    10 "10 in an earlier typed list than 11" |s, rng| {
        let (first, later) = (outside(rng), beyond(rng));
        typed_before(s, rng, &first);
        typed_behind(s, rng, &later);
    }
    10 "10 and a number not finite" |s, rng| {
        let t = outside(rng);
        typed_behind(s, rng, &t);
        if rng.percent(50) { s.dpi = bad32(rng); } else { s.nodes[0].font_size = bad32(rng); }
    }
    10 "10 and feImage" |s, rng| {
        let t = outside(rng);
        if rng.percent(50) { s.nodes.insert(0, Node::fe(EId::FeImage)); } else { s.nodes.push(Node::fe(EId::FeImage)); }
        typed_behind(s, rng, &t);
    }
    10 "10 and no filter rectangle" |s, rng| {
        let t = outside(rng);
        typed(s, rng, &t);
        s.units[0] = 0;
        s.lengths[2] = (0, 0);
    }
    10 "10 behind the end of the chain" |s, rng| {
        let t = outside(rng);
        s.nodes.push(wide(EId::FeTile, 0.0));
        typed_behind(s, rng, &t);
    }
    // ---- 11
    11 "typed list beyond the limits" |s, rng| {
        let t = beyond(rng);
        typed(s, rng, &t);
    }
    11 "typed list of more than 15 digits" |s, rng| {
        let mut item = vec![b'0'; rng.below(5)];
        item.push(b'1' + rng.below(9) as u8);
        item.resize(item.len() + rng.within(15, 40) as usize, b'0' + rng.below(10) as u8);
        // a point anywhere, and the power stays within 22
        if rng.percent(60) {
            let decimals = rng.below(item.len() + 1).min(22);
            item.insert(item.len() - decimals, b'.');
            if decimals == 0 { item.push(b'0'); }
        }
        let t = among(rng, &item);
        typed(s, rng, &t);
    }
    11 "typed list with a power outside −22 to 22" |s, rng| {
        let decimals = rng.below(30);
        let power = *rng.pick(&[23, 24, -23, -24, 38, -45, 308, -308, 100_000]);
        let mut item = rng.below(10).to_string();
        if decimals > 0 { item = format!("{}.{}", item, "0".repeat(decimals)); }
        item = format!("{}e{}", item, power + decimals as i64);
        let t = among(rng, item.as_bytes());
        typed(s, rng, &t);
    }
    11 "11 and a list with a number not finite" |s, rng| {
        let t = beyond(rng);
        typed_behind(s, rng, &t);
        let n = if rng.percent(50) { 0 } else { s.nodes.len() };
        let list = list_attr(AId::Values, &[0x3f80_0000, bad32(rng)]);
        s.nodes.insert(n, with(tile(), list));
    }
    11 "11 and another number not finite" |s, rng| {
        let t = beyond(rng);
        typed_behind(s, rng, &t);
        if rng.percent(50) { s.view_box[0] = bad32(rng); } else { s.nodes[0].font_size = bad32(rng); }
    }
    11 "11 and feImage" |s, rng| {
        let t = beyond(rng);
        if rng.percent(50) { s.nodes.insert(0, Node::fe(EId::FeImage)); } else { s.nodes.push(Node::fe(EId::FeImage)); }
        typed_behind(s, rng, &t);
    }
    11 "11 and filter in box units without a box" |s, rng| {
        let t = beyond(rng);
        typed(s, rng, &t);
        s.units[0] = 1;
        s.has_box = 0;
        s.object_box = [0; 4];
    }
    11 "11 behind the end of the chain" |s, rng| {
        let t = beyond(rng);
        s.nodes.push(wide(EId::FeTile, 0.0));
        typed_behind(s, rng, &t);
    }
    // ---- 3
    3 "a number not finite, and typed lists that pass" |s, rng| {
        let t = any_list(rng, 20);
        typed_behind(s, rng, &t);
        s.dpi = bad32(rng);
    }
    3 "box not finite" |s, rng| {
        if s.has_box == 0 { s.set_box([0.0, 0.0, 1.0, 1.0]); }
        s.object_box[rng.below(4)] = bad32(rng);
    }
    3 "box no rectangle" |s, rng| {
        s.set_box(*rng.pick(&[
            [0.0, 0.0, 0.0, 1.0], [0.0, 0.0, 1.0, -0.0], [0.0, 0.0, -1.0, 1.0], [1e10, 0.0, 1.0, 1.0],
            [3e38, 0.0, 3e38, 1.0], [0.0, 0.0, f32::MAX, 1.0], [0.0, 1.0, 1.0, 1e-30],
        ]));
    }
    3 "view box size not above 0, or the largest" |s, rng| {
        s.view_box[rng.below(2)] = *rng.pick(&[0, 0x8000_0000, 0xbf80_0000, 0x8000_0001, 0x7f7f_ffff, 0xff7f_ffff]);
    }
    3 "view box size not finite" |s, rng| { s.view_box[rng.below(2)] = bad32(rng); }
    3 "dpi not above 0" |s, rng| { s.dpi = *rng.pick(&[0, 0x8000_0000, 0xc2c0_0000, 0x8000_0001]); }
    3 "dpi not finite" |s, rng| { s.dpi = bad32(rng); }
    3 "header font size below 0" |s, rng| { s.font_size = *rng.pick(&[0x8000_0001, 0xbf80_0000, 0xff7f_ffff]); }
    3 "header font size not finite" |s, rng| { s.font_size = bad32(rng); }
    3 "header length not finite, or beyond f32" |s, rng| {
        s.lengths[rng.below(4)] = (rng.below(10) as u8, *rng.pick(NOT_FINITE_64));
    }
    3 "font size below 0" |s, rng| {
        let n = node(s, rng);
        s.nodes[n].font_size = *rng.pick(&[0x8000_0001, 0xbf80_0000, 0xff7f_ffff]);
    }
    3 "font size not finite" |s, rng| {
        let n = node(s, rng);
        s.nodes[n].font_size = bad32(rng);
    }
    3 "font size of a node without a tag" |s, rng| {
        s.nodes.push(Node::new(0, 0));
        let bad = bad32(rng);
        s.nodes.last_mut().unwrap().font_size = *rng.pick(&[bad, 0xbf80_0000]);
    }
    3 "number not finite" |s, rng| { with_value(s, rng, 2, |v, rng| *v = le32(bad32(rng))); }
    3 "list with a number not finite" |s, rng| {
        let (n, a) = attribute(s, rng, 3);
        let mut l = vec![0; 1 + rng.below(21)];
        let at = rng.below(l.len());
        l[at] = bad32(rng);
        let id = AIDS[s.nodes[n].attrs[a].id as usize];
        s.nodes[n].attrs[a] = list_attr(id, &l);
    }
    3 "length not finite, or beyond f32" |s, rng| {
        with_value(s, rng, 4, |v, rng| v[1..].copy_from_slice(&rng.pick(NOT_FINITE_64).to_le_bytes()));
    }
    3 "try not finite, or beyond f32" |s, rng| {
        with_value(s, rng, 6, |v, rng| {
            let at = rng.below(3);
            for c in v.chunks_mut(9).take(at + 1) { c[0] = 1; }
            v[9 * at + 1..9 * at + 9].copy_from_slice(&rng.pick(NOT_FINITE_64).to_le_bytes());
        });
    }
    3 "flood-opacity outside 0..1, or −0" |s, rng| {
        let n = tagged(s, rng, Some(0));
        let bits = *rng.pick(&[0x8000_0000, 0x3f80_0001, 0xbf80_0000, 0x8000_0001, 0x7f7f_ffff, 0x4000_0000]);
        s.nodes[n].set(number_attr(AId::FloodOpacity, f32::from_bits(bits)));
    }
    // ---- 4
    4 "feImage" |s, rng| {
        let at = rng.below(s.nodes.len() + 1);
        s.nodes.truncate(at);
        s.nodes.push(Node::fe(EId::FeImage));
    }
    // ---- 5
    5 "region without width or height" |s, rng| {
        let nodes = std::mem::take(&mut s.nodes);
        s.units = [0, *rng.pick(&[0, 2])];
        s.nodes = nodes;
        let at = 2 + rng.below(2);
        s.lengths[at] = (*rng.pick(&[0, 1, 3, 4, 9]), rng.pick(&[0.0f64, -0.0, -5.0]).to_bits());
    }
    5 "region beyond f32" |s, rng| {
        s.units[0] = 0;
        s.lengths = *rng.pick(&[
            [(0, 3e38f64.to_bits()), (0, 0), (0, 3e38f64.to_bits()), (0, 1f64.to_bits())],
            [(0, 2f64.powi(-149).to_bits()), (0, 0), (0, f64::from(f32::MAX).to_bits()), (0, 1f64.to_bits())],
            [(0, 2f64.powi(74).to_bits()), (0, 0), (0, f64::from(f32::MAX).to_bits()), (0, 1f64.to_bits())],
            [(0, 1e20f64.to_bits()), (0, 0), (0, 1f64.to_bits()), (0, 1f64.to_bits())],
        ]);
    }
    5 "filter in box units without a box" |s, rng| {
        s.units[0] = *rng.pick(&[1, 2]);
        s.has_box = 0;
        s.object_box = [0; 4];
    }
    // ---- 6
    6 "the filter rectangle placed beyond f32" |s, rng| {
        let nodes = if rng.percent(30) { Vec::new() } else { std::mem::take(&mut s.nodes) };
        boxed(s, [*rng.pick(&[1, 2]), 0], BIG, [0.0, 0.0, 2.0, 1.0], nodes);
    }
    6 "the filter rectangle placed to nothing" |s, rng| {
        let nodes = std::mem::take(&mut s.nodes);
        boxed(s, [*rng.pick(&[1, 2]), 0], [0.0, 0.0, 1e-30, 1.0], [0.0, 0.0, 1e-30, 1.0], nodes);
    }
    6 "radius product beyond f32" |s, rng| {
        let radii: &[f32] = [&[2.0, 1.0][..], &[1.0, 2.0], &[1e10], &[0.0, 5.0]][rng.below(4)];
        let list = list_attr(AId::Radius, &radii.iter().map(|n| n.to_bits()).collect::<Vec<_>>());
        boxed(s, [0, 1], BIG, [0.0, 0.0, 1.0, 1.0], vec![tile(), with(Node::fe(EId::FeMorphology), list)]);
    }
    6 "displacement sum beyond f32" |s, rng| {
        let scale = number_attr(AId::Scale, *rng.pick(&[0.0, 1.0, -1.0, 1e-38]));
        boxed(s, [0, 1], BIG, [0.0, 0.0, 1.0, 1.0], vec![tile(), with(Node::fe(EId::FeDisplacementMap), scale)]);
    }
    // ---- 8
    8 "primitives in box units without a box" |s, rng| {
        let nodes = std::mem::take(&mut s.nodes);
        rebuilt(s, nodes);
        s.units = [0, 1];
        node(s, rng);
    }
    8 "no nodes" |s, _rng| { rebuilt(s, Vec::new()); }
    8 "only nodes without a tag" |s, rng| { rebuilt(s, vec![Node::new(0, 0); 1 + rng.below(3)]); }
    8 "only unsupported tags" |s, rng| {
        let e = *rng.pick(&[EId::G, EId::FeMergeNode, EId::FeFuncR, EId::FePointLight, EId::Filter, EId::Use, EId::A]);
        rebuilt(s, vec![Node::fe(e), Node::new(1, tag(EId::FeTile))]);
    }
    8 "the chain ended by the first child" |s, rng| {
        let e = *rng.pick(&[EId::FeTile, EId::G, EId::FeFlood]);
        rebuilt(s, vec![wide(e, *rng.pick(&[0.0, -1.0])), tile()]);
    }
    8 "a first subregion in box units beyond f32" |s, rng| {
        let e = *rng.pick(&[EId::FeTile, EId::FeFlood, EId::G, EId::FeTurbulence, EId::FeMergeNode]);
        boxed(s, [0, 1], [0.0, 0.0, 1e30, 1.0], [0.0, 0.0, 2.0, 1.0], vec![wide(e, 1e30), tile()]);
    }
    8 "a first subregion in box units of nothing" |s, rng| {
        let e = *rng.pick(&[EId::FeTile, EId::FeFlood, EId::G, EId::FeTurbulence]);
        boxed(s, [0, 1], [0.0, 0.0, 1e-30, 1.0], [0.0, 0.0, 2.0, 1.0], vec![wide(e, 1e-30), tile()]);
    }
}
