//! Drives the crate: sheet to document, `parser::filter::convert` under
//! catch_unwind, refusals 5 to 8. Refusal 9 is the caller's: the list is given
//! at its full length.

use std::panic::{AssertUnwindSafe, catch_unwind};

use svgtypes::{Angle, Color, FilterValue, Length, LengthUnit};

use crate::encode;
use crate::filter::{Filter, Kind, Primitive};
use crate::octaves::{ends_in_a_half, octaves};
use crate::parser::converter::{Cache, State};
use crate::parser::filter::{convert, create_dummy_primitive};
use crate::parser::svgtree::{AId, Document, EId};
use crate::sheet::{self, Node, Sheet, Value};
use crate::subregion::{self, Edges};
use crate::{NonZeroRect, Options};

/// The private spelling of a value (see stand-ins/svgtypes.rs). None: leave the
/// attribute out.
fn spell(v: &Value, id: AId) -> Option<String> {
    Some(match v {
        // The crate reads these two as text, which it always can read, so
        // "read as absent" has no unreadable form there: leave them out.
        Value::Unreadable if matches!(id, AId::StdDeviation | AId::Order) => return None,
        Value::Unreadable => "#u".to_string(),
        Value::Text(s) => s.clone(),
        Value::Number(n) => format!("#n{:08x}", n.to_bits()),
        Value::List(l) => {
            let mut s = "#l".to_string();
            for n in l {
                s += &format!("{:08x}", n.to_bits());
            }
            s
        }
        Value::Typed(_) => unreachable!("read before 3"),
        Value::Length(u, n) => spell_length(*u, *n),
        Value::Colour(c) => spell_colour(c),
        Value::Tries(t) => {
            let mut s = "#t".to_string();
            for n in t {
                match n {
                    Some(n) => s += &format!("+{:016x}", n.to_bits()),
                    None => s += "-",
                }
            }
            s
        }
    })
}

fn spell_length(unit: u8, n: f64) -> String {
    format!("#L{:02x}{:016x}", unit, n.to_bits())
}

fn spell_colour(c: &[u8; 4]) -> String {
    format!("#c{:02x}{:02x}{:02x}{:02x}", c[0], c[1], c[2], c[3])
}

fn spell_font_size(n: f32) -> (AId, String) {
    (AId::FontSize, spell_length(0, f64::from(n)))
}

const UNITS: [&str; 2] = ["userSpaceOnUse", "objectBoundingBox"];

/// The document: an element that names the filter, the filter, its children.
fn document(s: &Sheet, nodes: &[Node]) -> Document<'static> {
    let mut list = Vec::new();
    list.push((None, Some(EId::G), vec![(AId::Filter, "url(#f)".to_string())]));
    let mut attrs = vec![(AId::Id, "f".to_string()), spell_font_size(s.font_size)];
    for (id, units) in [
        (AId::FilterUnits, s.filter_units),
        (AId::PrimitiveUnits, s.primitive_units),
    ] {
        if units < 2 {
            attrs.push((id, UNITS[units as usize].to_string()));
        }
    }
    for (id, l) in [AId::X, AId::Y, AId::Width, AId::Height].into_iter().zip(s.lengths) {
        if let Some((u, n)) = l {
            attrs.push((id, spell_length(u, n)));
        }
    }
    list.push((None, Some(EId::Filter), attrs));
    let mut last = 0;
    for n in nodes {
        let parent = if n.depth == 0 {
            last = list.len();
            1
        } else {
            last
        };
        let mut attrs: Vec<_> = n
            .attrs
            .iter()
            .filter_map(|(id, v)| Some((*id, spell(v, *id)?)))
            .collect();
        attrs.push(spell_font_size(n.font_size));
        list.push((Some(parent), n.tag, attrs));
    }
    Document::of_plain(list)
}

thread_local! {
    static IN_CRATE: std::cell::Cell<bool> = const { std::cell::Cell::new(false) };
}

pub fn in_crate() -> bool {
    IN_CRATE.get()
}

enum Outcome {
    /// The filter region and the primitives.
    Made(NonZeroRect, Vec<Primitive>),
    /// The crate gave an error; its warnings.
    Error(Vec<String>),
    Panic,
}

/// What one call of the crate needs beside the document.
struct Frame {
    view_box: NonZeroRect,
    box_: Option<NonZeroRect>,
    opt: Options<'static>,
}

impl Frame {
    fn new(view_box: [f32; 2], dpi: f32, box_: Option<NonZeroRect>) -> Frame {
        Frame {
            view_box: NonZeroRect::from_xywh(0.0, 0.0, view_box[0], view_box[1])
                .expect("checked by refusal 3"),
            box_,
            opt: Options {
                dpi,
                // Never used: every element of the document has a font size.
                font_size: f32::NAN,
                image_rendering: Default::default(),
                _life: std::marker::PhantomData,
            },
        }
    }

    fn convert(
        &self,
        doc: &Document<'static>,
        value: FilterValue<'static>,
    ) -> Result<Vec<std::sync::Arc<Filter>>, ()> {
        let state = State {
            parent_clip_path: None,
            parent_markers: Vec::new(),
            context_element: None,
            fe_image_link: false,
            view_box: self.view_box,
            use_size: (None, None),
            opt: &self.opt,
        };
        svgtypes::hand_over(value);
        convert(doc.root_element(), &state, self.box_, &mut Cache::new())
    }
}

fn call(doc: &Document<'static>, frame: &Frame, value: FilterValue<'static>) -> Outcome {
    log::take();
    log::listen(true);
    IN_CRATE.set(true);
    let res = catch_unwind(AssertUnwindSafe(|| frame.convert(doc, value)));
    IN_CRATE.set(false);
    log::listen(false);
    let warnings = log::take();
    match res {
        Err(_) => Outcome::Panic,
        Ok(Err(())) => Outcome::Error(warnings),
        Ok(Ok(filters)) => {
            assert_eq!(filters.len(), 1);
            Outcome::Made(filters[0].rect, filters[0].primitives.clone())
        }
    }
}

fn frame(s: &Sheet) -> Frame {
    let box_ = s
        .box_
        .map(|b| NonZeroRect::from_xywh(b[0], b[1], b[2], b[3]).expect("checked by refusal 3"));
    Frame::new(s.view_box, s.dpi, box_)
}

fn convert_sheet(s: &Sheet, nodes: &[Node]) -> Outcome {
    call(&document(s, nodes), &frame(s), FilterValue::Url("f"))
}

/// The displacement-map rule: is there a feDisplacementMap among these, in box
/// units, with box width + height not finite?
fn bad_displacement(s: &Sheet, made: &[Primitive]) -> bool {
    let Some(b) = s.box_ else { return false };
    if s.primitive_units != 1 {
        return false;
    }
    let size = NonZeroRect::from_xywh(b[0], b[1], b[2], b[3]).unwrap().size();
    !(size.width() + size.height()).is_finite()
        && made.iter().any(|p| matches!(p.kind, Kind::DisplacementMap(_)))
}

/// After a panic: 6 or 7. Runs the crate on ever longer beginnings of the
/// children to find the one that it stopped at.
fn refusal_of_panic(s: &Sheet) -> u8 {
    let starts: Vec<usize> = (0..s.nodes.len()).filter(|i| s.nodes[*i].depth == 0).collect();
    let end = |k: usize| starts.get(k).copied().unwrap_or(s.nodes.len());
    // Smallest number of children with which the crate panics.
    let (mut lo, mut hi) = (0, starts.len());
    while lo < hi {
        let mid = (lo + hi) / 2;
        if matches!(convert_sheet(s, &s.nodes[..end(mid)]), Outcome::Panic) {
            hi = mid;
        } else {
            lo = mid + 1;
        }
    }
    if lo == 0 {
        return 6; // Placing the filter rectangle.
    }
    if let Outcome::Made(_, made) = convert_sheet(s, &s.nodes[..end(lo - 1)]) {
        if bad_displacement(s, &made) {
            return 6;
        }
    }
    let at = starts[lo - 1];
    if s.nodes[at].tag == Some(EId::FeTurbulence) {
        // Its region, or its base frequency?
        let mut nodes = s.nodes[..end(lo)].to_vec();
        nodes[at].tag = Some(EId::FeTile);
        if !matches!(convert_sheet(s, &nodes), Outcome::Panic) {
            return 7;
        }
    }
    6
}

/// A place where the crate's own answer is not the one asked for: each is in docs/DIFFERENCES.md.
#[derive(Clone, Copy, PartialEq, Debug)]
pub enum Named {
    /// The crate's u32 product of the orders wraps, and a kernel of another count is kept.
    OrderProduct,
    /// feDisplacementMap in box units, box width + height not finite.
    DisplacementSum,
    /// A percent in a function's dy: the crate takes it from the view box height, which a record lacks.
    DyPercent,
    /// numOctaves ends in exactly a half: the crate rounds it away from zero, and the even neighbour is asked for.
    OctavesHalf,
    /// Primitives in box units: subregions and the chain's end are those of subregion.rs.
    BoxUnits,
    /// Of these, where the crate's own answer is another one.
    BoxUnitsOtherwise,
}

/// The list (or Kind) at its full length, or the number of the refusal; and where that is not the crate's own answer, each place once.
pub struct Verdict {
    pub answer: Result<Vec<u8>, u8>,
    pub named: Vec<Named>,
}

fn plain(answer: Result<Vec<u8>, u8>) -> Verdict {
    Verdict { answer, named: Vec::new() }
}

/// Kernels whose orders' product is not their count: the flood in their place.
fn exact_orders(made: &mut [Primitive]) -> bool {
    let mut found = false;
    for p in made {
        if let Kind::ConvolveMatrix(ref c) = p.kind {
            let m = &c.matrix;
            if u64::from(m.columns) * u64::from(m.rows) != m.data.len() as u64 {
                p.kind = create_dummy_primitive();
                found = true;
            }
        }
    }
    found
}

/// numOctaves as it is read; 1 where it is absent or cannot be read.
fn num_octaves(n: &Node) -> f32 {
    let number = n.attrs.iter().find_map(|(id, v)| match v {
        Value::Number(x) if *id == AId::NumOctaves => Some(*x),
        _ => None,
    });
    number.unwrap_or(1.0)
}

/// Octaves that end in exactly a half: those of `octaves` in the place of the crate's. On every other number the two must agree.
fn even_octaves(s: &Sheet, made: &mut [Primitive]) -> bool {
    let children = s.nodes.iter().filter(|n| n.depth == 0);
    let given = children.filter(|n| n.tag == Some(EId::FeTurbulence)).map(num_octaves);
    let noises = made.iter_mut().filter_map(|p| match p.kind {
        Kind::Turbulence(ref mut t) => Some(t),
        _ => None,
    });
    let mut found = false;
    // each feTurbulence that counts makes one primitive, in their order
    for (t, x) in noises.zip(given) {
        if ends_in_a_half(x) {
            t.num_octaves = octaves(x);
            found = true;
        }
        assert_eq!(t.num_octaves, octaves(x), "octaves of {:08x}", x.to_bits());
    }
    found
}

/// Refusal 5 or 8, by the crate's own words for "no filter rectangle" and "its box is missing"; any other error is a filter without primitives.
fn refusal_of_error(warnings: &[String]) -> u8 {
    let five = warnings.iter().any(|w| {
        w == "Filter 'f' has an invalid region. Skipped." || w == "Filters on zero-sized shapes are not allowed."
    });
    if five { 5 } else { 8 }
}

/// What the crate makes of a sheet, with the other answers that are asked for in its place; subregions are the crate's.
fn primitives(s: &Sheet, named: &mut Vec<Named>) -> Result<(NonZeroRect, Vec<Primitive>), u8> {
    let (region, mut made) = match convert_sheet(s, &s.nodes) {
        Outcome::Panic => return Err(refusal_of_panic(s)),
        Outcome::Error(warnings) => return Err(refusal_of_error(&warnings)),
        Outcome::Made(region, made) => (region, made),
    };
    if bad_displacement(s, &made) {
        named.push(Named::DisplacementSum);
        return Err(6);
    }
    if exact_orders(&mut made) {
        named.push(Named::OrderProduct);
    }
    if even_octaves(s, &mut made) {
        named.push(Named::OctavesHalf);
    }
    Ok((region, made))
}

fn edges(r: NonZeroRect) -> Edges {
    Edges { left: r.left(), top: r.top(), right: r.right(), bottom: r.bottom() }
}

/// Whether the crate makes a primitive of an element.
fn makes_primitive(n: &Node) -> bool {
    use EId::*;
    matches!(
        n.tag,
        Some(
            FeBlend
                | FeColorMatrix
                | FeComponentTransfer
                | FeComposite
                | FeConvolveMatrix
                | FeDiffuseLighting
                | FeDisplacementMap
                | FeDropShadow
                | FeFlood
                | FeGaussianBlur
                | FeMerge
                | FeMorphology
                | FeOffset
                | FeSpecularLighting
                | FeTile
                | FeTurbulence
        )
    )
}

/// The subregions of the primitives, by subregion.rs.
fn subregions(chain: &[(&Node, Edges)]) -> Vec<Edges> {
    chain.iter().filter(|(n, _)| makes_primitive(n)).map(|(_, e)| *e).collect()
}

/// A sheet without primitives in box units: the crate's answer. Its subregions must be those of subregion.rs.
fn in_user_space(s: &Sheet, named: &mut Vec<Named>) -> Result<Vec<Primitive>, u8> {
    let (region, made) = primitives(s, named)?;
    let (_, chain) = subregion::chain(s, edges(region));
    let rects: Vec<Edges> = made.iter().map(|p| edges(p.rect)).collect();
    assert_eq!(rects, subregions(&chain), "subregions in user space");
    Ok(made)
}

/// The filter region, or 5 or 6: the crate's own, with one child that it places for certain.
fn filter_region(s: &Sheet) -> Result<Edges, u8> {
    let tile = Node { depth: 0, tag: Some(EId::FeTile), font_size: 0.0, attrs: unit_square(1.0, 1.0) };
    match convert_sheet(&Sheet { primitive_units: 0, ..s.clone() }, &[tile]) {
        Outcome::Panic => Err(6),
        Outcome::Error(warnings) => Err(refusal_of_error(&warnings)),
        Outcome::Made(region, _) => Ok(edges(region)),
    }
}

fn unit_square(width: f64, height: f64) -> Vec<(AId, Value)> {
    let of = |id, n| (id, Value::Length(0, n));
    vec![of(AId::X, 0.0), of(AId::Y, 0.0), of(AId::Width, width), of(AId::Height, height)]
}

/// The same children with subregions that the crate makes for certain. It places feFlood in the box: all of it, or a half where its far edge is
/// beyond f32.
fn placed_for_certain(s: &Sheet, nodes: usize) -> Sheet {
    let [x, y, width, height] = Edges::new(s.box_.unwrap()).unwrap().numbers();
    let parts = [[1.0, 1.0], [0.5, 1.0], [1.0, 0.5], [0.5, 0.5]];
    let [w, h] = parts.into_iter().find(|[w, h]| Edges::new([x, y, w * width, h * height]).is_some()).unwrap();
    let mut s = s.clone();
    s.filter_units = 0;
    s.lengths = [Some((0, 0.0)), Some((0, 0.0)), Some((0, 1.0)), Some((0, 1.0))];
    s.nodes.truncate(nodes);
    for n in s.nodes.iter_mut().filter(|n| n.depth == 0 && n.tag.is_some()) {
        n.attrs.retain(|(id, _)| !matches!(id, AId::X | AId::Y | AId::Width | AId::Height));
        n.attrs.extend(unit_square(w.into(), h.into()));
    }
    s
}

/// A sheet with primitives in box units: subregions and the chain's end by subregion.rs, kinds, names and inputs by the crate.
fn in_box_units(s: &Sheet, named: &mut Vec<Named>) -> Result<Vec<Primitive>, u8> {
    let region = filter_region(s)?;
    if s.box_.is_none() {
        return Err(8);
    }
    named.push(Named::BoxUnits);
    let (nodes, chain) = subregion::chain(s, region);
    let (_, mut made) = primitives(&placed_for_certain(s, nodes), named)?;
    let rects = subregions(&chain);
    assert_eq!(made.len(), rects.len());
    for (p, e) in made.iter_mut().zip(rects) {
        p.rect = NonZeroRect::from_ltrb(e.left, e.top, e.right, e.bottom).expect("a rectangle");
    }
    Ok(made)
}

fn encoded(made: Result<Vec<Primitive>, u8>) -> Result<Vec<u8>, u8> {
    let mut list = Vec::new();
    encode::list(&mut list, &made?);
    Ok(list)
}

pub fn sheet(b: &[u8]) -> Verdict {
    let s = match sheet::decode(b) {
        Ok(s) => s,
        Err(number) => return plain(Err(number)),
    };
    let mut named = Vec::new();
    if s.primitive_units != 1 {
        return Verdict { answer: encoded(in_user_space(&s, &mut named)), named };
    }
    let answer = encoded(in_box_units(&s, &mut named));
    if encoded(primitives(&s, &mut Vec::new()).map(|(_, made)| made)) != answer {
        named.push(Named::BoxUnitsOtherwise);
    }
    Verdict { answer, named }
}

/// A sheet whose tree is built: what the crate's conversion alone is timed on.
pub struct Prepared {
    doc: Document<'static>,
    frame: Frame,
}

impl Prepared {
    /// None: refused by 1 to 4, 10 or 11.
    pub fn new(b: &[u8]) -> Option<Prepared> {
        let s = sheet::decode(b).ok()?;
        Some(Prepared { doc: document(&s, &s.nodes), frame: frame(&s) })
    }

    /// Converts, drops what was made, and says how many primitives it had.
    pub fn convert(&self) -> usize {
        let made = self.frame.convert(&self.doc, FilterValue::Url("f"));
        made.map_or(0, |f| f[0].primitives.len())
    }

    /// Converts, and writes the list's bytes to `out`.
    pub fn convert_to(&self, out: &mut Vec<u8>) {
        out.clear();
        if let Ok(f) = self.frame.convert(&self.doc, FilterValue::Url("f")) {
            encode::list(out, &f[0].primitives);
        }
    }
}

pub fn function(b: &[u8]) -> Verdict {
    let answer = function_answer(b);
    // The record has passed the layout where there is an answer.
    let percent = answer.is_ok() && b[12] == 9 && b[31] == 9;
    Verdict { answer, named: percent.then_some(Named::DyPercent).into_iter().collect() }
}

fn function_answer(b: &[u8]) -> Result<Vec<u8>, u8> {
    use sheet::{dpi_ok, f32_at, f64_at, f64_ok, font_size_ok, view_box_ok};
    if b.len() < 13 {
        return Err(2);
    }
    let length = match b[12] {
        0..=7 => 13 + 8,
        8 => 13 + 9,
        9 => 13 + 1 + 4 + 4 + 3 * 9,
        _ => return Err(2),
    };
    if b.len() != length {
        return Err(2);
    }
    let (width, dpi, font_size) = (f32_at(b, 0), f32_at(b, 4), f32_at(b, 8));
    let length = |at: usize| -> Result<Length, u8> {
        let unit = LengthUnit::from_byte(b[at]).ok_or(2)?;
        Ok(Length::new(f64_at(b, at + 1), unit))
    };
    let mut fallback = None;
    let mut numbers = Vec::new();
    let value = match b[12] {
        code @ 0..=7 => {
            let n = f64_at(b, 13);
            numbers.push(n);
            match code {
                0 => FilterValue::Grayscale(n),
                1 => FilterValue::Sepia(n),
                2 => FilterValue::Saturate(n),
                3 => FilterValue::HueRotate(Angle { number: n }),
                4 => FilterValue::Invert(n),
                5 => FilterValue::Opacity(n),
                6 => FilterValue::Brightness(n),
                _ => FilterValue::Contrast(n),
            }
        }
        8 => {
            let l = length(13)?;
            numbers.push(l.number);
            FilterValue::Blur(l)
        }
        _ => {
            let colour = |at: usize| Color {
                red: b[at],
                green: b[at + 1],
                blue: b[at + 2],
                alpha: b[at + 3],
            };
            let color = match b[13] {
                0 if b[14..18] == [0; 4] => None,
                1 => Some(colour(14)),
                _ => return Err(2),
            };
            fallback = Some(spell_colour(b[18..22].try_into().unwrap()));
            let (dx, dy, std_dev) = (length(22)?, length(31)?, length(40)?);
            numbers.extend([dx.number, dy.number, std_dev.number]);
            FilterValue::DropShadow { color, dx, dy, std_dev }
        }
    };
    if !view_box_ok(width)
        || !dpi_ok(dpi)
        || !font_size_ok(font_size)
        || !numbers.iter().all(|n| f64_ok(*n))
    {
        return Err(3);
    }
    let mut attrs = vec![(AId::Filter, "function".to_string()), spell_font_size(font_size)];
    if let Some(c) = fallback {
        attrs.push((AId::Color, c));
    }
    let doc = Document::of_plain(vec![(None, Some(EId::G), attrs)]);
    // The record has no view box height. Document 01: "For a function's blur,
    // dx and dy alike it is the width." The crate takes dy's percent from the
    // height, so the view box is made square.
    let unit_box = NonZeroRect::from_xywh(0.0, 0.0, 1.0, 1.0);
    let kind = match call(&doc, &Frame::new([width, width], dpi, unit_box), value) {
        Outcome::Made(_, made) => made[0].kind.clone(),
        _ => unreachable!("a function always gives a kind"),
    };
    let mut out = Vec::new();
    encode::kind(&mut out, &kind);
    Ok(out)
}
