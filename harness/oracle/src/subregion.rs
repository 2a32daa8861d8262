//! Subregions, written from document 02's words for objectBoundingBox units and from document 01's for user space, rectangles and lengths. Sheets in box
//! units are held to this alone; on a sheet in user space it must give what the crate gives.

use crate::parser::svgtree::AId;
use crate::sheet::{Node, Sheet, Value};

/// A rectangle by its edges.
#[derive(Clone, Copy, PartialEq, Debug)]
pub struct Edges {
    pub left: f32,
    pub top: f32,
    pub right: f32,
    pub bottom: f32,
}

fn is_side(a: f32, b: f32) -> bool {
    a.is_finite() && b.is_finite() && a < b && f64::from(b) - f64::from(a) < f64::from(f32::MAX)
}

impl Edges {
    /// The rectangle of x, y, width and height, if there is one.
    pub fn new([x, y, width, height]: [f32; 4]) -> Option<Edges> {
        let e = Edges { left: x, top: y, right: x + width, bottom: y + height };
        (is_side(e.left, e.right) && is_side(e.top, e.bottom)).then_some(e)
    }

    /// Its x, y, width and height: not those that it was made of.
    pub fn numbers(self) -> [f32; 4] {
        [self.left, self.top, self.right - self.left, self.bottom - self.top]
    }
}

const SIDES: [AId; 4] = [AId::X, AId::Y, AId::Width, AId::Height];

/// A length as a number. In box units n percent is n/100; every other unit is the same in both.
fn number(s: &Sheet, n: &Node, (unit, value): (u8, f64), view_box_side: f32) -> f32 {
    let v = value as f32;
    match unit {
        1 => v * n.font_size,
        2 => v * n.font_size / 2.0,
        4 => v * s.dpi,
        5 => v * s.dpi / 2.54,
        6 => v * s.dpi / 25.4,
        7 => v * s.dpi / 72.0,
        8 => v * s.dpi / 6.0,
        9 if s.primitive_units == 1 => v / 100.0,
        9 => view_box_side * v / 100.0,
        _ => v,
    }
}

/// x, y, width and height of a child, where they are given and read.
fn given(s: &Sheet, n: &Node) -> [Option<f32>; 4] {
    let mut four = [None; 4];
    for (i, side) in SIDES.iter().enumerate() {
        let length = n.attrs.iter().find_map(|(id, v)| match v {
            Value::Length(unit, value) if id == side => Some((*unit, *value)),
            _ => None,
        });
        four[i] = length.map(|l| number(s, n, l, s.view_box[i % 2]));
    }
    four
}

/// A child's subregion, if there is one.
pub fn subregion(s: &Sheet, n: &Node, region: Edges) -> Option<Edges> {
    let mut four = given(s, n);
    if s.primitive_units == 1 {
        let [box_x, box_y, box_width, box_height] = Edges::new(s.box_?)?.numbers();
        let [x, y, width, height] = four;
        four = [
            x.map(|x| x * box_width + box_x),
            y.map(|y| y * box_height + box_y),
            width.map(|width| width * box_width),
            height.map(|height| height * box_height),
        ];
    }
    let own = region.numbers();
    Edges::new([0, 1, 2, 3].map(|i| four[i].unwrap_or(own[i])))
}

/// How many nodes stand before the child that has no subregion, if any, with its own; and the subregions of the children before it. A child without a tag is passed
/// over.
pub fn chain(s: &Sheet, region: Edges) -> (usize, Vec<(&Node, Edges)>) {
    let mut kept = Vec::new();
    for (i, n) in s.nodes.iter().enumerate().filter(|(_, n)| n.depth == 0 && n.tag.is_some()) {
        match subregion(s, n, region) {
            Some(e) => kept.push((n, e)),
            None => return (i, kept),
        }
    }
    (s.nodes.len(), kept)
}
