//! Sheets in box units made by rule: what is given and what is absent, each unit, each rounding, and each way in which a subregion is no rectangle.

use oracle::{AId, EId};

use crate::corners::{Corner, fe, with};
use crate::generate::{PRIMITIVES, length_attr, list_attr, number_attr, tries_attr};
use crate::model::{ABSENT, Attr, Node, Sheet};
use crate::values::EDGES;

const SIDES: [AId; 4] = [AId::X, AId::Y, AId::Width, AId::Height];

/// Four numbers that differ.
const BOX: [f32; 4] = [10.0, 20.0, 100.0, 50.0];
const REGION: [f64; 4] = [-3.0, 7.0, 200.0, 120.0];

fn plain(id: AId, n: f64) -> Attr {
    length_attr(id, 0, n.to_bits())
}

fn sheet(b: [f32; 4], region: [f64; 4], nodes: Vec<Node>) -> Sheet {
    let mut s = Sheet::plain(nodes);
    s.units = [0, 1];
    s.set_box(b);
    s.set_region(region);
    s
}

/// A feTile that stays before the children and one behind them.
fn between_tiles(nodes: Vec<Node>) -> Vec<Node> {
    [vec![fe(EId::FeTile)], nodes, vec![fe(EId::FeTile)]].concat()
}

/// A radius product, or a displacement sum, that is beyond f32 in the box of `TALL`.
fn refused() -> [Node; 2] {
    let radii = list_attr(AId::Radius, &[1f32.to_bits(), 2f32.to_bits()]);
    [with(fe(EId::FeMorphology), [radii]), with(fe(EId::FeDisplacementMap), [number_attr(AId::Scale, 1.0)])]
}

/// Its width and height add up to more than f32 holds.
const TALL: [f32; 4] = [0.0, 0.0, 3e38, 3e38];

/// Attributes that make no rectangle in the box, with the box.
fn endings() -> Vec<([f32; 4], Vec<Attr>)> {
    let mut all = Vec::new();
    for id in [AId::Width, AId::Height] {
        for n in [0.0, -0.0, -1.0, -0.5, -1e-46, 1e-46, -3e38] {
            all.push((BOX, vec![plain(id, n)]));
            all.push((BOX, vec![length_attr(id, 9, n.to_bits())]));
        }
        // the product is beyond f32, or too small for it
        all.push(([0.0, 0.0, 1e30, 1e30], vec![plain(id, 1e30)]));
        all.push(([0.0, 0.0, 1e-30, 1e-30], vec![plain(id, 1e-30)]));
        all.push(([0.0, 0.0, 1e-30, 1e-30], vec![plain(id, -1e-30)]));
    }
    for (corner, side) in [(AId::X, AId::Width), (AId::Y, AId::Height)] {
        // beyond f32 in the product, in the sum with the box's corner, in the far edge, in the difference of the edges
        all.push(([0.0, 0.0, 1e30, 1e30], vec![plain(corner, 1e30)]));
        all.push(([0.0, 0.0, 1e30, 1e30], vec![plain(corner, -1e30)]));
        all.push(([2e38, 2e38, 1e38, 1e38], vec![plain(corner, 2.0)]));
        all.push(([2e38, 2e38, 1e38, 1e38], vec![plain(corner, 1.0), plain(side, 1.0)]));
        all.push(([0.0, 0.0, 1e38, 1e38], vec![plain(corner, -3.0), plain(side, 3.402)]));
        all.push(([0.0, 0.0, 3.4e38, 3.4e38], vec![plain(corner, 0.5), plain(side, 0.75)]));
        // a side that the corner swallows: the child's own, and the filter region's
        all.push(([0.0, 0.0, 1e10, 1e10], vec![plain(corner, 1.0), plain(side, 1e-10)]));
        all.push(([0.0, 0.0, 1e10, 1e10], vec![plain(corner, 10.0)]));
        all.push(([1e20, 1e20, 1e20, 1e20], vec![plain(corner, 0.0)]));
    }
    all.retain(|(b, _)| b[0] + b[2] > b[0] && b[1] + b[3] > b[1]);
    all
}

struct Corners(Vec<Corner>);

impl Corners {
    fn add(&mut self, group: &'static str, sheet: Sheet) {
        self.0.push(Corner { group, sheet });
    }

    /// P11 with a feFlood, and a blur.
    fn cases(&mut self) {
        let quarter = [plain(AId::X, 0.25), plain(AId::Width, 0.5)];
        let percent = [length_attr(AId::X, 9, 25f64.to_bits()), plain(AId::Width, 0.5)];
        let deviation = tries_attr(AId::StdDeviation, &[0.5f64.to_bits()]);
        let mut put = |b, region, n| self.add("box units: the paper's cases", sheet(b, region, vec![n]));
        put([0.0, 0.0, 8.0, 8.0], [0.0, 0.0, 4.0, 4.0], with(fe(EId::FeFlood), quarter));
        put(BOX, REGION, with(fe(EId::FeGaussianBlur), percent.clone()));
        put(BOX, REGION, with(with(fe(EId::FeGaussianBlur), percent), [deviation]));
    }

    fn given(&mut self) {
        let values = SIDES.into_iter().zip([0.25, 0.125, 0.5, 0.75]);
        for e in PRIMITIVES.into_iter().chain([EId::G]) {
            for mask in 0..16 {
                let attrs =
                    values.clone().enumerate().filter(|(i, _)| mask >> i & 1 == 1).map(|(_, (id, n))| plain(id, n));
                let nodes = between_tiles(vec![with(fe(e), attrs)]);
                self.add("box units: what is given and what is absent", sheet(BOX, REGION, nodes));
            }
        }
        for e in [EId::FeTile, EId::FeFlood, EId::FeGaussianBlur, EId::G] {
            for id in SIDES {
                for unit in 0..=9 {
                    let n = if unit == 9 { 25.0 } else { 1.5f64 };
                    let mut child = with(fe(e), [length_attr(id, unit, n.to_bits())]);
                    child.font_size = 7f32.to_bits();
                    self.add("box units: each unit", sheet(BOX, REGION, between_tiles(vec![child])));
                }
                // not a length: as if it were absent
                let unread = with(fe(e), [Attr::new(id as u16, 0, Vec::new())]);
                self.add("box units: each unit", sheet(BOX, REGION, between_tiles(vec![unread])));
            }
        }
    }

    fn roundings(&mut self) {
        let near_one = 1.0 + 2f32.powi(-12);
        let boxes = [
            [-1.0, -1.0, near_one, near_one],
            [0.1, 0.2, 0.3, 0.7],
            [1e7, -1e7, 3.0, 7.0],
            [-0.3, 16_777_215.0, 33.3, 1.0],
            [1e-40, -1e-40, 1e-38, 3e-38],
        ];
        for b in boxes {
            for n in [f64::from(near_one), 1.0 / 3.0, 0.1, 1e-8, 0.7, 1.0 + 1e-8, 123.456, -0.1, -1.0 / 3.0] {
                let all = SIDES.map(|id| plain(id, if id == AId::X || id == AId::Y { n } else { n.abs() }));
                let percent = SIDES.map(|id| length_attr(id, 9, (n.abs() * 100.0).to_bits()));
                for attrs in [all.to_vec(), all[..2].to_vec(), all[2..].to_vec(), percent.to_vec()] {
                    for e in [EId::FeTile, EId::FeFlood] {
                        let nodes = between_tiles(vec![with(fe(e), attrs.clone())]);
                        self.add("box units: roundings", sheet(b, REGION, nodes));
                    }
                }
            }
        }
        // regions that change when they are made anew, in both units
        for (x, width) in
            [(-1.0, 16_777_218.0), (-3.0, 16_777_222.0), (0.1, 0.7), (-0.1, 1.2), (1e-45, 1.0), (5e37, 3e38)]
        {
            for units in [[0, 0], [0, 1]] {
                for e in [EId::FeTile, EId::FeFlood] {
                    let mut s = sheet(BOX, [x, x, width, width], vec![fe(e), with(fe(e), [plain(AId::X, 0.5)])]);
                    s.units = units;
                    self.add("box units: roundings", s);
                }
            }
        }
    }

    fn ends(&mut self) {
        for (b, attrs) in endings() {
            for e in [EId::FeTile, EId::FeFlood, EId::G, EId::FeTurbulence] {
                let ending = with(fe(e), attrs.clone());
                for nodes in [vec![ending.clone()], between_tiles(vec![ending])] {
                    self.add("box units: no rectangle", sheet(b, REGION, nodes));
                }
            }
        }
        // with what is refused before it, at it and behind it
        for n in refused() {
            for width in [0.0, -1.0, 2.0] {
                for e in [EId::FeTile, EId::FeFlood, EId::FeMerge, EId::G] {
                    let ending = with(fe(e), [plain(AId::Width, width)]);
                    let both = with(n.clone(), [plain(AId::Width, width)]);
                    for nodes in [
                        vec![n.clone(), ending.clone()],
                        vec![ending.clone(), n.clone()],
                        vec![fe(EId::FeTile), ending, n.clone()],
                        vec![fe(EId::FeTile), both.clone()],
                        vec![both, fe(EId::FeTile)],
                        vec![Node::new(0, 0), n.clone()],
                    ] {
                        self.add("box units: no rectangle, and a refusal", sheet(TALL, REGION, nodes));
                    }
                }
            }
        }
    }

    fn edges(&mut self) {
        for bits in EDGES {
            let n = f64::from(f32::from_bits(*bits));
            for id in SIDES {
                for b in [[1.0, 2.0, 3.0, 4.0], [0.0, 0.0, 1e-30, 1e30]] {
                    for e in [EId::FeTile, EId::FeFlood] {
                        let nodes = between_tiles(vec![with(fe(e), [plain(id, n)])]);
                        self.add("box units: each f64 at an edge", sheet(b, REGION, nodes));
                    }
                }
            }
            for i in 0..4 {
                let mut s = sheet(BOX, REGION, vec![fe(EId::FeTile), with(fe(EId::FeFlood), [plain(AId::Y, 0.5)])]);
                s.object_box[i] = *bits;
                self.add("box units: each number of the box at an edge", s.clone());
                s.units = [1, 1];
                s.lengths = [ABSENT; 4];
                self.add("box units: each number of the box at an edge", s);
            }
        }
    }
}

pub fn corners() -> Vec<Corner> {
    let mut c = Corners(Vec::new());
    c.cases();
    c.given();
    c.roundings();
    c.ends();
    c.edges();
    c.0
}
