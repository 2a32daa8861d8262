//! Random sheets, most of them accepted: every kind, every attribute, every branch of parser/filter.rs.

use oracle::{AId, EIDS, EId};

use crate::model::{ABSENT, Attr, Node, Sheet, tag};
use crate::rng::Rng;
use crate::texts;
use crate::values::{EDGES, double, le32, number, plain, text};

/// The elements that make a primitive.
pub const PRIMITIVES: [EId; 16] = [
    EId::FeBlend,
    EId::FeColorMatrix,
    EId::FeComponentTransfer,
    EId::FeComposite,
    EId::FeConvolveMatrix,
    EId::FeDiffuseLighting,
    EId::FeDisplacementMap,
    EId::FeDropShadow,
    EId::FeFlood,
    EId::FeGaussianBlur,
    EId::FeMerge,
    EId::FeMorphology,
    EId::FeOffset,
    EId::FeSpecularLighting,
    EId::FeTile,
    EId::FeTurbulence,
];

const MODES: &[&str] = &[
    "normal",
    "multiply",
    "screen",
    "overlay",
    "darken",
    "lighten",
    "color-dodge",
    "color-burn",
    "hard-light",
    "soft-light",
    "difference",
    "exclusion",
    "hue",
    "saturation",
    "color",
    "luminosity",
    "plus-lighter",
    "Normal",
    "colour",
    "",
    "normal ",
];
const MATRIX_TYPES: &[&str] =
    &["matrix", "saturate", "hueRotate", "luminanceToAlpha", "", "huerotate", "saturates", "luminanceToAlph"];
const OPERATORS: &[&str] =
    &["over", "in", "out", "atop", "xor", "lighter", "arithmetic", "", "Over", "arithmetics", "i"];
const RADIUS_OPERATORS: &[&str] = &["erode", "dilate", "", "Dilate", "dilates"];
const EDGE_MODES: &[&str] = &["duplicate", "wrap", "none", "", "None", "wrapped"];
const BOOLS: &[&str] = &["true", "false", "", "True", "1", "true "];
const CHANNELS: &[&str] = &["R", "G", "B", "A", "", "r", "RR", "alpha"];
const STITCH: &[&str] = &["stitch", "noStitch", "", "Stitch", "stitches"];
const NOISE: &[&str] = &["fractalNoise", "turbulence", "", "fractalnoise", "fractalNoises"];
pub const TRANSFERS: &[&str] = &["identity", "table", "discrete", "linear", "gamma", "", "Identity", "tables", "gam"];
const INTERPOLATIONS: &[&str] = &["sRGB", "linearRGB", "auto", "", "srgb", "inherit", "sRGBx"];
const WORDS: &[&str] =
    &["SourceGraphic", "SourceAlpha", "BackgroundImage", "BackgroundAlpha", "FillPaint", "StrokePaint"];
const NEAR_WORDS: &[&str] = &[
    "SourceGraphi",
    "SourceGraphicx",
    "sourceGraphic",
    "SourceAlph",
    "SourceAlpha ",
    "BackgroundImag",
    "Background",
    "FillPaints",
    "StrokePain",
    "",
    " ",
    "unknown",
    "result",
    "result0",
    "resul1",
    "Result1",
    "result01",
    "result1 ",
    "result1\0",
    "\0",
];
/// Each word that `in` can be, and words near to one.
pub const INPUTS: &[&str] = &[
    "SourceGraphic",
    "SourceAlpha",
    "BackgroundImage",
    "BackgroundAlpha",
    "FillPaint",
    "StrokePaint",
    "result1",
    "SourceGraphi",
    "SourceGraphicx",
    "sourcegraphic",
    "SourceAlph",
    "SourceAlphas",
    "BackgroundImag",
    "BackgroundImages",
    "BackgroundAlph",
    "FillPain",
    "FillPaints",
    "StrokePain",
    "StrokePaints",
    "",
    "result",
    "result2",
    "result10",
    "unknown",
];
/// The attributes that are words, an element that reads each, and its words, known and not.
pub const WORD_LISTS: &[(EId, AId, &[&str])] = &[
    (EId::FeBlend, AId::Mode, MODES),
    (EId::FeColorMatrix, AId::Type, MATRIX_TYPES),
    (EId::FeComposite, AId::Operator, OPERATORS),
    (EId::FeMorphology, AId::Operator, RADIUS_OPERATORS),
    (EId::FeConvolveMatrix, AId::EdgeMode, EDGE_MODES),
    (EId::FeConvolveMatrix, AId::PreserveAlpha, BOOLS),
    (EId::FeDisplacementMap, AId::XChannelSelector, CHANNELS),
    (EId::FeDisplacementMap, AId::YChannelSelector, CHANNELS),
    (EId::FeTurbulence, AId::StitchTiles, STITCH),
    (EId::FeTurbulence, AId::Type, NOISE),
    (EId::FeTile, AId::ColorInterpolationFilters, INTERPOLATIONS),
];
const NAMES: &[&str] =
    &["a", "b", "c", "blur", "offset", "", "é", "结果", "😀", "result", "resultx", "SourceGraphic", "FillPaint"];

pub struct Generator<'a> {
    pub rng: &'a mut Rng,
    /// primitiveUnits in effect are objectBoundingBox.
    box_units: bool,
    /// The results given so far, on any child.
    results: Vec<Vec<u8>>,
    /// How many children stand already.
    children: usize,
    /// Numbers beyond reason are wanted for rectangles.
    extreme: bool,
}

pub fn text_attr(id: AId, s: &str) -> Attr {
    Attr::new(id as u16, 1, s.as_bytes().to_vec())
}
pub fn number_attr(id: AId, n: f32) -> Attr {
    Attr::new(id as u16, 2, le32(n.to_bits()))
}
pub fn list_attr(id: AId, bits: &[u32]) -> Attr {
    Attr::new(id as u16, 3, bits.iter().flat_map(|b| b.to_le_bytes()).collect())
}
pub fn typed_attr(id: AId, text: &[u8]) -> Attr {
    Attr::new(id as u16, 7, text.to_vec())
}
pub fn length_attr(id: AId, unit: u8, bits: u64) -> Attr {
    let mut v = vec![unit];
    v.extend(bits.to_le_bytes());
    Attr::new(id as u16, 4, v)
}
pub fn tries_attr(id: AId, tries: &[u64]) -> Attr {
    let mut v = vec![0; 27];
    for (c, t) in v.chunks_mut(9).zip(tries) {
        c[0] = 1;
        c[1..].copy_from_slice(&t.to_le_bytes());
    }
    Attr::new(id as u16, 6, v)
}

impl Generator<'_> {
    pub fn new(rng: &mut Rng, box_units: bool) -> Generator<'_> {
        Generator { rng, box_units, results: Vec::new(), children: 0, extreme: false }
    }

    // ---- attributes

    /// Puts an attribute by chance, now and then as kind 0 where its id allows that.
    fn may(&mut self, n: &mut Node, percent: usize, a: impl FnOnce(&mut Self) -> Attr) {
        if self.rng.percent(percent) {
            let a = a(self);
            let unreadable = a.kind != 1 && self.rng.percent(4);
            n.set(if unreadable { Attr::new(a.id, 0, Vec::new()) } else { a });
        }
    }

    fn word(&mut self, n: &mut Node, id: AId, words: &[&str]) {
        self.may(n, 75, |g| {
            if g.rng.percent(2) {
                let t = text(g.rng, 255);
                Attr::new(id as u16, 1, t)
            } else {
                text_attr(id, *g.rng.pick(words))
            }
        });
    }

    fn number(&mut self, n: &mut Node, percent: usize, id: AId) {
        self.may(n, percent, |g| Attr::new(id as u16, 2, le32(number(g.rng))));
    }

    fn numbers(&mut self, n: &mut Node, ids: &[AId]) {
        for id in ids {
            self.number(n, 65, *id);
        }
    }

    fn list(&mut self, count: usize) -> Vec<u32> {
        (0..count).map(|_| number(self.rng)).collect()
    }

    fn number_list(&mut self, n: &mut Node, id: AId, counts: &[usize]) {
        self.may(n, 80, |g| {
            let count = *g.rng.pick(counts);
            let l = g.list(count);
            list_attr(id, &l)
        });
    }

    fn color(&mut self, n: &mut Node, percent: usize, id: AId) {
        self.may(n, percent, |g| {
            let mut v = g.rng.next().to_le_bytes()[..4].to_vec();
            if g.rng.percent(60) {
                v[3] = *g.rng.pick(&[255, 0, 128, 1, 254]);
            }
            Attr::new(id as u16, 5, v)
        });
    }

    fn opacity(&mut self, n: &mut Node) {
        self.may(n, 60, |g| {
            let bits = match g.rng.below(4) {
                0 => *g.rng.pick(&[0, 1, 5, 0x3f80_0000, 0x3f7f_ffff, 0x3f00_0000, 0x0080_0000]),
                1 => (g.rng.below(0x3f80_0001)) as u32,
                _ => (g.rng.unit() as f32).to_bits(),
            };
            Attr::new(AId::FloodOpacity as u16, 2, le32(bits))
        });
    }

    fn tries(&mut self, n: &mut Node, id: AId, one: impl Fn(&mut Self) -> u64) {
        self.may(n, 85, |g| {
            let count = g.rng.weighted(&[6, 30, 50, 14]);
            let t: Vec<u64> = (0..count).map(|_| one(g)).collect();
            tries_attr(id, &t)
        });
    }

    // ---- names

    pub fn name(&mut self) -> Vec<u8> {
        match self.rng.weighted(&[35, 35, 15, 10, 5]) {
            0 => self.rng.pick(NAMES).as_bytes().to_vec(),
            1 => {
                // around the counter, so that made names have to skip it
                let n = self.children as i64 + self.rng.within(-2, 4);
                format!("result{}", n).into_bytes()
            }
            2 if !self.results.is_empty() => self.rng.pick(&self.results).clone(),
            3 => self.rng.pick(NEAR_WORDS).as_bytes().to_vec(),
            _ => text(self.rng, 255),
        }
    }

    fn input_text(&mut self) -> Vec<u8> {
        match self.rng.weighted(&[35, 20, 22, 15, 8]) {
            0 if !self.results.is_empty() => self.rng.pick(&self.results).clone(),
            0 | 1 => format!("result{}", self.rng.within(0, self.children as i64 + 2)).into_bytes(),
            2 => self.rng.pick(WORDS).as_bytes().to_vec(),
            3 => self.rng.pick(NEAR_WORDS).as_bytes().to_vec(),
            _ => text(self.rng, 255),
        }
    }

    fn input(&mut self, n: &mut Node, id: AId) {
        self.may(n, 65, |g| Attr::new(id as u16, 1, g.input_text()));
    }

    // ---- lengths

    /// A length; `positive` for widths and heights.
    fn length(&mut self, box_units: bool, positive: bool) -> (u8, u64) {
        if self.rng.percent(3) {
            return (self.rng.below(10) as u8, double(self.rng));
        }
        if self.extreme && self.rng.percent(50) {
            let n = *self.rng.pick(&[1e30f64, 1e-30, 3e38, 1e38, 1e-44, 1e20, 3.4028234663852886e38]);
            return (0, n.to_bits());
        }
        let unit = self.rng.weighted(&[30, 6, 6, 8, 6, 6, 6, 6, 6, 30]) as u8;
        let size = match unit {
            9 => self.rng.within(1, 150) as f64,
            0 | 3 if box_units => self.rng.within(1, 300) as f64 / 200.0,
            0 | 3 => self.rng.within(1, 800) as f64 / 4.0,
            _ => self.rng.within(1, 40) as f64 / 8.0,
        };
        let n = if positive || self.rng.percent(60) { size } else { *self.rng.pick(&[0.0, -0.0, -size, -10.0]) };
        let n = if self.rng.percent(10) { n * (1.0 + self.rng.unit() * 1e-9) } else { n };
        (unit, n.to_bits())
    }

    fn subregion(&mut self, n: &mut Node) {
        let sometimes = if self.extreme { 60 } else { 22 };
        for (id, positive) in [(AId::X, false), (AId::Y, false), (AId::Width, true), (AId::Height, true)] {
            let box_units = self.box_units;
            self.may(n, sometimes, |g| {
                let (unit, bits) = g.length(box_units, positive);
                length_attr(id, unit, bits)
            });
        }
        // a region that ends the chain
        if self.rng.percent(1) {
            let id = *self.rng.pick(&[AId::Width, AId::Height]);
            let n64 = *self.rng.pick(&[0.0f64, -0.0, -1.0, -1e-45, 1e-46]);
            n.set(length_attr(id, self.rng.below(10) as u8, n64.to_bits()));
        }
    }

    fn font_size(&mut self) -> u32 {
        match self.rng.weighted(&[6, 84, 10]) {
            0 => 0,
            1 => (self.rng.within(1, 200) as f32 / 4.0).to_bits(),
            _ => loop {
                let bits = *self.rng.pick(EDGES);
                if f32::from_bits(bits) >= 0.0 {
                    break bits;
                }
            },
        }
    }

    // ---- kinds

    fn blend(&mut self, n: &mut Node) {
        self.input(n, AId::In);
        self.input(n, AId::In2);
        self.word(n, AId::Mode, MODES);
    }

    fn color_matrix(&mut self, n: &mut Node) {
        self.input(n, AId::In);
        self.word(n, AId::Type, MATRIX_TYPES);
        self.number_list(n, AId::Values, &[20, 20, 20, 20, 1, 1, 0, 19, 21, 2]);
    }

    fn component_transfer(&mut self, n: &mut Node) -> Vec<Node> {
        self.input(n, AId::In);
        let count = self.rng.weighted(&[5, 15, 20, 20, 20, 10, 10]);
        (0..count).map(|_| self.transfer_function()).collect()
    }

    fn transfer_function(&mut self) -> Node {
        let e = *self.rng.pick(&[
            EId::FeFuncR,
            EId::FeFuncR,
            EId::FeFuncG,
            EId::FeFuncG,
            EId::FeFuncB,
            EId::FeFuncB,
            EId::FeFuncA,
            EId::FeFuncA,
            EId::FeMergeNode,
        ]);
        if self.rng.percent(4) {
            return self.any_child();
        }
        let mut c = Node::new(1, tag(e));
        if self.rng.percent(92) {
            c.set(text_attr(AId::Type, *self.rng.pick(TRANSFERS)));
        }
        let long = if self.rng.percent(1) { 1024 } else { 3 };
        self.number_list(&mut c, AId::TableValues, &[0, 1, 2, 2, 3, 5, 9, long]);
        self.numbers(&mut c, &[AId::Slope, AId::Intercept, AId::Amplitude, AId::Exponent, AId::Offset]);
        c
    }

    fn composite(&mut self, n: &mut Node) {
        self.input(n, AId::In);
        self.input(n, AId::In2);
        self.word(n, AId::Operator, OPERATORS);
        self.numbers(n, &[AId::K1, AId::K2, AId::K3, AId::K4]);
    }

    fn order(&mut self) -> f64 {
        match self.rng.weighted(&[70, 10, 8, 6, 6]) {
            0 => self.rng.within(1, 5) as f64,
            1 => self.rng.within(1, 5) as f64 + *self.rng.pick(&[0.5, 0.9999999999, 0.25, 1e-12]),
            2 => *self.rng.pick(&[0.0, -0.0, -1.0, 0.999, -0.5, -3.0]),
            3 => *self.rng.pick(&[
                65536.0,
                1073741825.0,
                4.0,
                2147483647.0,
                2147483648.0,
                1e10,
                -1e10,
                -2147483648.0,
                32.0,
                1024.0,
                65535.0,
                65537.0,
                1431655766.0,
            ]),
            _ => f64::from_bits(double(self.rng)),
        }
    }

    fn convolve_matrix(&mut self, n: &mut Node) {
        self.input(n, AId::In);
        // the order as the crate will read it, so that most kernels fit
        let (mut columns, mut rows) = (3i64, 3i64);
        if self.rng.percent(80) {
            let count = self.rng.weighted(&[5, 35, 50, 10]);
            let tries: Vec<f64> = if self.rng.percent(2) {
                [*self.rng.pick(&[[32.0, 32.0], [1.0, 1024.0], [1024.0, 1.0], [512.0, 2.0]])].concat()
            } else {
                (0..count).map(|_| self.order()).collect()
            };
            let x = tries.first().map_or(3, |n| *n as i32);
            let y = tries.get(1).map_or(x, |n| *n as i32);
            if x > 0 && y > 0 {
                (columns, rows) = (x.into(), y.into());
            }
            let bits: Vec<u64> = tries.iter().map(|n| n.to_bits()).collect();
            n.set(tries_attr(AId::Order, &bits));
            if self.rng.percent(3) {
                n.set(Attr::new(AId::Order as u16, 0, Vec::new()));
                (columns, rows) = (3, 3);
            }
        }
        let product = columns.saturating_mul(rows);
        let count = match self.rng.weighted(&[84, 4, 4, 4, 4]) {
            0 if product <= 1024 => product as usize,
            0 | 1 => 9,
            2 => (product % 1024) as usize,
            3 => self.rng.below(12),
            _ => (product.min(1023) + 1 - 2 * (product.min(1) * self.rng.within(0, 1))) as usize,
        };
        self.may(n, 93, |g| {
            let l = g.kernel(count);
            list_attr(AId::KernelMatrix, &l)
        });
        self.may(n, 45, |g| {
            let bits = match g.rng.below(3) {
                0 => g.rng.below(8) as u32 | (g.rng.below(2) as u32) << 31,
                1 => plain(g.rng).to_bits(),
                _ => number(g.rng),
            };
            Attr::new(AId::Divisor as u16, 2, le32(bits))
        });
        self.number(n, 50, AId::Bias);
        for (id, size) in [(AId::TargetX, columns), (AId::TargetY, rows)] {
            self.may(n, 40, |g| {
                let t = match g.rng.weighted(&[70, 10, 10, 10]) {
                    0 => g.rng.below(size.clamp(1, 1 << 20) as usize) as f32 + *g.rng.pick(&[0.0, 0.0, 0.5]),
                    1 => size as f32 + *g.rng.pick(&[0.0, -0.25, -1.0, 1.0]),
                    2 => *g.rng.pick(&[-0.0, -0.5, -0.999, -1.0, -2.0]),
                    _ => f32::from_bits(number(g.rng)),
                };
                number_attr(id, t)
            });
        }
        self.word(n, AId::EdgeMode, EDGE_MODES);
        self.word(n, AId::PreserveAlpha, BOOLS);
    }

    /// Numbers whose sum is plain, nothing, near a millionth, or not finite.
    fn kernel(&mut self, count: usize) -> Vec<u32> {
        match self.rng.weighted(&[40, 15, 15, 10, 20]) {
            0 => (0..count).map(|_| plain(self.rng).to_bits()).collect(),
            1 => (0..count).map(|i| if i % 2 == 0 { 1f32 } else { -1.0 }.to_bits()).collect(),
            2 => {
                let mut l = vec![0u32; count];
                if let Some(first) = l.first_mut() {
                    *first = self
                        .rng
                        .pick(&[4e-7f32, 5e-7, 6e-7, 1e-6, -5e-7, 4.9999997e-7, 1.5e-6, 2.5e-6, 1e-38])
                        .to_bits();
                }
                l
            }
            3 => (0..count).map(|_| self.rng.pick(&[3e38f32, 1e38, -1e38, 1e33, 3.4e38]).to_bits()).collect(),
            _ => self.list(count),
        }
    }

    fn lights(&mut self) -> Vec<Node> {
        let count = self.rng.weighted(&[8, 62, 20, 10]);
        (0..count).map(|_| self.light()).collect()
    }

    fn light(&mut self) -> Node {
        let e = *self.rng.pick(&[EId::FeDistantLight, EId::FePointLight, EId::FeSpotLight, EId::FeSpotLight]);
        if self.rng.percent(12) {
            return self.any_child();
        }
        let mut c = Node::new(1, tag(e));
        if e == EId::FeDistantLight || self.rng.percent(5) {
            self.numbers(&mut c, &[AId::Azimuth, AId::Elevation]);
        }
        if e != EId::FeDistantLight || self.rng.percent(5) {
            self.numbers(&mut c, &[AId::X, AId::Y, AId::Z]);
        }
        if e == EId::FeSpotLight || self.rng.percent(5) {
            self.numbers(&mut c, &[AId::PointsAtX, AId::PointsAtY, AId::PointsAtZ, AId::SpecularExponent]);
            self.number(&mut c, 55, AId::LimitingConeAngle);
        }
        c
    }

    fn lighting(&mut self, n: &mut Node, specular: bool) -> Vec<Node> {
        self.input(n, AId::In);
        self.number(n, 60, AId::SurfaceScale);
        if specular {
            self.number(n, 60, AId::SpecularConstant);
            self.may(n, 75, |g| {
                let bits = match g.rng.weighted(&[70, 20, 10]) {
                    0 => (1.0 + g.rng.unit() as f32 * 127.0).to_bits(),
                    1 => *g.rng.pick(&[
                        0x3f7f_ffff,
                        0x3f80_0000,
                        0x3f80_0001,
                        0x42ff_ffff,
                        0x4300_0000,
                        0x4300_0001,
                        0,
                        0x8000_0000,
                    ]),
                    _ => number(g.rng),
                };
                Attr::new(AId::SpecularExponent as u16, 2, le32(bits))
            });
        } else {
            self.number(n, 60, AId::DiffuseConstant);
        }
        self.color(n, 60, AId::LightingColor);
        if self.rng.percent(25) {
            n.set(text_attr(AId::LightingColor, "currentColor"));
        }
        self.color(n, 40, AId::Color);
        self.lights()
    }

    fn displacement_map(&mut self, n: &mut Node) {
        self.input(n, AId::In);
        self.input(n, AId::In2);
        self.number(n, 75, AId::Scale);
        self.word(n, AId::XChannelSelector, CHANNELS);
        self.word(n, AId::YChannelSelector, CHANNELS);
    }

    fn shadow(&mut self, n: &mut Node) {
        self.input(n, AId::In);
        self.numbers(n, &[AId::Dx, AId::Dy]);
        self.tries(n, AId::StdDeviation, |g| double(g.rng));
        self.color(n, 65, AId::FloodColor);
        self.opacity(n);
    }

    fn merge(&mut self) -> Vec<Node> {
        let count = self.rng.weighted(&[5, 15, 30, 25, 15, 10]);
        let mut made = Vec::new();
        for _ in 0..count {
            if self.rng.percent(12) {
                made.push(self.any_child());
            } else {
                let mut c = Node::new(1, tag(EId::FeMergeNode));
                self.input(&mut c, AId::In);
                made.push(c);
            }
        }
        made
    }

    fn morphology(&mut self, n: &mut Node) {
        self.input(n, AId::In);
        self.word(n, AId::Operator, RADIUS_OPERATORS);
        self.may(n, 85, |g| {
            let count = g.rng.weighted(&[6, 30, 54, 10]);
            let extreme = g.extreme;
            let l: Vec<u32> = (0..count)
                .map(|_| match g.rng.weighted(&[55, 25, if extreme { 15 } else { 2 }, 5]) {
                    0 => plain(g.rng).abs().to_bits(),
                    1 => *g.rng.pick(&[0, 0x8000_0000, 1, 4, 5, 0x8000_0001, 0xbf80_0000, 0x3f80_0000]),
                    2 => number(g.rng),
                    _ => plain(g.rng).to_bits(),
                })
                .collect();
            list_attr(AId::Radius, &l)
        });
    }

    fn turbulence(&mut self, n: &mut Node) {
        self.number_list(n, AId::BaseFrequency, &[1, 1, 2, 2, 2, 0, 3]);
        self.number(n, 75, AId::NumOctaves);
        self.number(n, 75, AId::Seed);
        self.word(n, AId::StitchTiles, STITCH);
        self.word(n, AId::Type, NOISE);
    }

    // ---- nodes

    /// A child of a child, of any tag or none, with attributes that its depth allows.
    pub fn any_child(&mut self) -> Node {
        let mut c = Node::new(1, if self.rng.percent(25) { 0 } else { 1 + self.rng.below(EIDS.len()) as u8 });
        c.font_size = self.font_size();
        if c.tag != 0 {
            self.foreign(&mut c);
        }
        c
    }

    /// Attributes that the depth allows, whatever the tag.
    pub fn foreign(&mut self, n: &mut Node) {
        for _ in 0..self.rng.below(3) {
            let id = *self.rng.pick(oracle::AIDS);
            // Most ids are read nowhere: try again until one is.
            let Some(kind) = oracle::kind_of(n.depth, id) else { continue };
            let a = self.any_value(id, kind);
            n.set(a);
        }
    }

    /// Some attribute of this id that passes 1 to 4.
    pub fn any_value(&mut self, id: AId, kind: u8) -> Attr {
        match kind {
            1 => Attr::new(id as u16, 1, text(self.rng, 255)),
            2 if id == AId::FloodOpacity => number_attr(id, self.rng.unit() as f32),
            2 => Attr::new(id as u16, 2, le32(number(self.rng))),
            3 => {
                let count = self.rng.below(6);
                let l = self.list(count);
                list_attr(id, &l)
            }
            4 => {
                let (unit, bits) = self.length(self.box_units, matches!(id, AId::Width | AId::Height));
                length_attr(id, unit, bits)
            }
            5 => Attr::new(id as u16, 5, self.rng.next().to_le_bytes()[..4].to_vec()),
            7 => typed_attr(id, &texts::any_list(self.rng, 6)),
            _ => {
                let count = self.rng.below(4);
                let t: Vec<u64> = (0..count).map(|_| double(self.rng)).collect();
                tries_attr(id, &t)
            }
        }
    }

    /// A child of the filter, with its own children behind it.
    pub fn child(&mut self, e: EId) -> Vec<Node> {
        let mut n = Node::fe(e);
        let mut below = match e {
            EId::FeComponentTransfer => self.component_transfer(&mut n),
            EId::FeDiffuseLighting => self.lighting(&mut n, false),
            EId::FeSpecularLighting => self.lighting(&mut n, true),
            EId::FeMerge => self.merge(),
            _ => Vec::new(),
        };
        match e {
            EId::FeBlend => self.blend(&mut n),
            EId::FeColorMatrix => self.color_matrix(&mut n),
            EId::FeComposite => self.composite(&mut n),
            EId::FeConvolveMatrix => self.convolve_matrix(&mut n),
            EId::FeDisplacementMap => self.displacement_map(&mut n),
            EId::FeDropShadow => self.shadow(&mut n),
            EId::FeFlood => {
                self.color(&mut n, 75, AId::FloodColor);
                self.opacity(&mut n);
            }
            EId::FeGaussianBlur => {
                self.input(&mut n, AId::In);
                self.tries(&mut n, AId::StdDeviation, |g| double(g.rng));
            }
            EId::FeMorphology => self.morphology(&mut n),
            EId::FeOffset => {
                self.input(&mut n, AId::In);
                self.numbers(&mut n, &[AId::Dx, AId::Dy]);
            }
            EId::FeTile => self.input(&mut n, AId::In),
            EId::FeTurbulence => self.turbulence(&mut n),
            _ => {}
        }
        self.common(&mut n);
        if self.rng.percent(4) {
            below.push(self.any_child());
        }
        let mut all = vec![n];
        all.append(&mut below);
        all
    }

    /// What every child may have.
    fn common(&mut self, n: &mut Node) {
        n.font_size = self.font_size();
        self.subregion(n);
        if self.rng.percent(35) {
            n.set(text_attr(AId::ColorInterpolationFilters, *self.rng.pick(INTERPOLATIONS)));
        }
        if self.rng.percent(45) {
            let name = self.name();
            self.results.push(name.clone());
            n.set(Attr::new(AId::Result as u16, 1, name));
        }
        if self.rng.percent(10) {
            self.foreign(n);
        }
        self.children += 1;
    }

    /// A child that makes a primitive, one that doesn't, or one without a tag.
    fn some_child(&mut self) -> Vec<Node> {
        match self.rng.weighted(&[93, 5, 2]) {
            0 => {
                let e = *self.rng.pick(&PRIMITIVES);
                self.child(e)
            }
            1 => {
                let e = *self.rng.pick(EIDS);
                self.child(if e == EId::FeImage { EId::G } else { e })
            }
            _ => {
                let mut n = Node::new(0, 0);
                n.font_size = self.font_size();
                vec![n]
            }
        }
    }

    /// A chain of feTile and feMerge that is all about names.
    fn naming_chain(&mut self, count: usize) -> Vec<Node> {
        let mut nodes = Vec::new();
        for _ in 0..count {
            let e = *self.rng.pick(&[EId::FeTile, EId::FeTile, EId::FeMerge, EId::FeBlend, EId::G, EId::FeFlood]);
            let mut n = Node::fe(e);
            if e == EId::FeTile || e == EId::FeBlend {
                self.input(&mut n, AId::In);
                self.input(&mut n, AId::In2);
            }
            if self.rng.percent(45) {
                let name = self.name();
                self.results.push(name.clone());
                n.set(Attr::new(AId::Result as u16, 1, name));
            }
            self.children += 1;
            nodes.push(n);
            if e == EId::FeMerge {
                nodes.append(&mut self.merge());
            }
        }
        nodes
    }
}

fn above_zero(rng: &mut Rng) -> u32 {
    if rng.percent(93) {
        return (rng.within(1, 800) as f32 / 4.0).to_bits();
    }
    loop {
        let bits = number(rng);
        let n = f32::from_bits(bits);
        if n > 0.0 && n < f32::MAX {
            return bits;
        }
    }
}

fn object_box(rng: &mut Rng, extreme: bool) -> [f32; 4] {
    if extreme {
        let big = |rng: &mut Rng| *rng.pick(&[1e30f32, 3e38, 1e-30, 1.0, 1e20, 2e38, 1e-44]);
        return [*rng.pick(&[0.0, -1e30, 1e-30]), 0.0, big(rng), big(rng)];
    }
    let at = |rng: &mut Rng| if rng.percent(40) { 0.0 } else { rng.within(-200, 400) as f32 / 8.0 };
    let size = |rng: &mut Rng| *rng.pick(&[1.0, 2.0, 10.0, 100.0, 0.5, 33.3, 640.0]);
    [at(rng), at(rng), size(rng), size(rng)]
}

/// A header: units, box, region.
pub fn header(rng: &mut Rng, extreme: bool) -> Sheet {
    let mut s = Sheet::plain(Vec::new());
    s.units =
        *rng.pick(&[[0, 0], [0, 0], [0, 2], [0, 1], [0, 1], [1, 0], [1, 1], [1, 1], [2, 2], [2, 0], [2, 1], [1, 2]]);
    let asks = s.units[0] != 0 || s.units[1] == 1;
    if rng.percent(if asks { 97 } else { 30 }) {
        let b = object_box(rng, extreme);
        let right = b[0] + b[2];
        // A box too thin for its place is no rectangle: move it to 0.
        s.set_box(if right > b[0] && b[1] + b[3] > b[1] { b } else { [0.0, 0.0, b[2], b[3]] });
    }
    s.view_box = [above_zero(rng), above_zero(rng)];
    s.dpi = if rng.percent(70) { 96f32.to_bits() } else { above_zero(rng) };
    let box_units = s.units[0] != 0;
    let mut g = Generator::new(rng, box_units);
    g.extreme = extreme;
    s.font_size = g.font_size();
    for i in 0..4 {
        s.lengths[i] = if g.rng.percent(30) { ABSENT } else { g.length(box_units, i > 1) };
    }
    s
}

/// A random sheet that passes 1 to 4; most are accepted.
pub fn sheet(rng: &mut Rng) -> Sheet {
    let extreme = rng.percent(4);
    let mut s = header(rng, extreme);
    let shape = rng.weighted(&[240, 480, 150, 90, 20, 3, 2]);
    let mut g = Generator::new(rng, s.units[1] == 1);
    g.extreme = extreme;
    match shape {
        0 => s.nodes = g.some_child(),
        1 | 2 => {
            let count = if shape == 1 { g.rng.within(2, 6) } else { g.rng.within(7, 20) };
            for _ in 0..count {
                let mut c = g.some_child();
                s.nodes.append(&mut c);
            }
        }
        3 => {
            let count = g.rng.within(8, 40) as usize;
            s.nodes = g.naming_chain(count);
        }
        4 => {
            // many children of one feMerge
            let mut c = g.child(EId::FeTile);
            s.nodes.append(&mut c);
            s.nodes.push(Node::fe(EId::FeMerge));
            for _ in 0..g.rng.within(10, 60) {
                let mut c = g.merge();
                s.nodes.append(&mut c);
            }
        }
        5 => {
            let count = g.rng.within(60, 512) as usize;
            s.nodes = g.naming_chain(count);
            s.nodes.truncate(512);
        }
        _ => {}
    }
    fit(&mut s);
    s
}

/// 65,536 bytes and 512 nodes at most: the last nodes go.
pub fn fit(s: &mut Sheet) {
    s.nodes.truncate(512);
    while s.bytes().len() > 65_536 {
        s.nodes.pop();
    }
}

/// Types lists: each of them with this chance in a hundred. How many numbers a list has stays.
pub fn type_some(s: &mut Sheet, rng: &mut Rng, percent: usize) {
    for a in s.nodes.iter_mut().flat_map(|n| &mut n.attrs).filter(|a| a.kind == 3) {
        if rng.percent(percent) {
            let numbers: Vec<u32> = a.value.chunks(4).map(|c| u32::from_le_bytes(c.try_into().unwrap())).collect();
            let mut text = texts::list(rng, &numbers);
            if rng.percent(1) {
                // the longest text
                text.resize(4096, b' ');
            }
            *a = Attr::new(a.id, 7, text);
        }
    }
}

/// Puts typed lists on nodes that may have them, read there or not.
fn more_typed(s: &mut Sheet, rng: &mut Rng) {
    for n in s.nodes.iter_mut().filter(|n| n.tag != 0) {
        if rng.percent(20) {
            let ids: Vec<AId> =
                oracle::AIDS.iter().copied().filter(|id| oracle::kind_of(n.depth, *id) == Some(3)).collect();
            n.set(typed_attr(*rng.pick(&ids), &texts::any_list(rng, 12)));
        }
    }
}

/// Types lists of a sheet: one in four, or in some sheets every one, and more of them.
pub fn type_lists(s: &mut Sheet, rng: &mut Rng) {
    if rng.percent(12) {
        type_some(s, rng, 100);
        more_typed(s, rng);
    } else {
        type_some(s, rng, 25);
    }
    fit(s);
}

/// Changes bytes of one typed list, if there is one.
pub fn scramble(s: &mut Sheet, rng: &mut Rng) {
    let mut typed: Vec<&mut Attr> = s.nodes.iter_mut().flat_map(|n| &mut n.attrs).filter(|a| a.kind == 7).collect();
    if !typed.is_empty() {
        let at = rng.below(typed.len());
        typed[at].value = texts::scrambled(rng, &typed[at].value);
    }
}
