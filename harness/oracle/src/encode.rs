//! The list's bytes (document 01): fields in declaration order, an enum as its
//! place in the declaration, text and Vec with a u16 count, Option and bool as
//! one byte. All of this is the oracle's own.

use strict_num::PositiveF32;

use crate::filter::*;
use crate::{BlendMode, Color, NonZeroF32, NonZeroRect, Opacity};

type Out = Vec<u8>;

fn n32(o: &mut Out, n: f32) {
    o.extend(n.to_bits().to_le_bytes());
}
fn u32_(o: &mut Out, n: u32) {
    o.extend(n.to_le_bytes());
}
fn count(o: &mut Out, n: usize) {
    o.extend(u16::try_from(n).expect("a count beyond u16").to_le_bytes());
}
fn numbers(o: &mut Out, v: &[f32]) {
    count(o, v.len());
    for n in v {
        n32(o, *n);
    }
}
fn text(o: &mut Out, s: &str) {
    count(o, s.len());
    o.extend(s.as_bytes());
}
fn rect(o: &mut Out, r: NonZeroRect) {
    n32(o, r.x());
    n32(o, r.y());
    n32(o, r.width());
    n32(o, r.height());
}
fn color(o: &mut Out, c: Color) {
    o.extend([c.red, c.green, c.blue]);
}
fn positive(o: &mut Out, n: PositiveF32) {
    n32(o, n.get());
}
fn opacity(o: &mut Out, n: Opacity) {
    n32(o, n.get());
}
fn input(o: &mut Out, i: &Input) {
    match i {
        Input::SourceGraphic => o.push(0),
        Input::SourceAlpha => o.push(1),
        Input::Reference(s) => {
            o.push(2);
            text(o, s);
        }
    }
}
fn transfer(o: &mut Out, f: &TransferFunction) {
    match f {
        TransferFunction::Identity => o.push(0),
        TransferFunction::Table(v) => {
            o.push(1);
            numbers(o, v);
        }
        TransferFunction::Discrete(v) => {
            o.push(2);
            numbers(o, v);
        }
        TransferFunction::Linear { slope, intercept } => {
            o.push(3);
            n32(o, *slope);
            n32(o, *intercept);
        }
        TransferFunction::Gamma { amplitude, exponent, offset } => {
            o.push(4);
            n32(o, *amplitude);
            n32(o, *exponent);
            n32(o, *offset);
        }
    }
}
fn light(o: &mut Out, l: &LightSource) {
    match l {
        LightSource::DistantLight(l) => {
            o.push(0);
            n32(o, l.azimuth);
            n32(o, l.elevation);
        }
        LightSource::PointLight(l) => {
            o.push(1);
            n32(o, l.x);
            n32(o, l.y);
            n32(o, l.z);
        }
        LightSource::SpotLight(l) => {
            o.push(2);
            n32(o, l.x);
            n32(o, l.y);
            n32(o, l.z);
            n32(o, l.points_at_x);
            n32(o, l.points_at_y);
            n32(o, l.points_at_z);
            positive(o, l.specular_exponent);
            match l.limiting_cone_angle {
                None => o.push(0),
                Some(n) => {
                    o.push(1);
                    n32(o, n);
                }
            }
        }
    }
}
fn channel(o: &mut Out, c: ColorChannel) {
    o.push(match c {
        ColorChannel::R => 0,
        ColorChannel::G => 1,
        ColorChannel::B => 2,
        ColorChannel::A => 3,
    });
}
fn blend_mode(o: &mut Out, m: BlendMode) {
    o.push(match m {
        BlendMode::Normal => 0,
        BlendMode::Multiply => 1,
        BlendMode::Screen => 2,
        BlendMode::Overlay => 3,
        BlendMode::Darken => 4,
        BlendMode::Lighten => 5,
        BlendMode::ColorDodge => 6,
        BlendMode::ColorBurn => 7,
        BlendMode::HardLight => 8,
        BlendMode::SoftLight => 9,
        BlendMode::Difference => 10,
        BlendMode::Exclusion => 11,
        BlendMode::Hue => 12,
        BlendMode::Saturation => 13,
        BlendMode::Color => 14,
        BlendMode::Luminosity => 15,
        BlendMode::PlusLighter => unreachable!("mix-blend-mode only"),
    });
}

pub fn kind(o: &mut Out, k: &Kind) {
    match k {
        Kind::Blend(f) => {
            o.push(0);
            input(o, &f.input1);
            input(o, &f.input2);
            blend_mode(o, f.mode);
        }
        Kind::ColorMatrix(f) => {
            o.push(1);
            input(o, &f.input);
            match &f.kind {
                ColorMatrixKind::Matrix(v) => {
                    o.push(0);
                    numbers(o, v);
                }
                ColorMatrixKind::Saturate(n) => {
                    o.push(1);
                    positive(o, *n);
                }
                ColorMatrixKind::HueRotate(n) => {
                    o.push(2);
                    n32(o, *n);
                }
                ColorMatrixKind::LuminanceToAlpha => o.push(3),
            }
        }
        Kind::ComponentTransfer(f) => {
            o.push(2);
            input(o, &f.input);
            transfer(o, &f.func_r);
            transfer(o, &f.func_g);
            transfer(o, &f.func_b);
            transfer(o, &f.func_a);
        }
        Kind::Composite(f) => {
            o.push(3);
            input(o, &f.input1);
            input(o, &f.input2);
            match f.operator {
                CompositeOperator::Over => o.push(0),
                CompositeOperator::In => o.push(1),
                CompositeOperator::Out => o.push(2),
                CompositeOperator::Atop => o.push(3),
                CompositeOperator::Xor => o.push(4),
                CompositeOperator::Lighter => o.push(5),
                CompositeOperator::Arithmetic { k1, k2, k3, k4 } => {
                    o.push(6);
                    n32(o, k1);
                    n32(o, k2);
                    n32(o, k3);
                    n32(o, k4);
                }
            }
        }
        Kind::ConvolveMatrix(f) => {
            o.push(4);
            input(o, &f.input);
            u32_(o, f.matrix.target_x);
            u32_(o, f.matrix.target_y);
            u32_(o, f.matrix.columns);
            u32_(o, f.matrix.rows);
            numbers(o, &f.matrix.data);
            n32(o, f.divisor.get());
            n32(o, f.bias);
            o.push(match f.edge_mode {
                EdgeMode::None => 0,
                EdgeMode::Duplicate => 1,
                EdgeMode::Wrap => 2,
            });
            o.push(f.preserve_alpha as u8);
        }
        Kind::DiffuseLighting(f) => {
            o.push(5);
            input(o, &f.input);
            n32(o, f.surface_scale);
            n32(o, f.diffuse_constant);
            color(o, f.lighting_color);
            light(o, &f.light_source);
        }
        Kind::DisplacementMap(f) => {
            o.push(6);
            input(o, &f.input1);
            input(o, &f.input2);
            n32(o, f.scale);
            channel(o, f.x_channel_selector);
            channel(o, f.y_channel_selector);
        }
        Kind::DropShadow(f) => {
            o.push(7);
            input(o, &f.input);
            n32(o, f.dx);
            n32(o, f.dy);
            positive(o, f.std_dev_x);
            positive(o, f.std_dev_y);
            color(o, f.color);
            opacity(o, f.opacity);
        }
        Kind::Flood(f) => {
            o.push(8);
            color(o, f.color);
            opacity(o, f.opacity);
        }
        Kind::GaussianBlur(f) => {
            o.push(9);
            input(o, &f.input);
            positive(o, f.std_dev_x);
            positive(o, f.std_dev_y);
        }
        Kind::Image(_) => unreachable!("feImage is refused"),
        Kind::Merge(f) => {
            o.push(11);
            count(o, f.inputs.len());
            for i in &f.inputs {
                input(o, i);
            }
        }
        Kind::Morphology(f) => {
            o.push(12);
            input(o, &f.input);
            o.push(match f.operator {
                MorphologyOperator::Erode => 0,
                MorphologyOperator::Dilate => 1,
            });
            positive(o, f.radius_x);
            positive(o, f.radius_y);
        }
        Kind::Offset(f) => {
            o.push(13);
            input(o, &f.input);
            n32(o, f.dx);
            n32(o, f.dy);
        }
        Kind::SpecularLighting(f) => {
            o.push(14);
            input(o, &f.input);
            n32(o, f.surface_scale);
            n32(o, f.specular_constant);
            n32(o, f.specular_exponent);
            color(o, f.lighting_color);
            light(o, &f.light_source);
        }
        Kind::Tile(f) => {
            o.push(15);
            input(o, &f.input);
        }
        Kind::Turbulence(f) => {
            o.push(16);
            positive(o, f.base_frequency_x);
            positive(o, f.base_frequency_y);
            u32_(o, f.num_octaves);
            o.extend(f.seed.to_le_bytes());
            o.push(f.stitch_tiles as u8);
            o.push(match f.kind {
                TurbulenceKind::FractalNoise => 0,
                TurbulenceKind::Turbulence => 1,
            });
        }
    }
}

/// The list's bytes, appended to an empty `out`.
pub fn list(out: &mut Vec<u8>, primitives: &[Primitive]) {
    count(out, primitives.len());
    out.resize(2 + 8 * primitives.len(), 0);
    for (i, p) in primitives.iter().enumerate() {
        let at = out.len();
        rect(out, p.rect);
        out.push(match p.color_interpolation {
            ColorInterpolation::SRGB => 0,
            ColorInterpolation::LinearRGB => 1,
        });
        text(out, &p.result);
        kind(out, &p.kind);
        let length = out.len() - at;
        let pair = &mut out[2 + 8 * i..10 + 8 * i];
        pair[..4].copy_from_slice(&u32::try_from(at).unwrap().to_le_bytes());
        pair[4..].copy_from_slice(&(length as u32).to_le_bytes());
    }
}
