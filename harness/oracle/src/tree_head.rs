// Head of gen/tree/mod.rs, hand-written. Below it stand Opacity,
// NonEmptyString, NonZeroF32, Units, BlendMode and its neighbours, and Color,
// cut from the crate's tree/mod.rs.

pub mod filter;
mod geom;

use std::fmt::Display;

pub use strict_num::{ApproxEqUlps, NonZeroPositiveF32, NormalizedF32};

pub use self::geom::*;

/// Stand-ins for tree nodes; made by feImage only.
#[derive(Clone, Debug)]
pub struct Group {
    pub(crate) id: String,
    pub(crate) children: Vec<Node>,
}
impl Group {
    pub(crate) fn empty() -> Self {
        unreachable!()
    }
    pub fn has_children(&self) -> bool {
        unreachable!()
    }
    pub(crate) fn calculate_bounding_boxes(&mut self) {
        unreachable!()
    }
}
#[derive(Clone, Debug)]
pub struct Leaf {
    pub(crate) id: String,
}
#[derive(Clone, Debug)]
pub enum Node {
    Group(Box<Group>),
    Path(Box<Leaf>),
    Image(Box<Leaf>),
    Text(Box<Leaf>),
}
impl Node {
    pub fn id(&self) -> &str {
        unreachable!()
    }
}
#[derive(Clone, Debug)]
pub struct Fill;
#[derive(Clone, Debug)]
pub struct Stroke;
#[derive(Clone, Debug)]
pub struct ClipPath;
#[derive(Clone, Debug)]
pub struct Mask;
#[derive(Clone, Debug)]
pub struct Paint;

