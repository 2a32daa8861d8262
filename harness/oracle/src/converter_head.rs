// Head of gen/parser/converter.rs, hand-written. Below it stand State, Cache,
// SvgNode's length methods and SvgColorExt, cut from the crate's
// parser/converter.rs.

use std::collections::{HashMap, HashSet};
use std::hash::{Hash, Hasher};
use std::str::FromStr;
use std::sync::Arc;

use svgtypes::Length;

use super::svgtree::{AId, SvgNode};
use super::units;
use crate::*;

/// Stand-in; reached by feImage only.
pub(crate) fn convert_element(_: SvgNode, _: &State, _: &mut Cache, _: &mut Group) {
    unreachable!()
}

