// Head of gen/parser/paint_server.rs, hand-written. Below it stand
// convert_units, resolve_number and resolve_attr with its helpers, cut from
// the crate's parser/paint_server.rs.

use svgtypes::Length;

use super::converter;
use super::svgtree::{AId, EId, SvgNode};
use crate::{Group, NonZeroRect, Transform, Units};

/// Stand-in; reached by feImage only.
pub(crate) fn update_paint_servers(
    _: &mut Group,
    _: Transform,
    _: Option<()>,
    _: Option<NonZeroRect>,
    _: &mut converter::Cache,
) {
    unreachable!()
}

