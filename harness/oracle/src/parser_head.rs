// Head of gen/parser/mod.rs, hand-written. Below it stand OptionLog and
// f32_bound, cut from the crate's parser/mod.rs.

pub(crate) mod converter;
pub(crate) mod filter;
pub(crate) mod paint_server;
pub(crate) mod svgtree;
pub(crate) mod units;

/// Stand-in for the crate's options.
pub struct Options<'a> {
    pub dpi: f32,
    pub font_size: f32,
    pub image_rendering: crate::ImageRendering,
    pub _life: std::marker::PhantomData<&'a ()>,
}

/// Stand-in; reached by feImage only.
pub(crate) mod image {
    use super::converter;
    use crate::{Group, ImageRendering, NonZeroRect, Size};
    pub struct Data;
    impl Data {
        pub fn actual_size(&self) -> Option<Size> {
            unreachable!()
        }
    }
    pub(crate) fn get_href_data(_: &str, _: &converter::State) -> Option<Data> {
        unreachable!()
    }
    #[allow(clippy::too_many_arguments)]
    pub(crate) fn convert_inner(
        _: Data,
        _: String,
        _: bool,
        _: ImageRendering,
        _: svgtypes::AspectRatio,
        _: Size,
        _: NonZeroRect,
        _: &mut converter::Cache,
        _: &mut Group,
    ) {
        unreachable!()
    }
}

/// Stand-in; not reached.
mod switch {
    use super::svgtree::SvgNode;
    pub(crate) fn is_condition_passed(_: SvgNode, _: &crate::Options) -> bool {
        unreachable!()
    }
}

