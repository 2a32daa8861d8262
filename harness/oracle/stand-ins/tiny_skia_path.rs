//! Stand-in for the crate tiny-skia-path: only the geometry that usvg's filter code and tree/geom.rs need.
//! `Rect` follows tiny-skia-path 0.8.3 as Debian packages it (rect.rs: from_ltrb, from_xywh, checked_f32_sub).
//! `NonZeroRect`, `Size` and `bbox_transform` are not in 0.8.3: they are written from document 01, "Geometry beneath the
//! crate". Which version usvg 0.49.0 names is not known here: its Cargo.toml was not at hand.

use strict_num::{FiniteF32, NonZeroPositiveF32};

fn checked_f32_sub(a: f32, b: f32) -> Option<f32> {
    let n = a as f64 - b as f64;
    if n > f32::MIN as f64 && n < f32::MAX as f64 {
        Some(n as f32)
    } else {
        None
    }
}

#[derive(Copy, Clone, PartialEq, Debug)]
pub struct Rect {
    left: FiniteF32,
    top: FiniteF32,
    right: FiniteF32,
    bottom: FiniteF32,
}

impl Rect {
    pub fn from_ltrb(left: f32, top: f32, right: f32, bottom: f32) -> Option<Self> {
        let left = FiniteF32::new(left)?;
        let top = FiniteF32::new(top)?;
        let right = FiniteF32::new(right)?;
        let bottom = FiniteF32::new(bottom)?;
        if left.get() <= right.get() && top.get() <= bottom.get() {
            checked_f32_sub(right.get(), left.get())?;
            checked_f32_sub(bottom.get(), top.get())?;
            Some(Rect { left, top, right, bottom })
        } else {
            None
        }
    }
    pub fn from_xywh(x: f32, y: f32, w: f32, h: f32) -> Option<Self> {
        Rect::from_ltrb(x, y, w + x, h + y)
    }
    pub fn left(&self) -> f32 {
        self.left.get()
    }
    pub fn top(&self) -> f32 {
        self.top.get()
    }
    pub fn right(&self) -> f32 {
        self.right.get()
    }
    pub fn bottom(&self) -> f32 {
        self.bottom.get()
    }
}

/// Like `Rect`, but left < right and top < bottom.
#[derive(Copy, Clone, PartialEq, Debug)]
pub struct NonZeroRect {
    left: FiniteF32,
    top: FiniteF32,
    right: FiniteF32,
    bottom: FiniteF32,
}

impl NonZeroRect {
    pub fn from_ltrb(left: f32, top: f32, right: f32, bottom: f32) -> Option<Self> {
        let left = FiniteF32::new(left)?;
        let top = FiniteF32::new(top)?;
        let right = FiniteF32::new(right)?;
        let bottom = FiniteF32::new(bottom)?;
        if left.get() < right.get() && top.get() < bottom.get() {
            checked_f32_sub(right.get(), left.get())?;
            checked_f32_sub(bottom.get(), top.get())?;
            Some(NonZeroRect { left, top, right, bottom })
        } else {
            None
        }
    }
    pub fn from_xywh(x: f32, y: f32, w: f32, h: f32) -> Option<Self> {
        NonZeroRect::from_ltrb(x, y, w + x, h + y)
    }
    pub fn left(&self) -> f32 {
        self.left.get()
    }
    pub fn top(&self) -> f32 {
        self.top.get()
    }
    pub fn right(&self) -> f32 {
        self.right.get()
    }
    pub fn bottom(&self) -> f32 {
        self.bottom.get()
    }
    pub fn x(&self) -> f32 {
        self.left.get()
    }
    pub fn y(&self) -> f32 {
        self.top.get()
    }
    pub fn width(&self) -> f32 {
        self.right.get() - self.left.get()
    }
    pub fn height(&self) -> f32 {
        self.bottom.get() - self.top.get()
    }
    pub fn size(&self) -> Size {
        Size::from_wh(self.width(), self.height()).unwrap()
    }
    pub fn translate_to(&self, x: f32, y: f32) -> Option<Self> {
        Self::from_xywh(x, y, self.width(), self.height())
    }
    /// Placing `self` in `bbox`. Panics when there is no such rectangle.
    pub fn bbox_transform(&self, bbox: NonZeroRect) -> Self {
        let x = self.x() * bbox.width() + bbox.x();
        let y = self.y() * bbox.height() + bbox.y();
        let w = self.width() * bbox.width();
        let h = self.height() * bbox.height();
        Self::from_xywh(x, y, w, h).unwrap()
    }
}

#[derive(Copy, Clone, PartialEq, Debug)]
pub struct Size {
    width: NonZeroPositiveF32,
    height: NonZeroPositiveF32,
}

impl Size {
    pub fn from_wh(width: f32, height: f32) -> Option<Self> {
        Some(Size {
            width: NonZeroPositiveF32::new(width)?,
            height: NonZeroPositiveF32::new(height)?,
        })
    }
    pub fn width(&self) -> f32 {
        self.width.get()
    }
    pub fn height(&self) -> f32 {
        self.height.get()
    }
}

/// Never reached by the filter code (feImage aside); compiles only.
#[derive(Copy, Clone, PartialEq, Debug, Default)]
pub struct Transform;

impl Transform {
    pub fn from_row(_: f32, _: f32, _: f32, _: f32, _: f32, _: f32) -> Self {
        Transform
    }
    pub fn is_valid(&self) -> bool {
        true
    }
}
