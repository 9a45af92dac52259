//! Bounds, transforms and boxes: document 01, "Boxes".

/// A rectangle: the corner with the least coordinates, then the one with the greatest.
#[derive(Clone, Copy, Debug, Default, PartialEq)]
#[repr(C)]
pub struct Rect {
    /// The least x.
    pub x0: f64,
    /// The least y.
    pub y0: f64,
    /// The greatest x.
    pub x1: f64,
    /// The greatest y.
    pub y1: f64,
}

/// A transform: x goes to a·x + c·y + e, and y to b·x + d·y + f.
#[derive(Clone, Copy, Debug, PartialEq)]
#[repr(C)]
#[allow(missing_docs)]
pub struct Affine {
    pub a: f64,
    pub b: f64,
    pub c: f64,
    pub d: f64,
    pub e: f64,
    pub f: f64,
}

/// A node's box. A kind may join the two.
#[derive(Clone, Copy, Debug, Default, PartialEq)]
#[non_exhaustive]
pub enum BoundingBox {
    /// No box: the node has no bounds, or a number on the way is not finite.
    #[default]
    None,
    /// The box.
    Box(Rect),
}

impl Rect {
    /// The rectangle from (x0, y0) to (x1, y1).
    pub const fn new(x0: f64, y0: f64, x1: f64, y1: f64) -> Self {
        Self { x0, y0, x1, y1 }
    }
}

impl Affine {
    /// The transform that moves nothing.
    pub const IDENTITY: Self = Self::new([1.0, 0.0, 0.0, 1.0, 0.0, 0.0]);

    /// The transform (a b c d e f).
    pub const fn new([a, b, c, d, e, f]: [f64; 6]) -> Self {
        Self { a, b, c, d, e, f }
    }

    /// The shift by (x, y).
    pub const fn translate(x: f64, y: f64) -> Self {
        Self { e: x, f: y, ..Self::IDENTITY }
    }

    /// The scaling by one factor.
    pub const fn scale(factor: f64) -> Self {
        Self { a: factor, d: factor, ..Self::IDENTITY }
    }
}

impl Default for Affine {
    fn default() -> Self {
        Self::IDENTITY
    }
}

impl BoundingBox {
    /// The rectangle, if there is a box.
    pub const fn rect(self) -> Option<Rect> {
        match self {
            Self::None => None,
            Self::Box(rect) => Some(rect),
        }
    }
}

impl From<BoundingBox> for Option<Rect> {
    fn from(bounding_box: BoundingBox) -> Self {
        bounding_box.rect()
    }
}

impl From<[f64; 4]> for Rect {
    fn from([x0, y0, x1, y1]: [f64; 4]) -> Self {
        Self { x0, y0, x1, y1 }
    }
}

impl From<Rect> for [f64; 4] {
    fn from(rect: Rect) -> Self {
        [rect.x0, rect.y0, rect.x1, rect.y1]
    }
}

impl From<[f64; 6]> for Affine {
    fn from(numbers: [f64; 6]) -> Self {
        Self::new(numbers)
    }
}

impl From<Affine> for [f64; 6] {
    fn from(t: Affine) -> Self {
        [t.a, t.b, t.c, t.d, t.e, t.f]
    }
}
