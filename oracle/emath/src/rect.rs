use std::ops::BitOrAssign;

use crate::{Pos2, Vec2, pos2, vec2};

/// RULES 1.4. Left and top are in `min`, right and bottom in `max`, as layout.rs reads them.
#[derive(Clone, Copy, Debug, PartialEq)]
pub struct Rect {
    pub min: Pos2,
    pub max: Pos2,
}

impl Rect {
    /// RULES gives it no meaning: layout.rs writes over it before it is read.
    pub const NOTHING: Self = Self {
        min: pos2(f32::INFINITY, f32::INFINITY),
        max: pos2(f32::NEG_INFINITY, f32::NEG_INFINITY),
    };

    pub const fn from_min_max(min: Pos2, max: Pos2) -> Self {
        Self { min, max }
    }

    /// RULES 1.7.
    pub fn from_min_size(min: Pos2, size: Vec2) -> Self {
        Self::from_min_max(min, pos2(min.x + size.x, min.y + size.y))
    }

    /// RULES 1.7.
    pub fn from_center_size(center: Pos2, size: Vec2) -> Self {
        let half = 0.5 * size;
        Self::from_min_max(
            pos2(center.x - half.x, center.y - half.y),
            pos2(center.x + half.x, center.y + half.y),
        )
    }

    pub fn left(&self) -> f32 {
        self.min.x
    }

    pub fn top(&self) -> f32 {
        self.min.y
    }

    pub fn right(&self) -> f32 {
        self.max.x
    }

    pub fn bottom(&self) -> f32 {
        self.max.y
    }

    /// RULES 1.5.
    pub fn width(&self) -> f32 {
        self.right() - self.left()
    }

    /// RULES 1.5, downward.
    pub fn height(&self) -> f32 {
        self.bottom() - self.top()
    }

    pub fn size(&self) -> Vec2 {
        vec2(self.width(), self.height())
    }

    /// RULES 1.6.
    pub fn center(&self) -> Pos2 {
        pos2(
            (self.left() + self.right()) / 2.0,
            (self.top() + self.bottom()) / 2.0,
        )
    }

    /// RULES 1.8.
    #[must_use]
    pub fn translate(self, amount: Vec2) -> Self {
        let low = pos2(self.min.x + amount.x, self.min.y + amount.y);
        Self::from_min_size(low, self.size())
    }

    /// RULES 1.12.
    #[must_use]
    pub fn shrink(self, amount: f32) -> Self {
        Self::from_min_max(
            pos2(self.min.x + amount, self.min.y + amount),
            pos2(self.max.x - amount, self.max.y - amount),
        )
    }

    /// For painting, which is left out (RULES 3.17).
    #[must_use]
    pub fn expand2(self, amount: Vec2) -> Self {
        Self::from_min_max(
            pos2(self.min.x - amount.x, self.min.y - amount.y),
            pos2(self.max.x + amount.x, self.max.y + amount.y),
        )
    }

    /// RULES 1.9.
    #[must_use]
    pub fn intersect(self, other: Self) -> Self {
        Self::from_min_max(
            pos2(self.min.x.max(other.min.x), self.min.y.max(other.min.y)),
            pos2(self.max.x.min(other.max.x), self.max.y.min(other.max.y)),
        )
    }

    /// RULES 1.11.
    pub fn intersects(self, other: Self) -> bool {
        let across = self.min.x <= other.max.x && other.min.x <= self.max.x;
        let down = self.min.y <= other.max.y && other.min.y <= self.max.y;
        across && down
    }

    /// RULES 1.10.
    pub fn extend_with_x(&mut self, x: f32) {
        self.min.x = self.min.x.min(x);
        self.max.x = self.max.x.max(x);
    }

    /// As `extend_with_x`, downward.
    pub fn extend_with_y(&mut self, y: f32) {
        self.min.y = self.min.y.min(y);
        self.max.y = self.max.y.max(y);
    }

    /// Inside out on some axis. Only assertions of the three files ask, and they are off.
    pub fn is_negative(&self) -> bool {
        self.max.x < self.min.x || self.max.y < self.min.y
    }

    /// Only assertions of the three files ask, and they are off.
    pub fn any_nan(&self) -> bool {
        [self.min.x, self.min.y, self.max.x, self.max.y]
            .iter()
            .any(|edge| edge.is_nan())
    }
}

/// RULES 1.9, where it is called union.
impl BitOrAssign for Rect {
    fn bitor_assign(&mut self, other: Self) {
        self.min.x = self.min.x.min(other.min.x);
        self.min.y = self.min.y.min(other.min.y);
        self.max.x = self.max.x.max(other.max.x);
        self.max.y = self.max.y.max(other.max.y);
    }
}
