use crate::{Rect, Vec2, pos2};

/// One axis of a rectangle: its low and its high.
#[derive(Clone, Copy, Debug, PartialEq)]
pub struct Rangef {
    pub min: f32,
    pub max: f32,
}

#[derive(Clone, Copy, Debug, PartialEq, Eq)]
pub enum Align {
    Min,
    Center,
    Max,
}

impl Align {
    /// Other names of Min and Max (RULES 1.4).
    pub const LEFT: Self = Self::Min;
    pub const TOP: Self = Self::Min;
    pub const RIGHT: Self = Self::Max;
    pub const BOTTOM: Self = Self::Max;

    /// RULES 1.13: the size stands at the low end, in the middle or at the high end of the range.
    ///
    /// Infinite is +infinity alone, of the size and of the width high - low.
    pub fn align_size_within_range(self, size: f32, range: Rangef) -> Rangef {
        let Rangef {
            min: low,
            max: high,
        } = range;
        let infinite_size = size == f32::INFINITY;
        let infinite_range = high - low == f32::INFINITY;
        let (min, max) = match self {
            _ if infinite_size && infinite_range => (low, high),
            Self::Min => (low, low + size),
            Self::Max => (high - size, high),
            Self::Center if infinite_size => (f32::NEG_INFINITY, f32::INFINITY),
            Self::Center => {
                let start = (low + high) / 2.0 - size / 2.0;
                (start, start + size)
            }
        };
        Rangef { min, max }
    }
}

/// An `Align` across, and one down.
#[derive(Clone, Copy, Debug, PartialEq, Eq)]
pub struct Align2 {
    across: Align,
    down: Align,
}

impl Align2 {
    /// At the left, in the middle of the height (RULES 1.4).
    pub const LEFT_CENTER: Self = Self::new(Align::Min, Align::Center);

    pub const fn new(across: Align, down: Align) -> Self {
        Self { across, down }
    }

    #[must_use]
    pub const fn with_x(self, across: Align) -> Self {
        Self { across, ..self }
    }

    #[must_use]
    pub const fn with_y(self, down: Align) -> Self {
        Self { down, ..self }
    }

    /// RULES 1.14: on both axes.
    pub fn align_size_within_rect(self, size: Vec2, frame: Rect) -> Rect {
        let x = self.across.align_size_within_range(
            size.x,
            Rangef {
                min: frame.left(),
                max: frame.right(),
            },
        );
        let y = self.down.align_size_within_range(
            size.y,
            Rangef {
                min: frame.top(),
                max: frame.bottom(),
            },
        );
        Rect::from_min_max(pos2(x.min, y.min), pos2(x.max, y.max))
    }
}
