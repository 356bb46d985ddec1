use crate::{Rect, pos2};

/// RULES 1.2: ticks to a point.
const TICKS_PER_POINT: f32 = 32.0;

pub trait GuiRounding {
    #[must_use]
    fn round_ui(self) -> Self;
}

/// RULES 1.16, for any number of steps to the point. Rust's round is that of RULES 1.15 but for a
/// zero's sign.
pub fn round_to_steps(x: f32, per_point: f32) -> f32 {
    (x * per_point).round() / per_point
}

impl GuiRounding for f32 {
    fn round_ui(self) -> Self {
        round_to_steps(self, TICKS_PER_POINT)
    }
}

/// RULES 1.16: edge by edge.
impl GuiRounding for Rect {
    fn round_ui(self) -> Self {
        Self::from_min_max(
            pos2(self.min.x.round_ui(), self.min.y.round_ui()),
            pos2(self.max.x.round_ui(), self.max.y.round_ui()),
        )
    }
}
