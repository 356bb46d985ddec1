//! Stand-ins for the items of egui's `emath` that layout.rs, placer.rs and grid.rs use.
//!
//! emath's own files are not at hand, so these are written from RULES 1, whose numbers they cite.
//! Items of which RULES says nothing say so, and nothing compared rests on them.

mod align;
mod gui_rounding;
mod num;
mod rect;
mod vec2;

pub use align::{Align, Align2, Rangef};
pub use gui_rounding::{GuiRounding, round_to_steps};
pub use num::{NumExt, fast_midpoint};
pub use rect::Rect;
pub use vec2::{Pos2, Vec2, pos2, vec2};
