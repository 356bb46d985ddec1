//! egui's layout.rs, grid.rs and placer.rs, compiled as they are, with stand-ins for what they take
//! from their own crate.
//!
//! The files are not kept here: `oracle/run` copies them to the folder named by EGUI_COPY.

#[cfg(feature = "grid")]
extern crate alloc;

mod direction;

pub mod layout {
    include!(concat!(env!("EGUI_COPY"), "/layout.rs"));

    pub mod driver;
}

#[cfg(feature = "grid")]
pub mod grid {
    include!(concat!(env!("EGUI_COPY"), "/grid.rs"));

    pub mod driver;
}

#[cfg(feature = "placer")]
pub mod placer {
    include!(concat!(env!("EGUI_COPY"), "/placer.rs"));

    pub mod driver;
}

#[cfg(feature = "grid")]
mod context;
#[cfg(feature = "grid")]
mod ui;

#[cfg(feature = "grid")]
pub use {
    context::{Context, Id},
    emath::{Align2, NumExt, Rect, Vec2, vec2},
    ui::{AsIdSalt, Color32, IdSalt, InnerResponse, Painter, Style, Ui, UiBuilder},
};

pub use direction::Direction;
pub use emath::{self, Align};
#[cfg(feature = "grid")]
pub(crate) use layout::Region;
#[cfg(feature = "placer")]
pub(crate) use {emath::Pos2, layout::Layout};
