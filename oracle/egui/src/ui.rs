//! Stand-ins for `Ui` and what hangs on it. `GridLayout::new` reads a `Ui`'s two rectangles, its
//! spacing and whether it is sizing; the rest is there so that grid.rs compiles, and nothing compared
//! rests on it.

use std::sync::Arc;

use crate::grid::GridLayout;
use crate::{Context, Id, Rect, Vec2};

#[derive(Clone, Copy, Default)]
pub struct Color32;

#[derive(Default)]
pub struct Visuals {
    pub striped: bool,
    pub faint_bg_color: Color32,
}

#[derive(Default)]
pub struct Spacing {
    pub item_spacing: Vec2,
    pub interact_size: Vec2,
}

#[derive(Default)]
pub struct Style {
    pub spacing: Spacing,
    pub visuals: Visuals,
}

#[derive(Default)]
pub struct Painter;

impl Painter {
    pub fn rect_filled(&self, _rect: Rect, _rounding: f32, _color: Color32) {}
}

pub trait AsIdSalt {}

impl AsIdSalt for &str {}

pub struct IdSalt;

impl IdSalt {
    pub fn new(_salt: impl AsIdSalt) -> Self {
        Self
    }
}

pub struct InnerResponse<R> {
    pub inner: R,
}

#[derive(Default)]
pub struct UiBuilder;

impl UiBuilder {
    pub fn new() -> Self {
        Self
    }

    #[must_use]
    pub fn max_rect(self, _max_rect: Rect) -> Self {
        self
    }

    #[must_use]
    pub fn sizing_pass(self) -> Self {
        self
    }

    #[must_use]
    pub fn invisible(self) -> Self {
        self
    }
}

pub struct Placer {
    max_rect: Rect,
}

impl Placer {
    pub fn max_rect(&self) -> Rect {
        self.max_rect
    }
}

pub struct Ui {
    placer: Placer,
    cursor: Rect,
    sizing: bool,
    ctx: Context,
    style: Arc<Style>,
    painter: Painter,
}

impl Ui {
    pub fn of(max_rect: Rect, cursor: Rect, sizing: bool, ctx: Context) -> Self {
        Self {
            placer: Placer { max_rect },
            cursor,
            sizing,
            ctx,
            style: Arc::default(),
            painter: Painter,
        }
    }

    pub fn placer(&self) -> &Placer {
        &self.placer
    }

    pub fn max_rect(&self) -> Rect {
        self.placer.max_rect
    }

    pub fn cursor(&self) -> Rect {
        self.cursor
    }

    pub fn is_sizing_pass(&self) -> bool {
        self.sizing
    }

    pub fn is_visible(&self) -> bool {
        false
    }

    pub fn ctx(&self) -> &Context {
        &self.ctx
    }

    pub fn style(&self) -> &Arc<Style> {
        &self.style
    }

    pub fn spacing(&self) -> &Spacing {
        &self.style.spacing
    }

    pub fn visuals(&self) -> &Visuals {
        &self.style.visuals
    }

    pub fn painter(&self) -> &Painter {
        &self.painter
    }

    pub fn make_persistent_id(&self, _salt: IdSalt) -> Id {
        Id
    }

    pub fn request_discard(&self, _why: &str) {}

    pub fn scope_builder<R>(
        &mut self,
        _builder: UiBuilder,
        add_contents: impl FnOnce(&mut Self) -> R,
    ) -> InnerResponse<R> {
        let inner = add_contents(self);
        InnerResponse { inner }
    }

    pub fn horizontal<R>(&mut self, add_contents: impl FnOnce(&mut Self) -> R) -> InnerResponse<R> {
        let inner = add_contents(self);
        InnerResponse { inner }
    }

    pub(crate) fn set_grid(&mut self, _grid: GridLayout) {}

    pub fn save_grid(&mut self) {}
}
