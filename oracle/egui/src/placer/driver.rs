//! The way into placer.rs: a child module sees the private fields and functions of its `Placer`.

use emath::{Pos2, Rect, Vec2};

use super::Placer;
use crate::Painter;
use crate::grid::driver::{self as grids, Grid, Memory};
use crate::layout::Layout;
use crate::layout::driver::{self as regions, State};

/// A call that takes one length, by its number in the port's entry point.
#[derive(Clone, Copy, Debug, PartialEq)]
pub enum ByLength {
    AdvanceCursor,
    SetRowHeight,
    ExpandToIncludeX,
    ExpandToIncludeY,
    SetMaxWidth,
    SetMaxHeight,
    SetMinWidth,
    SetMinHeight,
}

pub struct Running(Placer);

impl Running {
    pub fn new(max_rect: Rect, layout: Layout) -> Self {
        Self(Placer::new(max_rect, layout))
    }

    pub fn of(layout: Layout, region: &State, grid: Option<&Grid>) -> Self {
        Self(Placer {
            grid: grid.map(grids::grid_layout),
            layout,
            region: regions::region(region),
        })
    }

    pub fn region(&self) -> State {
        regions::state(self.0.region)
    }

    pub fn grid(&self) -> Option<Grid> {
        self.0.grid().map(grids::grid)
    }

    pub fn layout(&self) -> Layout {
        *self.0.layout()
    }

    pub fn is_grid(&self) -> bool {
        self.0.is_grid()
    }

    pub fn prefer_right_to_left(&self) -> bool {
        self.0.prefer_right_to_left()
    }

    pub fn min_rect(&self) -> Rect {
        self.0.min_rect()
    }

    pub fn max_rect(&self) -> Rect {
        self.0.max_rect()
    }

    pub fn cursor(&self) -> Rect {
        self.0.cursor()
    }

    pub fn set_grid(&mut self, grid: &Grid) {
        self.0.set_grid(grids::grid_layout(grid));
    }

    /// The same for a grid that is running already.
    pub fn put_grid(&mut self, grid: grids::Running) {
        self.0.set_grid(grid.into_layout());
    }

    /// What this pass remembers, and whether `save_grid` stored it; nothing without a grid.
    pub fn saved_grid(&mut self) -> Option<(Memory, bool)> {
        self.0.save_grid();
        self.0.grid().map(grids::remembered)
    }

    /// What is stored afterwards, and whether `save_grid` stored it; nothing without a grid.
    pub fn save_grid(&mut self) -> (Memory, bool) {
        let ctx = self.0.grid().map(grids::before_save);
        self.0.save_grid();
        ctx.map_or((Memory::EMPTY, false), |ctx| grids::after_save(&ctx))
    }

    pub fn force_set_min_rect(&mut self, min_rect: Rect) {
        self.0.force_set_min_rect(min_rect);
    }

    pub fn set_cursor(&mut self, cursor: Rect) {
        self.0.set_cursor(cursor);
    }

    pub fn align_size_within_rect(&self, size: Vec2, outer: Rect) -> Rect {
        self.0.align_size_within_rect(size, outer)
    }

    pub fn available_rect_before_wrap(&self) -> Rect {
        self.0.available_rect_before_wrap()
    }

    pub fn available_size(&self) -> Vec2 {
        self.0.available_size()
    }

    pub fn next_space(&self, child_size: Vec2, item_spacing: Vec2) -> Rect {
        self.0.next_space(child_size, item_spacing)
    }

    pub fn next_widget_position(&self) -> Pos2 {
        self.0.next_widget_position()
    }

    pub fn justify_and_align(&self, rect: Rect, child_size: Vec2) -> Rect {
        self.0.justify_and_align(rect, child_size)
    }

    pub fn advance_after_rects(&mut self, frame: Rect, widget: Rect, item_spacing: Vec2) {
        self.0.advance_after_rects(frame, widget, item_spacing);
    }

    pub fn end_row(&mut self, item_spacing: Vec2) {
        self.0.end_row(item_spacing, &Painter);
    }

    pub fn expand_to_include_rect(&mut self, rect: Rect) {
        self.0.expand_to_include_rect(rect);
    }

    pub fn next_widget_space_ignore_wrap_justify(&self, size: Vec2) -> Rect {
        self.0.next_widget_space_ignore_wrap_justify(size)
    }

    pub fn change_by_length(&mut self, call: ByLength, length: f32) {
        let Self(placer) = self;
        match call {
            ByLength::AdvanceCursor => placer.advance_cursor(length),
            ByLength::SetRowHeight => placer.set_row_height(length),
            ByLength::ExpandToIncludeX => placer.expand_to_include_x(length),
            ByLength::ExpandToIncludeY => placer.expand_to_include_y(length),
            ByLength::SetMaxWidth => placer.set_max_width(length),
            ByLength::SetMaxHeight => placer.set_max_height(length),
            ByLength::SetMinWidth => placer.set_min_width(length),
            ByLength::SetMinHeight => placer.set_min_height(length),
        }
    }
}
