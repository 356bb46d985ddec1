//! The way into grid.rs: a child module sees its `State` and the private fields of its `GridLayout`.

use emath::{Rect, Vec2, pos2, vec2};

use super::{GridLayout, State};
use crate::layout::Region;
use crate::{Context, Id, Painter, Ui};

/// A memory as the port has it: lists in arrays, with the counts of the columns and of the rows.
#[derive(Clone, Copy)]
pub struct Memory {
    pub widths: [f32; 32],
    pub heights: [f32; 128],
    pub counts: [usize; 2],
}

/// A grid as the port has it.
#[derive(Clone, Copy)]
pub struct Grid {
    pub prev: Memory,
    pub curr: Memory,
    /// initial_available, the spacing, the minimum and the maximum cell.
    pub lengths: [f32; 10],
    pub is_first_frame: bool,
    pub sizing_pass: bool,
    /// 0: not named.
    pub num_columns: usize,
    pub col: usize,
    pub row: usize,
}

impl Memory {
    pub const EMPTY: Self = Self {
        widths: [0.0; 32],
        heights: [0.0; 128],
        counts: [0; 2],
    };

    /// A count above the room is a fault; only calls that ask for none get here with one.
    fn lists(&self) -> State {
        State {
            col_widths: self.widths[..self.counts[0].min(32)].to_vec(),
            row_heights: self.heights[..self.counts[1].min(128)].to_vec(),
        }
    }

    /// With zeros beyond the counts.
    fn of(lists: &State) -> Self {
        let mut memory = Self::EMPTY;
        memory.counts = [lists.col_widths.len(), lists.row_heights.len()];
        memory.widths[..memory.counts[0]].copy_from_slice(&lists.col_widths);
        memory.heights[..memory.counts[1]].copy_from_slice(&lists.row_heights);
        memory
    }
}

fn named(num_columns: usize) -> Option<usize> {
    (num_columns != 0).then_some(num_columns)
}

fn rect(&[left, top, right, bottom]: &[f32; 4]) -> Rect {
    Rect::from_min_max(pos2(left, top), pos2(right, bottom))
}

fn edges(r: Rect) -> [f32; 4] {
    [r.left(), r.top(), r.right(), r.bottom()]
}

pub(crate) fn grid_layout(grid: &Grid) -> GridLayout {
    let [l, t, r, b, across, down, ..] = grid.lengths;
    let [.., min_x, min_y, max_x, max_y] = grid.lengths;
    GridLayout {
        ctx: Context::default(),
        style: Default::default(),
        id: Id,
        is_first_frame: grid.is_first_frame,
        prev_state: grid.prev.lists(),
        curr_state: grid.curr.lists(),
        initial_available: rect(&[l, t, r, b]),
        sizing_pass: grid.sizing_pass,
        num_columns: named(grid.num_columns),
        spacing: vec2(across, down),
        min_cell_size: vec2(min_x, min_y),
        max_cell_size: vec2(max_x, max_y),
        color_picker: None,
        col: grid.col,
        row: grid.row,
    }
}

pub(crate) fn grid(grid: &GridLayout) -> Grid {
    let [l, t, r, b] = edges(grid.initial_available);
    let [spacing, min, max] = [grid.spacing, grid.min_cell_size, grid.max_cell_size];
    Grid {
        prev: Memory::of(&grid.prev_state),
        curr: Memory::of(&grid.curr_state),
        lengths: [l, t, r, b, spacing.x, spacing.y, min.x, min.y, max.x, max.y],
        is_first_frame: grid.is_first_frame,
        sizing_pass: grid.sizing_pass,
        num_columns: grid.num_columns.unwrap_or(0),
        col: grid.col,
        row: grid.row,
    }
}

/// Where `save` will store. It holds the memory of the pass before, where there was one.
pub(crate) fn before_save(grid: &GridLayout) -> Context {
    if !grid.is_first_frame {
        grid.prev_state.clone().store(&grid.ctx, grid.id);
    }
    grid.ctx.data_mut(|data| data.take_inserted());
    grid.ctx.clone()
}

/// What is stored there, and whether `save` stored it.
pub(crate) fn after_save(ctx: &Context) -> (Memory, bool) {
    let saved = ctx.data_mut(|data| data.take_inserted());
    let stored = State::load(ctx, Id).unwrap_or_default();
    (Memory::of(&stored), saved)
}

/// What the pass remembers, and whether `save` stored it: what it does not store is there already.
#[cfg(feature = "placer")]
pub(crate) fn remembered(grid: &GridLayout) -> (Memory, bool) {
    let saved = grid.ctx.data_mut(|data| data.take_inserted());
    (Memory::of(&grid.curr_state), saved)
}

/// A `GridLayout`, which reads and changes its own state only.
pub struct Running(GridLayout);

impl Running {
    pub fn new(
        max_rect: Rect,
        cursor: Rect,
        memory: Option<&Memory>,
        sizing_pass: bool,
        [spacing, min_cell_size, max_cell_size]: [Vec2; 3],
        num_columns: usize,
        start_row: usize,
    ) -> Self {
        let ui = Ui::of(max_rect, cursor, sizing_pass, Context::default());
        Self(GridLayout {
            num_columns: named(num_columns),
            spacing,
            min_cell_size,
            max_cell_size,
            row: start_row,
            ..GridLayout::new(&ui, Id, memory.map(Memory::lists))
        })
    }

    pub fn of(grid: &Grid) -> Self {
        Self(grid_layout(grid))
    }

    pub fn grid(&self) -> Grid {
        grid(&self.0)
    }

    #[cfg(feature = "placer")]
    pub(crate) fn into_layout(self) -> GridLayout {
        self.0
    }

    pub fn prev_col_width(&self, col: usize) -> f32 {
        self.0.prev_col_width(col)
    }

    pub fn prev_row_height(&self, row: usize) -> f32 {
        self.0.prev_row_height(row)
    }

    pub fn wrap_text(&self) -> bool {
        self.0.wrap_text()
    }

    /// The state is min_rect, max_rect and cursor.
    pub fn available_rect(&self, state: &[f32; 12]) -> Rect {
        let at = |n: usize| rect(&[0, 1, 2, 3].map(|edge| state[4 * n + edge]));
        self.0.available_rect(&Region {
            min_rect: at(0),
            max_rect: at(1),
            cursor: at(2),
        })
    }

    pub fn next_cell(&self, cursor: Rect, child_size: Vec2) -> Rect {
        self.0.next_cell(cursor, child_size)
    }

    pub fn align_size_within_rect(&self, size: Vec2, frame: Rect) -> Rect {
        self.0.align_size_within_rect(size, frame)
    }

    pub fn justify_and_align(&self, frame: Rect, size: Vec2) -> Rect {
        self.0.justify_and_align(frame, size)
    }

    /// The cursor that it moves.
    pub fn advance(&mut self, cursor: Rect, frame_rect: Rect, widget_rect: Rect) -> Rect {
        let mut cursor = cursor;
        self.0.advance(&mut cursor, frame_rect, widget_rect);
        cursor
    }

    pub fn end_row(&mut self, cursor: Rect) -> Rect {
        let mut cursor = cursor;
        self.0.end_row(&mut cursor, &Painter);
        cursor
    }

    pub fn save(&self) -> (Memory, bool) {
        let ctx = before_save(&self.0);
        self.0.save();
        after_save(&ctx)
    }
}

fn changed(memory: &Memory, call: impl FnOnce(&mut State)) -> Memory {
    let mut lists = memory.lists();
    call(&mut lists);
    Memory::of(&lists)
}

pub fn set_min_col_width(memory: &Memory, col: usize, width: f32) -> Memory {
    changed(memory, |lists| lists.set_min_col_width(col, width))
}

pub fn set_min_row_height(memory: &Memory, row: usize, height: f32) -> Memory {
    changed(memory, |lists| lists.set_min_row_height(row, height))
}

pub fn col_width(memory: &Memory, col: usize) -> Option<f32> {
    memory.lists().col_width(col)
}

pub fn row_height(memory: &Memory, row: usize) -> Option<f32> {
    memory.lists().row_height(row)
}

pub fn full_width(memory: &Memory, x_spacing: f32) -> f32 {
    memory.lists().full_width(x_spacing)
}
