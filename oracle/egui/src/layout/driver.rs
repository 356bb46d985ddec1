//! The way into layout.rs: a child module sees its private functions and its `Region`.

use emath::{Pos2, Rect, Vec2, pos2};

use super::{Layout, Region};

/// A region's edges: min_rect, max_rect and cursor, each left, top, right, bottom.
pub type State = [f32; 12];

fn rect(state: &State, from: usize) -> Rect {
    let min = pos2(state[from], state[from + 1]);
    Rect::from_min_max(min, pos2(state[from + 2], state[from + 3]))
}

pub(crate) fn region(state: &State) -> Region {
    Region {
        min_rect: rect(state, 0),
        max_rect: rect(state, 4),
        cursor: rect(state, 8),
    }
}

pub(crate) fn state(region: Region) -> State {
    let mut state = [0.0; 12];
    let rects = [region.min_rect, region.max_rect, region.cursor];
    for (edges, r) in state.chunks_exact_mut(4).zip(rects) {
        edges.copy_from_slice(&[r.left(), r.top(), r.right(), r.bottom()]);
    }
    state
}

fn changed(given: &State, call: impl FnOnce(&mut Region)) -> State {
    let mut region = region(given);
    call(&mut region);
    state(region)
}

pub fn expand_to_include_rect(given: &State, rect: Rect) -> State {
    changed(given, |region| region.expand_to_include_rect(rect))
}

pub fn expand_to_include_x(given: &State, x: f32) -> State {
    changed(given, |region| region.expand_to_include_x(x))
}

pub fn expand_to_include_y(given: &State, y: f32) -> State {
    changed(given, |region| region.expand_to_include_y(y))
}

pub fn initial_cursor(layout: Layout, max_rect: Rect) -> Rect {
    layout.initial_cursor(max_rect)
}

pub fn region_from_max_rect(layout: Layout, max_rect: Rect) -> State {
    state(layout.region_from_max_rect(max_rect))
}

pub fn available_rect_before_wrap(layout: Layout, given: &State) -> Rect {
    layout.available_rect_before_wrap(&region(given))
}

pub fn available_size(layout: Layout, given: &State) -> Vec2 {
    layout.available_size(&region(given))
}

pub fn available_from_cursor_max_rect(layout: Layout, cursor: Rect, max_rect: Rect) -> Rect {
    layout.available_from_cursor_max_rect(cursor, max_rect)
}

pub fn next_frame(layout: Layout, given: &State, child_size: Vec2, spacing: Vec2) -> Rect {
    layout.next_frame(&region(given), child_size, spacing)
}

pub fn next_frame_ignore_wrap(layout: Layout, given: &State, child_size: Vec2) -> Rect {
    layout.next_frame_ignore_wrap(&region(given), child_size)
}

pub fn justify_and_align(layout: Layout, frame: Rect, child_size: Vec2) -> Rect {
    layout.justify_and_align(frame, child_size)
}

pub fn next_widget_space_ignore_wrap_justify(layout: Layout, given: &State, size: Vec2) -> Rect {
    layout.next_widget_space_ignore_wrap_justify(&region(given), size)
}

pub fn next_widget_position(layout: Layout, given: &State) -> Pos2 {
    layout.next_widget_position(&region(given))
}

pub fn advance_cursor(layout: Layout, given: &State, amount: f32) -> State {
    changed(given, |region| layout.advance_cursor(region, amount))
}

pub fn advance_after_rects(
    layout: Layout,
    cursor: Rect,
    frame_rect: Rect,
    widget_rect: Rect,
    item_spacing: Vec2,
) -> Rect {
    let mut cursor = cursor;
    layout.advance_after_rects(&mut cursor, frame_rect, widget_rect, item_spacing);
    cursor
}

pub fn end_row(layout: Layout, given: &State, spacing: Vec2) -> State {
    changed(given, |region| layout.end_row(region, spacing))
}

pub fn set_row_height(layout: Layout, given: &State, height: f32) -> State {
    changed(given, |region| layout.set_row_height(region, height))
}
