//! The calls of crate grid, with a memory and a grid as `driver` has them.

use egui::grid::driver::{Grid, Memory};
use packing::Packed;

use super::probe;
use super::{Moved, New, Saved};
use crate::probe::{asked, changed};
use crate::tally::Answer;
use crate::values::{Edges, State};

fn of_memory(m: &Memory) -> Packed {
    let mut given = Packed::unfilled();
    given.put_memory(m);
    given
}

fn of_grid(g: &Grid) -> Packed {
    let mut given = Packed::unfilled();
    given.put_grid(g);
    given
}

/// A memory that was written, and whether it is to be saved.
pub fn saved(out: &Packed) -> Saved {
    Saved {
        memory: out.memory(),
        save: out.save(),
    }
}

fn moved(out: &Packed) -> Moved {
    Moved {
        grid: out.grid(),
        cursor: out.cursor(),
    }
}

pub fn set_min_col_width(m: &Memory, col: usize, width: f32) -> Answer<Memory> {
    let mut given = of_memory(m);
    given.put_place(col).put_length(width);
    changed(&given, probe::grid_memory_set_min_col_width).map(|out| out.memory())
}

pub fn set_min_row_height(m: &Memory, row: usize, height: f32) -> Answer<Memory> {
    let mut given = of_memory(m);
    given.put_place(row).put_length(height);
    changed(&given, probe::grid_memory_set_min_row_height).map(|out| out.memory())
}

pub fn col_width(m: &Memory, col: usize) -> Answer<[f32; 2]> {
    asked(of_memory(m).put_place(col), probe::grid_memory_col_width)
}

pub fn row_height(m: &Memory, row: usize) -> Answer<[f32; 2]> {
    asked(of_memory(m).put_place(row), probe::grid_memory_row_height)
}

pub fn full_width(m: &Memory, x_spacing: f32) -> Answer<[f32; 2]> {
    let mut given = of_memory(m);
    asked(given.put_length(x_spacing), probe::grid_memory_full_width)
}

pub fn prev_col_width(g: &Grid, col: usize) -> Answer<[f32; 2]> {
    asked(of_grid(g).put_place(col), probe::grid_prev_col_width)
}

pub fn prev_row_height(g: &Grid, row: usize) -> Answer<[f32; 2]> {
    asked(of_grid(g).put_place(row), probe::grid_prev_row_height)
}

pub fn wrap_text(g: &Grid) -> u8 {
    let given = of_grid(g);
    probe::grid_wrap_text(&given.lengths, &given.counts)
}

pub fn available_rect(g: &Grid, dir: u8, region: &State) -> Answer<Edges> {
    let mut given = of_grid(g);
    given.put_direction(dir).put_region(region);
    asked(&given, probe::grid_available_rect)
}

pub fn next_cell(g: &Grid, dir: u8, cursor: &Edges, child_size: &[f32; 2]) -> Answer<Edges> {
    let mut given = of_grid(g);
    given.put_direction(dir).put_cursor(cursor);
    asked(given.put_size(child_size), probe::grid_next_cell)
}

pub fn align_size_within_rect(g: &Grid, size: &[f32; 2], frame: &Edges) -> Answer<Edges> {
    let mut given = of_grid(g);
    given.put_size(size).put_rect(frame);
    asked(&given, probe::grid_align_size_within_rect)
}

pub fn justify_and_align(g: &Grid, frame: &Edges, size: &[f32; 2]) -> Answer<Edges> {
    let mut given = of_grid(g);
    given.put_rect(frame).put_size(size);
    asked(&given, probe::grid_justify_and_align)
}

pub fn new(n: &New) -> Answer<Grid> {
    let mut given = of_memory(&n.memory);
    given.put_direction(n.dir).put_region(&n.region);
    given.put_known(n.known).put_sizing_pass(n.sizing_pass);
    given.put_options(&n.options).put_num_columns(n.num_columns);
    changed(given.put_row(n.start_row), probe::grid_new).map(|out| out.grid())
}

pub fn advance(
    g: &Grid,
    dir: u8,
    cursor: &Edges,
    frame_rect: &Edges,
    widget_rect: &Edges,
) -> Answer<Moved> {
    let mut given = of_grid(g);
    given.put_direction(dir).put_cursor(cursor);
    given.put_rect(frame_rect).put_widget_rect(widget_rect);
    changed(&given, probe::grid_advance).map(|out| moved(&out))
}

pub fn end_row(g: &Grid, dir: u8, cursor: &Edges) -> Answer<Moved> {
    let mut given = of_grid(g);
    given.put_direction(dir).put_cursor(cursor);
    changed(&given, probe::grid_end_row).map(|out| moved(&out))
}

pub fn save(g: &Grid) -> Answer<Saved> {
    changed(&of_grid(g), probe::grid_save).map(|out| saved(&out))
}
