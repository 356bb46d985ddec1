//! The entry points of crate probe_grid, by the names they have there.

use packing::{Counts, Lengths};

use crate::probe::entry_points;
use crate::values::Edges;

entry_points! {
    grid_memory_set_min_col_width(&mut Lengths, &mut Counts);
    grid_memory_set_min_row_height(&mut Lengths, &mut Counts);
    grid_memory_col_width(&mut [f32; 2]);
    grid_memory_row_height(&mut [f32; 2]);
    grid_memory_full_width(&mut [f32; 2]);
    grid_new(&mut Lengths, &mut Counts);
    grid_prev_col_width(&mut [f32; 2]);
    grid_prev_row_height(&mut [f32; 2]);
    grid_wrap_text();
    grid_available_rect(&mut Edges);
    grid_next_cell(&mut Edges);
    grid_align_size_within_rect(&mut Edges);
    grid_justify_and_align(&mut Edges);
    grid_advance(&mut Lengths, &mut Counts);
    grid_end_row(&mut Lengths, &mut Counts);
    grid_save(&mut Lengths, &mut Counts);
}
