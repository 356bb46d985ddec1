//! Memories and grids.

use egui::grid::driver::{Grid, Memory};

use super::{
    COL, CURR_COUNTS, CURR_STATE, INITIAL_AVAILABLE, IS_FIRST_FRAME, NUM_COLUMNS, PREV_COUNTS,
    PREV_STATE, Packed, ROW, SIZING_PASS,
};

impl Packed {
    fn put_memory_at(&mut self, at: usize, counted: usize, m: &Memory) -> &mut Self {
        let [columns, rows] = m.counts;
        self.put_lengths(at, &m.widths)
            .put_lengths(at + m.widths.len(), &m.heights)
            .put_count(counted, columns)
            .put_count(counted + 1, rows)
    }

    fn memory_at(&self, at: usize, counted: usize) -> Memory {
        Memory {
            widths: self.lengths_at(at),
            heights: self.lengths_at(at + 32),
            counts: [self.counts[counted], self.counts[counted + 1]],
        }
    }

    pub fn put_memory(&mut self, m: &Memory) -> &mut Self {
        self.put_memory_at(PREV_STATE, PREV_COUNTS, m)
    }

    pub fn memory(&self) -> Memory {
        self.memory_at(PREV_STATE, PREV_COUNTS)
    }

    pub fn put_grid(&mut self, g: &Grid) -> &mut Self {
        self.put_memory_at(PREV_STATE, PREV_COUNTS, &g.prev)
            .put_memory_at(CURR_STATE, CURR_COUNTS, &g.curr)
            .put_lengths(INITIAL_AVAILABLE, &g.lengths)
            .put_count(IS_FIRST_FRAME, g.is_first_frame.into())
            .put_sizing_pass(g.sizing_pass)
            .put_num_columns(g.num_columns)
            .put_count(COL, g.col)
            .put_row(g.row)
    }

    pub fn grid(&self) -> Grid {
        Grid {
            prev: self.memory_at(PREV_STATE, PREV_COUNTS),
            curr: self.memory_at(CURR_STATE, CURR_COUNTS),
            lengths: self.lengths_at(INITIAL_AVAILABLE),
            is_first_frame: self.counts[IS_FIRST_FRAME] != 0,
            sizing_pass: self.counts[SIZING_PASS] != 0,
            num_columns: self.counts[NUM_COLUMNS],
            col: self.counts[COL],
            row: self.counts[ROW],
        }
    }
}
