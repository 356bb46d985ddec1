//! How often a grid's corners were met.

use std::cell::Cell;

use egui::grid::driver::{Grid, Memory};

use super::{Saved, counted, number_of_memory};
use crate::tally::{Same, Tally, say};

#[derive(Clone, Copy)]
pub enum Corner {
    LastInFirst,
    LastLater,
    MaxCell,
    RememberedUsed,
    RememberedIgnored,
    RowSkipped,
    GrownBySeveral,
    RowEndedWithCell,
    RowEndedWithout,
    SavedSame,
    SavedFirst,
    SavedZeros,
    NotRead,
    NotKnown,
    KnownEmpty,
    SecondSame,
}

const WORDS: [&str; 16] = [
    "the last column named, in a first pass",
    "the last column named, later",
    "a finite maximum cell, not in the last column",
    "a remembered width used in next_cell",
    "a remembered width ignored by next_cell, sizing",
    "a skipped row filled with 0",
    "a memory grown by several entries",
    "end_row with a cell in the row",
    "end_row without a cell in the row",
    "save of equal memories, the flag clear",
    "save of equal memories in a first pass, the flag set",
    "save of memories that differ in a zero's sign only, the flag clear",
    "a memory accepted with NaN beyond its counts",
    "a faulty memory not known, and so not read",
    "a memory known with both counts 0, and so no first pass",
    "a second pass that saves nothing new",
];

#[derive(Default)]
pub struct Corners([Cell<u64>; WORDS.len()]);

impl Corners {
    pub fn note(&self, corner: Corner, met: bool) {
        let count = &self.0[corner as usize];
        count.set(count.get() + u64::from(met));
    }

    pub fn show(&self, t: &mut Tally) {
        for (words, count) in WORDS.iter().zip(&self.0) {
            say!(t, "corner: {words}: {}", count.get());
            if count.get() == 0 {
                t.lacking(words);
            }
        }
    }

    /// Of an accepted available_rect.
    pub fn available_rect(&self, g: &Grid) {
        let last = g.col + 1 == g.num_columns;
        self.note(Corner::LastInFirst, last && g.is_first_frame);
        self.note(Corner::LastLater, last && !g.is_first_frame);
        self.note(Corner::MaxCell, !last && g.lengths[8].is_finite());
    }

    /// Of an accepted next_cell.
    pub fn next_cell(&self, g: &Grid, child_size: &[f32; 2]) {
        let wider = counted(&g.prev)
            .0
            .get(g.col)
            .is_some_and(|&w| w > child_size[0]);
        self.note(Corner::RememberedUsed, wider && !g.sizing_pass);
        self.note(Corner::RememberedIgnored, wider && g.sizing_pass);
    }

    /// Of a memory that an accepted call gave for another.
    pub fn grown(&self, given: &Memory, new: &Memory) {
        let [columns, rows] = [0, 1].map(|side| new.counts[side] - given.counts[side]);
        self.note(Corner::GrownBySeveral, columns > 1 || rows > 1);
        let skipped = rows > 1 && new.heights[given.counts[1]] == 0.0;
        self.note(Corner::RowSkipped, skipped);
    }

    /// Of an accepted call that was given the memory.
    pub fn not_read(&self, m: &Memory) {
        let (widths, heights) = counted(m);
        let beyond = m.widths[widths.len()..].iter();
        let nan = beyond
            .chain(&m.heights[heights.len()..])
            .any(|x| x.is_nan());
        self.note(Corner::NotRead, nan);
    }

    /// Of an accepted end_row.
    pub fn end_row(&self, g: &Grid) {
        let with = g.row < g.curr.counts[1];
        self.note(Corner::RowEndedWithCell, with);
        self.note(Corner::RowEndedWithout, !with);
    }

    /// Of an accepted save.
    pub fn save(&self, g: &Grid, saved: &Saved) {
        let counts = g.prev.counts == g.curr.counts;
        let (a, b) = (counted(&g.prev), counted(&g.curr));
        let pairs = || a.0.iter().zip(b.0).chain(a.1.iter().zip(b.1));
        let same = counts && pairs().all(|(x, y)| x.same(y));
        let bits = pairs().all(|(x, y)| x.to_bits() == y.to_bits());
        self.note(Corner::SavedSame, same && saved.save == 0);
        self.note(
            Corner::SavedFirst,
            same && g.is_first_frame && saved.save == 1,
        );
        self.note(Corner::SavedZeros, same && !bits && saved.save == 0);
    }

    /// Of an accepted new.
    pub fn new(&self, known: bool, memory: &Memory) {
        let faulty = number_of_memory(memory) != 0;
        self.note(Corner::NotKnown, !known && faulty);
        self.note(Corner::KnownEmpty, known && memory.counts == [0; 2]);
    }
}
