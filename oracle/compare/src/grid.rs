//! Crate grid beside egui's grid.rs and the numbers of RULES 8.16.

mod cells;
mod corners;
mod memories;
pub mod moves;
mod passes;
pub mod port;
pub mod probe;
pub mod states;

use egui::grid::driver::{Grid, Memory};

use crate::faults::{COLUMNS, ROWS, of_lengths, of_max_cell, of_memory, of_places, of_sizes};
use crate::tally::{Answer, Same, Shown, Tally, Value};
use crate::values::{Edges, State};
use corners::Corners;

pub fn compare(t: &mut Tally) {
    let corners = Corners::default();
    memories::compare(t, &corners);
    cells::compare(t, &corners);
    moves::compare(t, &corners);
    passes::compare(t, &corners);
    corners.show(t);
}

/// A grid, and the cursor that it moves.
#[derive(Clone)]
pub struct Moved {
    pub grid: Grid,
    pub cursor: Edges,
}

/// What `save` gives: the memory, and 1 where it is to be saved.
#[derive(Clone)]
pub struct Saved {
    pub memory: Memory,
    pub save: u8,
}

/// What `new` is given: the options are the spacing, the minimum and the maximum cell.
#[derive(Clone)]
pub struct New {
    pub dir: u8,
    pub region: State,
    pub known: bool,
    pub memory: Memory,
    pub sizing_pass: bool,
    pub options: [f32; 6],
    pub num_columns: usize,
    pub start_row: usize,
}

/// What a refused `new` gives: a first pass over an empty memory, every length zero.
pub const NO_GRID: Grid = Grid {
    prev: Memory::EMPTY,
    curr: Memory::EMPTY,
    lengths: [0.0; 10],
    is_first_frame: true,
    sizing_pass: false,
    num_columns: 0,
    col: 0,
    row: 0,
};

pub fn number_of_memory(m: &Memory) -> u8 {
    of_memory(&m.widths, &m.heights, &m.counts)
}

/// Of a grid's parts. initial_available may be inside out, as the cursor may.
pub fn numbers_of_grid(g: &Grid) -> [u8; 7] {
    [
        number_of_memory(&g.prev),
        number_of_memory(&g.curr),
        of_lengths(&g.lengths[..4]),
        of_lengths(&g.lengths[4..6]),
        of_sizes(&g.lengths[6..8]),
        of_max_cell(&g.lengths[8..]),
        of_places(g.col, g.row),
    ]
}

/// A grid's numbers, then those of the other arguments.
fn with_grid(g: &Grid, others: &[u8]) -> Vec<u8> {
    [&numbers_of_grid(g)[..], others].concat()
}

fn counted(m: &Memory) -> (&[f32], &[f32]) {
    let [columns, rows] = m.counts;
    (
        &m.widths[..columns.min(COLUMNS)],
        &m.heights[..rows.min(ROWS)],
    )
}

fn beyond(m: &Memory) -> impl Iterator<Item = &f32> {
    let (widths, heights) = counted(m);
    let (columns, rows) = (widths.len(), heights.len());
    m.widths[columns..].iter().chain(&m.heights[rows..])
}

/// +0 in every place beyond the counts.
fn is_clear(m: &Memory) -> bool {
    beyond(m).all(|x| x.to_bits() == 0)
}

/// A memory that was given with something beyond its counts may keep it there: that is put aside.
pub fn set_aside(given: &Memory, m: &mut Memory) {
    if is_clear(given) {
        return;
    }
    let [columns, rows] = m.counts;
    m.widths[columns.min(COLUMNS)..].fill(0.0);
    m.heights[rows.min(ROWS)..].fill(0.0);
}

fn set_aside_beyond(given: &Grid, answer: Answer<Moved>) -> Answer<Moved> {
    let mut answer = answer;
    if answer.number == 0 {
        set_aside(&given.prev, &mut answer.value.grid.prev);
        set_aside(&given.curr, &mut answer.value.grid.curr);
    }
    answer
}

fn shown(list: &[f32]) -> String {
    let all: Vec<String> = list.iter().map(Shown::show).collect();
    format!("[{}]", all.join(", "))
}

impl Shown for Memory {
    fn show(&self) -> String {
        let (widths, heights) = counted(self);
        let rest = beyond(self).filter(|x| x.to_bits() != 0).count();
        format!(
            "memory of {:?}, {} and {}, {rest} beyond not +0",
            self.counts,
            shown(widths),
            shown(heights)
        )
    }
}

impl Same for Memory {
    fn same(&self, other: &Self) -> bool {
        let ((a, b), (c, d)) = (counted(self), counted(other));
        let entries = a.iter().zip(c).chain(b.iter().zip(d));
        self.counts == other.counts && { entries }.all(|(a, b)| a.same(b)) && is_clear(self)
    }
}

impl Value for Memory {
    fn identical(&self, other: &Self) -> bool {
        let entries =
            self.widths.identical(&other.widths) && self.heights.identical(&other.heights);
        entries && self.counts == other.counts
    }
}

/// All but the memories and the lengths.
fn places(g: &Grid) -> (bool, bool, usize, usize, usize) {
    (g.is_first_frame, g.sizing_pass, g.num_columns, g.col, g.row)
}

impl Shown for Grid {
    fn show(&self) -> String {
        format!(
            "previous {}; current {}; lengths {}; first, sizing, columns, column, row {:?}",
            self.prev.show(),
            self.curr.show(),
            self.lengths.show(),
            places(self)
        )
    }
}

impl Same for Grid {
    fn same(&self, other: &Self) -> bool {
        let memories = self.prev.same(&other.prev) && self.curr.same(&other.curr);
        memories && self.lengths.same(&other.lengths) && places(self) == places(other)
    }
}

impl Value for Grid {
    fn identical(&self, other: &Self) -> bool {
        let memories = self.prev.identical(&other.prev) && self.curr.identical(&other.curr);
        memories && self.lengths.identical(&other.lengths) && places(self) == places(other)
    }
}

impl Shown for Moved {
    fn show(&self) -> String {
        format!("{}; cursor {}", self.grid.show(), self.cursor.show())
    }
}

impl Same for Moved {
    fn same(&self, other: &Self) -> bool {
        self.grid.same(&other.grid) && self.cursor.same(&other.cursor)
    }
}

impl Value for Moved {
    fn identical(&self, other: &Self) -> bool {
        self.grid.identical(&other.grid) && self.cursor.identical(&other.cursor)
    }
}

impl Shown for Saved {
    fn show(&self) -> String {
        format!("{}, flag {}", self.memory.show(), self.save)
    }
}

impl Same for Saved {
    fn same(&self, other: &Self) -> bool {
        self.memory.same(&other.memory) && self.save == other.save
    }
}

impl Value for Saved {
    fn identical(&self, other: &Self) -> bool {
        self.memory.identical(&other.memory) && self.save == other.save
    }
}

impl Shown for New {
    fn show(&self) -> String {
        format!(
            "direction {}, region {}, known {}, {}, sizing {}, options {}, columns {}, start {}",
            self.dir,
            self.region.show(),
            self.known,
            self.memory.show(),
            self.sizing_pass,
            self.options.show(),
            self.num_columns,
            self.start_row
        )
    }
}
