//! The memories and grids that are tried: in order, at their ends, alike, and with faults.

use egui::grid::driver::{Grid, Memory};

use super::New;
use crate::emath_ops::{edges, rect};
use crate::faults::{COLUMNS, ROWS, of_lengths, rect_of};
use crate::layout::states::{Draw, TICK};
use crate::values::{LIMIT, State, Values};

/// What may stand beyond a count, or in a memory that is not known.
const NOT_READ: [f32; 6] = [f32::NAN, f32::INFINITY, f32::NEG_INFINITY, -1.0, 1e9, 0.5];

const NO_LENGTH: [f32; 5] = [
    f32::NAN,
    f32::INFINITY,
    f32::NEG_INFINITY,
    LIMIT + TICK,
    -LIMIT - TICK,
];

const NO_EXTENT: [f32; 8] = [
    f32::NAN,
    f32::INFINITY,
    f32::NEG_INFINITY,
    LIMIT + TICK,
    1e6,
    -TICK,
    -1.0,
    -f32::MIN_POSITIVE,
];

const NO_MAX_CELL: [f32; 6] = [
    f32::NAN,
    f32::NEG_INFINITY,
    LIMIT + TICK,
    f32::MAX,
    -TICK,
    -LIMIT,
];

/// A case whose direction mostly suits a grid.
pub fn begin(v: &mut Values) -> Draw<'_> {
    let mut d = Draw::new(v);
    if !d.v.rng.one_in(4) {
        d.l[0] &= 2;
    }
    d
}

impl Draw<'_> {
    fn count(&mut self, room: usize) -> usize {
        match self.v.rng.below(16) {
            0 | 1 => 0,
            2 | 3 => 1,
            4 => room - 1,
            5 => room,
            6 => self.v.rng.below(room as u32 + 1) as usize,
            _ => 2 + self.v.rng.below(5) as usize,
        }
    }

    /// A length that is not negative.
    pub fn extent(&mut self) -> f32 {
        match self.v.rng.below(6) {
            0 => self.v.either_sign(0.0),
            1 | 2 => self.v.ticks(256).abs(),
            3 => self.length().abs() / 16.0,
            _ => self.length().abs(),
        }
    }

    pub fn memory(&mut self) -> Memory {
        let mut m = Memory::EMPTY;
        if self.v.rng.one_in(2) {
            let x = self.v.rng.pick(&NOT_READ);
            m.widths.fill(x);
            m.heights.fill(x);
        }
        m.counts = [self.count(COLUMNS), self.count(ROWS)];
        let [columns, rows] = m.counts;
        let lists = m.widths[..columns].iter_mut().chain(&mut m.heights[..rows]);
        lists.for_each(|x| *x = self.extent());
        m
    }

    /// Equal to another memory, or all but: an entry, a count, the signs of zeros, what is beyond.
    pub fn like(&mut self, other: &Memory) -> Memory {
        let mut m = *other;
        let (side, room) = self.v.rng.pick(&[(0, COLUMNS), (1, ROWS)]);
        let n = m.counts[side];
        let list = if side == 0 {
            &mut m.widths[..]
        } else {
            &mut m.heights[..]
        };
        match self.v.rng.below(8) {
            0 if n > 0 => {
                let x = &mut list[self.v.rng.below(n as u32) as usize];
                *x = self.nudged(*x).abs().min(LIMIT);
            }
            1 if n < room => {
                list[n] = self.extent();
                m.counts[side] += 1;
            }
            2 if n > 0 => m.counts[side] -= 1,
            3 => list[..n]
                .iter_mut()
                .filter(|x| **x == 0.0)
                .for_each(|x| *x = -*x),
            4 => list[n..].fill(self.v.rng.pick(&NOT_READ)),
            _ => {}
        }
        m
    }

    /// A column or row: the first, some, at the end of a count or of the room.
    pub fn place(&mut self, room: usize, counts: [usize; 2]) -> usize {
        match self.v.rng.below(24) {
            0 => room,
            1 => room - 1,
            2 => self.v.rng.below(room as u32 + 1) as usize,
            3..=8 => 0,
            9..=12 => {
                let near = self.v.rng.pick(&counts) + self.v.rng.below(3) as usize;
                near.saturating_sub(1).min(room)
            }
            _ => self.v.rng.below(6) as usize,
        }
    }

    /// The spacing, the minimum and the maximum cell.
    fn options(&mut self) -> [f32; 6] {
        let [across, down] = self.spacing();
        let least = [(); 2].map(|()| match self.v.rng.below(5) {
            0 | 1 => self.v.either_sign(0.0),
            2 | 3 => self.v.ticks(512).abs(),
            _ => self.length().abs() / 4.0,
        });
        let most = least.map(|least| match self.v.rng.below(6) {
            0..=2 => f32::INFINITY,
            3 => self.v.ticks(1_024).abs(),
            4 => self.nudged(least).abs().min(LIMIT),
            _ => self.length().abs(),
        });
        [across, down, least[0], least[1], most[0], most[1]]
    }

    fn num_columns(&mut self, col: usize) -> usize {
        match self.v.rng.below(6) {
            0 | 1 => 0,
            2 | 3 => col + 1,
            4 => self.v.rng.below(34) as usize,
            _ => self.v.rng.pick(&[1, 2, 32, 33, 1_000, usize::MAX]),
        }
    }

    pub fn grid(&mut self, state: &State) -> Grid {
        let is_first_frame = self.v.rng.one_in(2);
        let prev = if is_first_frame && self.v.rng.one_in(2) {
            Memory::EMPTY
        } else {
            self.memory()
        };
        let curr = match self.v.rng.below(6) {
            0 | 1 => self.like(&prev),
            2 => Memory::EMPTY,
            _ => self.memory(),
        };
        let (max_rect, cursor) = (rect_of(state, 1), rect_of(state, 2));
        let mut available = match self.v.rng.below(4) {
            0 => self.rect(),
            1 => max_rect,
            _ => edges(rect(&max_rect).intersect(rect(&cursor))),
        };
        if of_lengths(&available) != 0 {
            available = self.rect();
        }
        let options = self.options();
        let col = self.place(COLUMNS, [prev.counts[0], curr.counts[0]]);
        let row = self.place(ROWS, [prev.counts[1], curr.counts[1]]);
        Grid {
            prev,
            curr,
            lengths: std::array::from_fn(|n| if n < 4 { available[n] } else { options[n - 4] }),
            is_first_frame,
            sizing_pass: self.v.rng.one_in(2),
            num_columns: self.num_columns(col),
            col,
            row,
        }
    }

    pub fn new_grid(&mut self) -> New {
        let region = self.state();
        let col = self.v.rng.below(4) as usize;
        New {
            dir: self.l[0],
            region,
            known: self.v.rng.one_in(2),
            memory: self.memory(),
            sizing_pass: self.v.rng.one_in(2),
            options: self.options(),
            num_columns: self.num_columns(col),
            start_row: self.place(ROWS, [0; 2]),
        }
    }

    fn faults(&mut self) -> u32 {
        match self.v.rng.below(10) {
            0 => 1,
            1 => 2,
            _ => 0,
        }
    }

    pub fn spoil_grid(&mut self, g: &mut Grid) {
        for _ in 0..self.faults() {
            let at = self.v.rng.below(6) as usize;
            let axis = self.v.rng.below(2) as usize;
            match self.v.rng.below(8) {
                0 | 1 => self.fault_in(&mut g.prev),
                2 => self.fault_in(&mut g.curr),
                3 => g.col = self.v.rng.pick(&[33, 34, 1_000, usize::MAX]),
                4 => g.row = self.v.rng.pick(&[129, 130, 1_000, usize::MAX]),
                5 => g.lengths[6 + axis] = self.v.rng.pick(&NO_EXTENT),
                6 => g.lengths[8 + axis] = self.v.rng.pick(&NO_MAX_CELL),
                _ => g.lengths[at] = self.v.rng.pick(&NO_LENGTH),
            }
        }
    }

    pub fn spoil_new(&mut self, n: &mut New) {
        self.open_wrongly(&mut n.region[8..]);
        self.spoil(&mut [&mut n.region]);
        for _ in 0..self.faults() {
            let axis = self.v.rng.below(2) as usize;
            match self.v.rng.below(6) {
                0..=2 => self.fault_in(&mut n.memory),
                3 => n.start_row = self.v.rng.pick(&[129, 130, 1_000, usize::MAX]),
                4 => n.options[axis] = self.v.rng.pick(&NO_LENGTH),
                _ if self.v.rng.one_in(2) => n.options[2 + axis] = self.v.rng.pick(&NO_EXTENT),
                _ => n.options[4 + axis] = self.v.rng.pick(&NO_MAX_CELL),
            }
        }
    }

    pub fn spoil_memory(&mut self, m: &mut Memory) {
        for _ in 0..self.faults() {
            self.fault_in(m);
        }
    }

    fn fault_in(&mut self, m: &mut Memory) {
        let (side, room) = self.v.rng.pick(&[(0, COLUMNS), (1, ROWS)]);
        let n = m.counts[side].min(room);
        if n == 0 || self.v.rng.one_in(3) {
            m.counts[side] = self.v.rng.pick(&[room + 1, room + 2, 1_000, usize::MAX]);
            return;
        }
        let i = self.v.rng.below(n as u32) as usize;
        let x = self.v.rng.pick(&NO_EXTENT);
        if side == 0 {
            m.widths[i] = x;
        } else {
            m.heights[i] = x;
        }
    }
}
