//! The states and arguments that are tried: as they occur, at random, and at corners.

use egui::layout::{Layout, driver};

use super::{layout, numbered, pair};
use crate::emath_ops::{edges, rect};
use crate::faults::{self, OPEN};
use crate::values::{Edges, Fields, LIMIT, LIMIT_TICKS, State, TICKS_PER_POINT, Values};

pub const TICK: f32 = 1.0 / TICKS_PER_POINT;

/// What the lengths of a case are like. Most are short, or few answers would stay in the domain.
#[derive(Clone, Copy)]
pub enum Scale {
    Few,
    Ticks,
    Parts,
    Floats,
    Long,
    Limit,
    Mixed,
}

const SCALES: [Scale; 12] = [
    Scale::Few,
    Scale::Few,
    Scale::Ticks,
    Scale::Ticks,
    Scale::Ticks,
    Scale::Parts,
    Scale::Parts,
    Scale::Floats,
    Scale::Floats,
    Scale::Long,
    Scale::Limit,
    Scale::Mixed,
];

/// A case in the making.
pub struct Draw<'a> {
    pub v: &'a mut Values,
    pub l: Fields,
    scale: Scale,
}

impl<'a> Draw<'a> {
    pub fn new(v: &'a mut Values) -> Self {
        let l = numbered(v.rng.below(288));
        let scale = v.rng.pick(&SCALES);
        Self { v, l, scale }
    }

    fn rust(&self) -> Layout {
        layout(&self.l)
    }

    pub fn length(&mut self) -> f32 {
        let scale = match self.scale {
            Scale::Mixed => self.v.rng.pick(&SCALES[..11]),
            scale => scale,
        };
        let x = match scale {
            Scale::Few => self.v.ticks(64),
            Scale::Ticks => self.v.ticks(4_096),
            Scale::Parts => self.v.tick_part() / 8.0,
            Scale::Floats => self.v.middling(),
            Scale::Long => self.v.ticks(LIMIT_TICKS),
            Scale::Limit | Scale::Mixed => {
                let x = self
                    .v
                    .rng
                    .pick(&[LIMIT, LIMIT.next_down(), LIMIT - TICK, 0.0]);
                self.v.either_sign(x)
            }
        };
        match x.abs() {
            0.0 => self.v.either_sign(x),
            far if far > LIMIT => x / 16.0,
            _ => x,
        }
    }

    /// x, or what is a float, a tick, half a tick or a point beside it.
    pub fn nudged(&mut self, x: f32) -> f32 {
        match self.v.rng.below(10) {
            0 => x + TICK,
            1 => x - TICK,
            2 => x.next_up(),
            3 => x.next_down(),
            4 => x + 0.5 * TICK,
            5 => x - 1.0,
            _ => x,
        }
    }

    /// In order; sometimes equal, about zero, or the whole domain.
    fn range(&mut self) -> (f32, f32) {
        let (a, b) = (self.length(), self.length());
        match self.v.rng.below(24) {
            0 | 1 => (a, a),
            2 | 3 => (-a.abs(), b.abs()),
            4 => (a, self.nudged(a).max(a)),
            5 if self.v.rng.one_in(3) => (-LIMIT, LIMIT),
            _ => (a.min(b), a.max(b)),
        }
    }

    pub fn rect(&mut self) -> Edges {
        let (left, right) = self.range();
        let (top, bottom) = self.range();
        [left, top, right, bottom]
    }

    pub fn spacing(&mut self) -> [f32; 2] {
        [(); 2].map(|()| match self.v.rng.below(8) {
            0..=2 => 0.0,
            3 | 4 => self.v.ticks(256).abs(),
            5 => self.v.ticks(64),
            6 => self.length() / 16.0,
            _ => self.length(),
        })
    }

    /// Not negative: nothing, what is available and what is beside that, the cursor's, or any.
    pub fn size(&mut self, state: &State) -> [f32; 2] {
        let available = driver::available_rect_before_wrap(self.rust(), state);
        let cursor = rect(&faults::rect_of(state, 2));
        let around = [
            (available.width(), cursor.width()),
            (available.height(), cursor.height()),
        ];
        around.map(|(available, cursor)| {
            let x = match self.v.rng.below(12) {
                0 | 1 => 0.0,
                2..=4 => self.nudged(available),
                5 if cursor.is_finite() => self.nudged(cursor),
                6 => self.v.ticks(64),
                7 => self.length() / 8.0,
                _ => self.length(),
            };
            x.abs().min(LIMIT)
        })
    }

    /// For a rectangle: as `size`, without a state.
    pub fn size_in(&mut self, &[left, top, right, bottom]: &Edges) -> [f32; 2] {
        [right - left, bottom - top].map(|full| {
            let x = match self.v.rng.below(8) {
                0 => 0.0,
                1 | 2 => self.nudged(full),
                3 => self.v.ticks(64),
                _ => self.length(),
            };
            x.abs().min(LIMIT)
        })
    }

    /// One step of a sheet: a widget, a space, an end of row or a row height.
    fn step(&mut self, state: &State) -> State {
        let l = self.rust();
        match self.v.rng.below(6) {
            0 => driver::advance_cursor(l, state, self.v.ticks(64)),
            1 => driver::end_row(l, state, pair(&self.spacing())),
            2 => driver::set_row_height(l, state, self.v.ticks(256).abs()),
            _ => {
                let size = pair(&self.size(state));
                let spacing = pair(&self.spacing());
                let frame = driver::next_frame(l, state, size, spacing);
                let widget = driver::justify_and_align(l, frame, size);
                let cursor = rect(&faults::rect_of(state, 2));
                let cursor = driver::advance_after_rects(l, cursor, frame, widget, spacing);
                let mut all = frame;
                all |= widget;
                let mut new = driver::expand_to_include_rect(state, all);
                new[8..].copy_from_slice(&edges(cursor));
                new
            }
        }
    }

    /// A state that occurs: of a max_rect, then some steps.
    fn occurring(&mut self) -> State {
        let max_rect = self.rect();
        let mut state = driver::region_from_max_rect(self.rust(), rect(&max_rect));
        if !faults::is_state(self.l[0], &state) {
            let [left, top, ..] = max_rect;
            state[..4].copy_from_slice(&[left, top, left, top]);
        }
        for _ in 0..self.v.rng.below(5) {
            let new = self.step(&state);
            if faults::is_state(self.l[0], &new) {
                state = new;
            }
        }
        state
    }

    /// Any state of the domain, the cursor's edges often at max_rect's or beside them.
    fn arbitrary(&mut self) -> State {
        let (min_rect, max_rect) = (self.rect(), self.rect());
        let any = self.rect();
        let mut cursor = max_rect;
        for (edge, any) in cursor.iter_mut().zip(any) {
            *edge = match self.v.rng.below(8) {
                0..=2 => self.nudged(*edge).clamp(-LIMIT, LIMIT),
                3 => self.length(),
                _ => any,
            };
        }
        let (open, outward) = OPEN[usize::from(self.l[0])];
        if !self.v.rng.one_in(4) {
            cursor[open] = outward;
        }
        joined(&min_rect, &max_rect, &cursor)
    }

    pub fn state(&mut self) -> State {
        let mut state = if self.v.rng.one_in(2) {
            self.occurring()
        } else {
            self.arbitrary()
        };
        if self.v.rng.one_in(6) {
            let (min, max, cursor) = (
                self.v.rng.below(4) as usize,
                self.v.rng.below(4) as usize,
                8 + self.v.rng.below(4) as usize,
            );
            state[cursor] = match self.v.rng.below(3) {
                0 => state[min],
                1 => state[4 + max],
                _ => self.nudged(state[cursor]),
            };
        }
        state
    }

    /// A frame for a cursor: the next one, one whose shrunk edge just meets the row, or any.
    pub fn frame(&mut self, state: &State) -> Edges {
        let size = pair(&self.size(state));
        let spacing = pair(&self.spacing());
        let mut frame = match self.v.rng.below(3) {
            0 => self.rect(),
            1 => edges(driver::next_frame(self.rust(), state, size, spacing)),
            _ => edges(driver::next_frame_ignore_wrap(self.rust(), state, size)),
        };
        if self.v.rng.one_in(3) {
            let edge = self.v.rng.below(4) as usize;
            let inside = if edge < 2 { -1.0 } else { 1.0 };
            let x = self.nudged(state[8 + (edge ^ 2)] + inside);
            if faults::of_lengths(&[x]) == 0 {
                frame[edge] = x;
            }
        }
        if faults::of_lengths(&frame) != 0 {
            frame = self.rect();
        }
        ordered(&frame)
    }

    /// A widget for a frame: as it is put there, the frame, or any.
    pub fn widget(&mut self, frame: &Edges) -> Edges {
        let size = pair(&self.size_in(frame));
        let put = edges(driver::justify_and_align(self.rust(), rect(frame), size));
        match self.v.rng.below(4) {
            0 => *frame,
            1 => self.rect(),
            _ if faults::of_rect(&put) == 0 => put,
            _ => *frame,
        }
    }
}

fn ordered(&[a, b, c, d]: &Edges) -> Edges {
    [a.min(c), b.min(d), a.max(c), b.max(d)]
}

fn joined(min_rect: &Edges, max_rect: &Edges, cursor: &Edges) -> State {
    let all = [min_rect, max_rect, cursor];
    std::array::from_fn(|n| all[n / 4][n % 4])
}
