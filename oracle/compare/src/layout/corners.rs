//! How often the corners of RULES 2 were met, by direction.

use std::cell::Cell;

use emath::Rect;

use super::layout;
use crate::emath_ops::rect;
use crate::faults::{self, OPEN};
use crate::tally::{Tally, say};
use crate::values::{Edges, Fields, State, TICKS_PER_POINT};
use egui::layout::driver;

#[derive(Clone, Copy)]
pub enum Corner {
    Wrapped,
    FitsExactly,
    AtStart,
    BelowMinRect,
    RowStarted,
    RowTouched,
    MovedDown,
    Midpoint,
    SeedRefused,
    SeedPassed,
    SeedNan,
    RowEnded,
    RowNotEnded,
    OpenEdgeFinite,
    CursorInsideOut,
}

const ALL: &[usize] = &[0, 1, 2, 3];
const HORIZONTAL: &[usize] = &[0, 1];
const RIGHT_TO_LEFT: &[usize] = &[1];

/// Each corner's words, and the directions in which it has to be met.
const WORDS: [(&str, &[usize]); 15] = [
    ("a frame wrapped", ALL),
    ("a child as long as what is available, not wrapped", ALL),
    ("a longer child at the starting edge, not wrapped", ALL),
    (
        "a wrapped frame, min_rect's bottom not the cursor's",
        HORIZONTAL,
    ),
    ("a row or column started, its NaN overwritten", ALL),
    ("a shrunk frame that only touches the row, and stays", ALL),
    ("a frame moved down by translate", HORIZONTAL),
    ("an inside-out available made a midpoint", ALL),
    ("region_from_max_rect refused with 9, wrap and justify", ALL),
    ("the same passed, the align at the starting edge", ALL),
    (
        "the same refused off the tick, by translate's NaN",
        RIGHT_TO_LEFT,
    ),
    ("end_row with wrap that moves the cursor", HORIZONTAL),
    ("end_row that changes nothing", ALL),
    ("next_frame with a finite open edge", ALL),
    ("next_frame with an inside-out cursor", ALL),
];

#[derive(Default)]
pub struct Corners {
    met: [[Cell<u64>; 4]; WORDS.len()],
    /// Calls of region_from_max_rect that go against RULES 2.26.
    against: Cell<u64>,
}

impl Corners {
    fn note(&self, l: &Fields, corner: Corner, met: bool) {
        let count = &self.met[corner as usize][usize::from(l[0])];
        count.set(count.get() + u64::from(met));
    }

    pub fn show(&self, t: &mut Tally) {
        for ((words, directions), counts) in WORDS.iter().zip(&self.met) {
            let counts = counts.each_ref().map(Cell::get);
            say!(t, "corner: {words}: {counts:?}");
            if directions.iter().any(|&direction| counts[direction] == 0) {
                t.lacking(words);
            }
        }
        if self.against.get() != 0 {
            t.lacking("region_from_max_rect as RULES 2.26 has it for wrap and justify");
        }
    }

    /// Of an accepted next_frame.
    pub fn next_frame(&self, l: &Fields, state: &State, size: &[f32; 2]) {
        let horizontal = l[0] < 2;
        let (min_rect, max_rect) = (faults::rect_of(state, 0), faults::rect_of(state, 1));
        let cursor = faults::rect_of(state, 2);
        let available = driver::available_rect_before_wrap(layout(l), state);
        let (available, child) = if horizontal {
            (available.width(), size[0])
        } else {
            (available.height(), size[1])
        };
        // The starting edge is opposite the open one.
        let (open, outward) = OPEN[usize::from(l[0])];
        let start = open ^ 2;
        let past = if outward > 0.0 {
            max_rect[start] < cursor[start]
        } else {
            cursor[start] < max_rect[start]
        };
        let wrap = l[1] != 0;
        let wrapped = wrap && available < child && past;
        let at_start = cursor[start] == max_rect[start];
        self.note(l, Corner::Wrapped, wrapped);
        self.note(l, Corner::FitsExactly, wrap && available == child && past);
        self.note(l, Corner::AtStart, wrap && available < child && at_start);
        let below = wrapped && horizontal && min_rect[3] != cursor[3];
        self.note(l, Corner::BelowMinRect, below);
        self.note(l, Corner::OpenEdgeFinite, cursor[open].is_finite());
        self.note(l, Corner::CursorInsideOut, faults::is_inside_out(&cursor));
    }

    /// Of an accepted next_frame_ignore_wrap: aligned where there is room, its top would be above
    /// the cursor's.
    pub fn next_frame_ignore_wrap(&self, l: &Fields, state: &State, frame: &Edges) {
        let cursor = rect(&faults::rect_of(state, 2));
        let available = driver::available_rect_before_wrap(layout(l), state);
        let height = frame[3] - frame[1];
        let top = match l[4] {
            0 => available.top(),
            1 => available.center().y - height / 2.0,
            _ => available.bottom() - height,
        };
        // By more than the frame's rounding can make of it.
        let above = l[0] < 2 && top + 0.125 < cursor.top();
        self.note(l, Corner::MovedDown, above);
    }

    /// Of an accepted available rectangle: it can reach outside the cursor as a midpoint only.
    pub fn available(&self, l: &Fields, cursor: &Edges, available: &Edges) {
        let outside =
            |low: usize| available[low] < cursor[low] || cursor[low + 2] < available[low + 2];
        self.note(l, Corner::Midpoint, outside(0) || outside(1));
    }

    /// Of a region_from_max_rect whose argument has no fault. With wrap and main justify it passes
    /// from the starting edge (RULES 2.26), but off the ticks direction 1 may not: a frame centred
    /// or justified down can come out a float above the cursor, translate moves it, and -inf + inf
    /// is NaN across.
    pub fn seed(&self, l: &Fields, max_rect: &Edges, number: u8, seed: f32) {
        let starting = [0, 2, 0, 2][usize::from(l[0])];
        let infinite = l[1] != 0 && l[3] != 0;
        let at_start = l[2] == starting;
        let on_ticks = max_rect
            .iter()
            .all(|e| (e * TICKS_PER_POINT).fract() == 0.0);
        let nan = number == 9 && seed.is_nan();
        let parts = infinite && at_start && nan && l[0] == 1 && !on_ticks;
        self.note(l, Corner::SeedRefused, infinite && !at_start && number == 9);
        self.note(l, Corner::SeedPassed, infinite && at_start && number == 0);
        self.note(l, Corner::SeedNan, parts);
        let sentence = if infinite && !at_start { 9 } else { 0 };
        let against = u64::from(number != sentence && !parts);
        self.against.set(self.against.get() + against);
    }

    /// Of an accepted advance_after_rects.
    pub fn advance(&self, l: &Fields, cursor: &Edges, frame: &Edges) {
        if l[1] == 0 {
            return;
        }
        let (cursor, frame) = (rect(cursor), rect(frame).shrink(1.0));
        let stays = cursor.intersects(frame);
        self.note(l, Corner::RowStarted, !stays);
        self.note(l, Corner::RowTouched, stays && touch(cursor, frame));
    }

    /// Of an accepted end_row.
    pub fn end_row(&self, l: &Fields, given: &State, new: &State) {
        self.note(l, Corner::RowEnded, l[1] != 0 && given != new);
        self.note(l, Corner::RowNotEnded, given == new);
    }
}

fn touch(a: Rect, b: Rect) -> bool {
    let across = a.left() == b.right() || b.left() == a.right();
    across || a.top() == b.bottom() || b.top() == a.bottom()
}
