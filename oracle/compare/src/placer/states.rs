//! The placers and calls that are tried: half with a grid, half without.

use egui::grid::driver::{Grid, Memory};
use egui::placer::driver::ByLength;

use super::Placer;
use super::calls::{BY_LENGTH, Call, NEXT_SPACE};
use super::widgets::Wanted;
use crate::faults::rect_of;
use crate::grid::states::begin;
use crate::layout::states::Draw;
use crate::values::{Edges, Fields, LIMIT, Values};

const NO_MEMORY: Memory = Memory {
    widths: [f32::NAN; 32],
    heights: [f32::NEG_INFINITY; 128],
    counts: [usize::MAX; 2],
};

/// What may stand for a grid where there is none: faulty all over.
pub const NOT_READ: Grid = Grid {
    prev: NO_MEMORY,
    curr: NO_MEMORY,
    lengths: [f32::NAN; 10],
    is_first_frame: false,
    sizing_pass: true,
    num_columns: usize::MAX,
    col: usize::MAX,
    row: 129,
};

const BY_LENGTHS: [ByLength; 8] = [
    ByLength::AdvanceCursor,
    ByLength::SetRowHeight,
    ByLength::ExpandToIncludeX,
    ByLength::ExpandToIncludeY,
    ByLength::SetMaxWidth,
    ByLength::SetMaxHeight,
    ByLength::SetMinWidth,
    ByLength::SetMinHeight,
];

pub fn max_rect(v: &mut Values) -> (Fields, Edges) {
    let mut d = Draw::new(v);
    let mut r = d.rect();
    d.spoil(&mut [&mut r]);
    (d.l, r)
}

/// A placer, sometimes with faults.
pub fn placer(v: &mut Values) -> Placer {
    asked(v, 1).0
}

/// A placer and a call of this kind, sometimes with faults in either.
pub fn asked(v: &mut Values, kind: usize) -> (Placer, Call) {
    let has_grid = v.rng.one_in(2);
    let mut d = if has_grid || kind == 0 {
        begin(v)
    } else {
        Draw::new(v)
    };
    let region = d.state();
    let grid = if has_grid || d.v.rng.one_in(2) {
        d.grid(&region)
    } else {
        NOT_READ
    };
    let mut p = Placer {
        l: d.l,
        has_grid,
        grid,
        region,
    };
    let mut call = d.call(kind, &p);
    d.open_wrongly(&mut p.region[8..]);
    let mut parts = call.lengths();
    parts.push(&mut p.region);
    d.spoil(&mut parts);
    if has_grid || d.v.rng.one_in(2) {
        d.spoil_grid(&mut p.grid);
    }
    if let Call::SetGrid(g) = &mut call {
        d.spoil_grid(g);
    }
    (p, call)
}

/// A placer with the size and spacing of a W.
pub fn widget(v: &mut Values) -> (Placer, Wanted) {
    match asked(v, NEXT_SPACE) {
        (p, Call::NextSpace(size, spacing)) => (p, (size, spacing)),
        _ => unreachable!("the kind is next_space's"),
    }
}

impl Draw<'_> {
    /// A call of this kind in this state, without a fault of its own, save a negative maximum.
    pub fn call(&mut self, kind: usize, p: &Placer) -> Call {
        let region = &p.region;
        match kind {
            0 => Call::SetGrid(Box::new(self.grid(region))),
            1 => Call::SaveGrid,
            2 => Call::ForceSetMinRect(self.rect()),
            3 => Call::SetCursor(rect_of(&self.state(), 2)),
            4 => Call::ExpandToIncludeRect(self.rect()),
            5 | 10 => {
                let r = if self.v.rng.one_in(2) {
                    self.rect()
                } else {
                    self.frame(region)
                };
                let size = self.size_in(&r);
                if kind == 5 {
                    Call::AlignSizeWithinRect(size, r)
                } else {
                    Call::JustifyAndAlign(r, size)
                }
            }
            6 => Call::AvailableRectBeforeWrap,
            7 => Call::AvailableSize,
            8 => Call::NextSpace(self.size(region), self.spacing()),
            9 => Call::NextWidgetPosition,
            11 => Call::NextWidgetSpaceIgnoreWrapJustify(self.size(region)),
            12 => {
                let frame = self.frame(region);
                let widget = self.widget(&frame);
                Call::AdvanceAfterRects(frame, widget, self.spacing())
            }
            13 => Call::EndRow(self.spacing()),
            _ => {
                let which = BY_LENGTHS[kind - BY_LENGTH];
                Call::ByLength(which, self.length_for(which, p))
            }
        }
    }

    /// A length: negative, zero, positive, off the tick, at the limit, an edge's or a width's.
    fn length_for(&mut self, which: ByLength, p: &Placer) -> f32 {
        let edge = self.v.rng.below(12) as usize;
        let [left, top, right, bottom] = rect_of(&p.region, self.v.rng.below(2) as usize);
        let x = match self.v.rng.below(16) {
            0 | 1 if p.region[edge].is_finite() => self.nudged(p.region[edge]),
            2 | 3 => self.v.either_sign(0.0),
            4 => self.nudged(right - left),
            5 => self.nudged(bottom - top),
            6 => self.v.tick_part() / 64.0,
            7 if self.v.rng.one_in(4) => self.v.either_sign(LIMIT),
            8..=11 => self.v.ticks(256),
            _ => self.length(),
        };
        let x = x.clamp(-LIMIT, LIMIT);
        match which {
            ByLength::SetMaxWidth | ByLength::SetMaxHeight if !self.v.rng.one_in(40) => x.abs(),
            _ => x,
        }
    }
}
