//! How often a placer's corners were met, without a grid and with one.

use std::cell::Cell;

use egui::layout::driver::{available_rect_before_wrap, next_widget_space_ignore_wrap_justify};
use egui::placer::driver::ByLength;
use emath::{Rect, vec2};

use super::calls::{Call, KINDS};
use super::{Outcome, Placer};
use crate::emath_ops::{edges, rect};
use crate::faults::{least, rect_of};
use crate::grid::numbers_of_grid;
use crate::layout::layout;
use crate::tally::{Answer, Same, Tally, say};

#[derive(Clone, Copy)]
enum Corner {
    MaxWidthKept,
    MaxHeightKept,
    MinWidthZero,
    MinHeightZero,
    MinWidthNegative,
    MinHeightNegative,
    RowHeight,
    FrameLarger,
    Rounded,
}

/// Each has to be met without a grid and with one.
const WORDS: [&str; 9] = [
    "set_max_width kept by min_rect from shrinking",
    "set_max_height kept by min_rect from shrinking",
    "set_min_width by 0, the next widget outside min_rect",
    "set_min_height by 0, the next widget outside min_rect",
    "set_min_width by less than 0",
    "set_min_height by less than 0",
    "set_row_height that moves the cursor",
    "a frame larger than its widget, included in min_rect",
    "an available rectangle off the tick, rounded",
];

type Counts = [Cell<u64>; 2];

#[derive(Default)]
pub struct Corners {
    met: [Counts; WORDS.len()],
    accepted: [Counts; KINDS.len()],
    /// Accepted calls whose grid, not there, is faulty.
    not_read: Cell<u64>,
}

fn add(counts: &Counts, p: &Placer, met: bool) {
    let count = &counts[usize::from(p.has_grid)];
    count.set(count.get() + u64::from(met));
}

impl Corners {
    pub fn show(&self, t: &mut Tally) {
        for ((name, _), counts) in KINDS.iter().zip(&self.accepted) {
            let counts = counts.each_ref().map(Cell::get);
            say!(t, "accepted without a grid, with one: {name}: {counts:?}");
            // advance_cursor in a grid never is.
            let most = if *name == "Placer::advance_cursor" {
                1
            } else {
                2
            };
            if counts[..most].contains(&0) || counts[most..].iter().any(|&n| n != 0) {
                t.lacking(name);
            }
        }
        for (words, counts) in WORDS.iter().zip(&self.met) {
            let counts = counts.each_ref().map(Cell::get);
            say!(t, "corner: {words}: {counts:?}");
            if counts.contains(&0) {
                t.lacking(words);
            }
        }
        let words = "a faulty grid not there, and so not read";
        say!(t, "corner: {words}: {}", self.not_read.get());
        if self.not_read.get() == 0 {
            t.lacking(words);
        }
    }

    pub fn note(&self, p: &Placer, call: &Call, answer: &Answer<Outcome>) {
        if answer.number != 0 {
            return;
        }
        add(&self.accepted[call.kind()], p, true);
        let not_read = !p.has_grid && least(&numbers_of_grid(&p.grid)) != 0;
        self.not_read.set(self.not_read.get() + u64::from(not_read));
        let note = |corner: Corner, met: bool| add(&self.met[corner as usize], p, met);
        let min_rect = rect_of(&p.region, 0);
        match (call, &answer.value) {
            (Call::ByLength(which, x), Outcome::Placer(new)) => {
                let max_rect = rect_of(&new.region, 1);
                match which {
                    ByLength::SetMaxWidth => {
                        let [left, _, right, _] = edges(space(p, *x, 0.0));
                        let kept = left != max_rect[0] || right != max_rect[2];
                        note(Corner::MaxWidthKept, kept);
                    }
                    ByLength::SetMaxHeight => {
                        let [_, top, _, bottom] = edges(space(p, 0.0, *x));
                        let kept = top != max_rect[1] || bottom != max_rect[3];
                        note(Corner::MaxHeightKept, kept);
                    }
                    ByLength::SetMinWidth => {
                        let [left, _, right, _] = edges(space(p, 0.0, 0.0));
                        let outside = left < min_rect[0] || min_rect[2] < right;
                        note(Corner::MinWidthZero, *x == 0.0 && outside);
                        note(Corner::MinWidthNegative, *x < 0.0);
                    }
                    ByLength::SetMinHeight => {
                        let [_, top, _, bottom] = edges(space(p, 0.0, 0.0));
                        let outside = top < min_rect[1] || min_rect[3] < bottom;
                        note(Corner::MinHeightZero, *x == 0.0 && outside);
                        note(Corner::MinHeightNegative, *x < 0.0);
                    }
                    ByLength::SetRowHeight => {
                        note(Corner::RowHeight, !p.region.same(&new.region));
                    }
                    _ => {}
                }
            }
            (Call::AdvanceAfterRects(_, widget, _), Outcome::Placer(new)) => {
                let mut with_widget = rect(&min_rect);
                with_widget |= rect(widget);
                let larger = !edges(with_widget).same(&rect_of(&new.region, 0));
                note(Corner::FrameLarger, larger);
            }
            (Call::AvailableRectBeforeWrap, Outcome::Rect(r)) => {
                let exact = if p.has_grid {
                    egui::grid::driver::Running::of(&p.grid).available_rect(&p.region)
                } else {
                    available_rect_before_wrap(layout(&p.l), &p.region)
                };
                note(Corner::Rounded, !edges(exact).same(r));
            }
            _ => {}
        }
    }
}

fn space(p: &Placer, width: f32, height: f32) -> Rect {
    next_widget_space_ignore_wrap_justify(layout(&p.l), &p.region, vec2(width, height))
}
