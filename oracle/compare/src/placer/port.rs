//! The calls of crate placer, with a placer as `Placer` has it. Where an entry point stands for several
//! calls, their number says which.

use egui::grid::driver::Grid;
use packing::Packed;

use super::calls::Call;
use super::probe;
use super::{Outcome, Placer, made};
use crate::grid::port::saved;
use crate::grid::set_aside;
use crate::probe::{asked, changed};
use crate::tally::Answer;
use crate::values::{Edges, Fields};

fn of_placer(p: &Placer) -> Packed {
    let mut given = Packed::unfilled();
    given.put_layout(&p.l).put_region(&p.region);
    given.put_has_grid(p.has_grid).put_grid(&p.grid);
    given
}

fn placer(out: &Packed) -> Placer {
    Placer {
        l: out.layout(),
        has_grid: out.has_grid(),
        grid: out.grid(),
        region: out.region(),
    }
}

pub fn new(l: &Fields, max_rect: &Edges) -> Answer<Outcome> {
    let mut given = Packed::unfilled();
    given.put_layout(l).put_max_rect(max_rect);
    let answer = changed(&given, probe::placer_new);
    made(answer.number, placer(&answer.value))
}

/// is_grid and prefer_right_to_left.
pub fn inspect(p: &Placer, number: u8) -> u8 {
    let mut given = of_placer(p);
    given.put_call(number);
    probe::placer_inspect(&given.lengths, &given.counts)
}

/// min_rect, max_rect and cursor.
pub fn inspect_rect(p: &Placer, number: u8) -> Edges {
    asked(of_placer(p).put_call(number), probe::placer_inspect_rect).value
}

/// What stands beyond the counts of a memory that was given is put aside.
fn of_change(given: &Grid, answer: Answer<Packed>) -> Answer<Outcome> {
    let Answer { number, mut value } = answer.map(|out| placer(&out));
    if number == 0 && value.has_grid {
        set_aside(&given.prev, &mut value.grid.prev);
        set_aside(&given.curr, &mut value.grid.curr);
    }
    made(number, value)
}

fn set_grid(p: &Placer, g: &Grid) -> Answer<Outcome> {
    let (given, mut grid) = (of_placer(p), Packed::unfilled());
    grid.put_grid(g);
    let mut value = Packed::untouched();
    let number = probe::placer_set_grid(
        &given.lengths,
        &given.counts,
        &grid.lengths,
        &grid.counts,
        &mut value.lengths,
        &mut value.counts,
    );
    of_change(g, Answer { number, value })
}

fn save_grid(p: &Placer) -> Answer<Outcome> {
    let answer = changed(&of_placer(p), probe::placer_save_grid);
    let Answer { number, mut value } = answer.map(|out| saved(&out));
    if number == 0 && p.has_grid {
        set_aside(&p.grid.curr, &mut value.memory);
    }
    let value = Outcome::Saved(Box::new(value));
    Answer { number, value }
}

pub fn answer(p: &Placer, call: &Call) -> Answer<Outcome> {
    let mut given = of_placer(p);
    let given = &mut given;
    let by_rect = probe::placer_change_by_rect;
    let answer = match call {
        Call::SetGrid(g) => return set_grid(p, g),
        Call::SaveGrid => return save_grid(p),
        Call::AlignSizeWithinRect(size, outer) => {
            return placed(given.put_call(0).put_size(size).put_rect(outer));
        }
        Call::AvailableRectBeforeWrap => return placed(given.put_call(1)),
        Call::NextSpace(size, spacing) => {
            return placed(given.put_call(2).put_size(size).put_item_spacing(spacing));
        }
        Call::JustifyAndAlign(r, size) => {
            return placed(given.put_call(3).put_rect(r).put_size(size));
        }
        Call::NextWidgetSpaceIgnoreWrapJustify(size) => {
            return placed(given.put_call(4).put_size(size));
        }
        Call::AvailableSize => {
            return asked(given, probe::placer_available_size).map(Outcome::Pair);
        }
        Call::NextWidgetPosition => {
            return asked(given, probe::placer_next_widget_position).map(Outcome::Pair);
        }
        Call::ForceSetMinRect(r) => changed(given.put_call(0).put_rect(r), by_rect),
        Call::SetCursor(c) => changed(given.put_call(1).put_rect(c), by_rect),
        Call::ExpandToIncludeRect(r) => changed(given.put_call(2).put_rect(r), by_rect),
        Call::AdvanceAfterRects(frame, widget, spacing) => {
            given.put_rect(frame).put_widget_rect(widget);
            let given = given.put_item_spacing(spacing);
            changed(given, probe::placer_advance_after_rects)
        }
        Call::EndRow(spacing) => changed(given.put_item_spacing(spacing), probe::placer_end_row),
        Call::ByLength(which, x) => {
            let given = given.put_call(*which as u8).put_length(*x);
            changed(given, probe::placer_change_by_length)
        }
    };
    of_change(&p.grid, answer)
}

fn placed(given: &Packed) -> Answer<Outcome> {
    asked(given, probe::placer_place_rect).map(Outcome::Rect)
}
