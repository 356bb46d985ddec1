//! The calls, the numbers that RULES 8.17 has for each, and how the Rust is asked.

use egui::grid::driver::Grid;
use egui::placer::driver::{ByLength, Running};

use super::{Outcome, Placer};
use crate::answers::Expected;
use crate::emath_ops::{edges, rect};
use crate::faults::{
    of_answer, of_cursor, of_direction, of_frame, of_lengths, of_rect, of_room, of_sizes,
};
use crate::grid::{Saved, numbers_of_grid};
use crate::layout::pair;
use crate::tally::Shown;
use crate::values::Edges;

/// A call and its arguments.
pub enum Call {
    SetGrid(Box<Grid>),
    SaveGrid,
    ForceSetMinRect(Edges),
    SetCursor(Edges),
    ExpandToIncludeRect(Edges),
    AlignSizeWithinRect([f32; 2], Edges),
    AvailableRectBeforeWrap,
    AvailableSize,
    NextSpace([f32; 2], [f32; 2]),
    NextWidgetPosition,
    JustifyAndAlign(Edges, [f32; 2]),
    NextWidgetSpaceIgnoreWrapJustify([f32; 2]),
    AdvanceAfterRects(Edges, Edges, [f32; 2]),
    EndRow([f32; 2]),
    ByLength(ByLength, f32),
}

/// Each kind of call, in the order of `Call`: its name, and the numbers that have to turn up.
pub const KINDS: [(&str, &[usize]); 22] = [
    ("Placer::set_grid", &[4, 5, 6, 7, 8]),
    ("Placer::save_grid", &[4, 5, 6, 7, 8]),
    ("Placer::force_set_min_rect", &[4, 5, 6, 7, 8]),
    ("Placer::set_cursor", &[4, 5, 6, 7, 8]),
    ("Placer::expand_to_include_rect", &[4, 5, 6, 7, 8]),
    ("Placer::align_size_within_rect", &[4, 5, 6, 7, 8, 9]),
    ("Placer::available_rect_before_wrap", &[4, 5, 6, 7, 8, 9]),
    ("Placer::available_size", &[4, 5, 6, 7, 8, 9]),
    ("Placer::next_space", &[4, 5, 6, 7, 8, 9]),
    ("Placer::next_widget_position", &[4, 5, 6, 7, 8, 9]),
    ("Placer::justify_and_align", &[4, 5, 6, 7, 8, 9]),
    (
        "Placer::next_widget_space_ignore_wrap_justify",
        &[4, 5, 6, 7, 8, 9],
    ),
    ("Placer::advance_after_rects", &[4, 5, 6, 7, 8, 9]),
    ("Placer::end_row", &[4, 5, 6, 7, 8, 9]),
    ("Placer::advance_cursor", &[4, 5, 6, 7, 9]),
    ("Placer::set_row_height", &[4, 5, 6, 7, 8, 9]),
    ("Placer::expand_to_include_x", &[4, 5, 6, 7, 8]),
    ("Placer::expand_to_include_y", &[4, 5, 6, 7, 8]),
    ("Placer::set_max_width", &[4, 5, 6, 7, 8, 9]),
    ("Placer::set_max_height", &[4, 5, 6, 7, 8, 9]),
    ("Placer::set_min_width", &[4, 5, 6, 7, 8, 9]),
    ("Placer::set_min_height", &[4, 5, 6, 7, 8, 9]),
];

/// Where next_space stands among them.
pub const NEXT_SPACE: usize = 8;

/// Where the calls that take one length begin.
pub const BY_LENGTH: usize = 14;

impl Call {
    pub fn kind(&self) -> usize {
        match self {
            Self::SetGrid(_) => 0,
            Self::SaveGrid => 1,
            Self::ForceSetMinRect(_) => 2,
            Self::SetCursor(_) => 3,
            Self::ExpandToIncludeRect(_) => 4,
            Self::AlignSizeWithinRect(..) => 5,
            Self::AvailableRectBeforeWrap => 6,
            Self::AvailableSize => 7,
            Self::NextSpace(..) => NEXT_SPACE,
            Self::NextWidgetPosition => 9,
            Self::JustifyAndAlign(..) => 10,
            Self::NextWidgetSpaceIgnoreWrapJustify(_) => 11,
            Self::AdvanceAfterRects(..) => 12,
            Self::EndRow(_) => 13,
            Self::ByLength(which, _) => BY_LENGTH + *which as usize,
        }
    }

    /// The lengths that it is given, a grid's apart.
    pub fn lengths(&mut self) -> Vec<&mut [f32]> {
        match self {
            Self::SetGrid(_)
            | Self::SaveGrid
            | Self::AvailableRectBeforeWrap
            | Self::AvailableSize
            | Self::NextWidgetPosition => vec![],
            Self::ForceSetMinRect(r) | Self::SetCursor(r) | Self::ExpandToIncludeRect(r) => {
                vec![r]
            }
            Self::AlignSizeWithinRect(size, r) | Self::JustifyAndAlign(r, size) => vec![size, r],
            Self::NextSpace(size, spacing) => vec![size, spacing],
            Self::NextWidgetSpaceIgnoreWrapJustify(size) => vec![size],
            Self::AdvanceAfterRects(frame, widget, spacing) => vec![frame, widget, spacing],
            Self::EndRow(spacing) => vec![spacing],
            Self::ByLength(_, x) => vec![std::slice::from_mut(x)],
        }
    }

    /// The numbers of its arguments, and of the call itself in this state.
    pub fn numbers(&self, p: &Placer) -> Vec<u8> {
        let (dir, grid) = (p.l[0], &p.grid);
        let in_grid = |number: u8| if p.has_grid { number } else { 0 };
        match self {
            Self::SetGrid(g) => [&numbers_of_grid(g)[..], &[of_direction(dir)]].concat(),
            Self::SaveGrid
            | Self::AvailableRectBeforeWrap
            | Self::AvailableSize
            | Self::NextWidgetPosition => vec![],
            Self::ForceSetMinRect(r) | Self::ExpandToIncludeRect(r) => vec![of_rect(r)],
            Self::SetCursor(c) => vec![of_cursor(dir, c)],
            Self::AlignSizeWithinRect(size, r) | Self::JustifyAndAlign(r, size) => {
                vec![of_sizes(size), of_rect(r)]
            }
            Self::NextSpace(size, spacing) => vec![of_sizes(size), of_lengths(spacing)],
            Self::NextWidgetSpaceIgnoreWrapJustify(size) => vec![of_sizes(size)],
            // RULES 8.12: 8 in a grid that is full.
            Self::AdvanceAfterRects(frame, widget, spacing) => vec![
                of_rect(frame),
                of_rect(widget),
                of_lengths(spacing),
                in_grid(of_room(grid.col, grid.row)),
            ],
            Self::EndRow(spacing) => vec![of_lengths(spacing), in_grid(of_room(0, grid.row))],
            // RULES 8.11: 7 in a grid.
            Self::ByLength(ByLength::AdvanceCursor, x) => vec![of_lengths(&[*x]), in_grid(7)],
            // RULES 8.10: 6 for a limit below zero.
            Self::ByLength(ByLength::SetMaxWidth | ByLength::SetMaxHeight, x) => {
                vec![of_sizes(&[*x])]
            }
            Self::ByLength(_, x) => vec![of_lengths(&[*x])],
        }
    }

    /// RULES 8.4: zeros, or the placer that was given; `save_grid`'s memory is the one given, the
    /// flag clear.
    fn refused(&self, p: &Placer) -> Outcome {
        match self {
            Self::AlignSizeWithinRect(..)
            | Self::AvailableRectBeforeWrap
            | Self::NextSpace(..)
            | Self::JustifyAndAlign(..)
            | Self::NextWidgetSpaceIgnoreWrapJustify(_) => Outcome::Rect([0.0; 4]),
            Self::AvailableSize | Self::NextWidgetPosition => Outcome::Pair([0.0; 2]),
            Self::SaveGrid => Outcome::Saved(Box::new(Saved {
                memory: p.grid.prev,
                save: 0,
            })),
            _ => Outcome::Placer(Box::new(p.clone())),
        }
    }

    /// The number of what the Rust gives.
    fn number_after(&self, outcome: &Outcome) -> u8 {
        match outcome {
            Outcome::Rect(r) => match self {
                Self::NextSpace(size, _) | Self::JustifyAndAlign(_, size) => of_frame(size, r),
                _ => of_answer(of_lengths(r)),
            },
            Outcome::Pair(v) => of_answer(of_lengths(v)),
            Outcome::Placer(new) => new.number_as_new(),
            Outcome::Saved(_) => 0,
        }
    }
}

/// The Rust is asked only where no argument has a fault.
pub fn expected(p: &Placer, call: &Call, rust: impl FnOnce() -> Outcome) -> Expected<Outcome> {
    let numbers = [p.numbers(), call.numbers(p)].concat();
    Expected::asked(&numbers, call.refused(p), || {
        let outcome = rust();
        (call.number_after(&outcome), outcome)
    })
}

/// `given` is what stands for a grid where there is none.
pub fn run(rust: &mut Running, call: &Call, given: &Grid) -> Outcome {
    match call {
        Call::SetGrid(g) => rust.set_grid(g),
        Call::SaveGrid => {
            let (memory, save) = rust.save_grid();
            let save = u8::from(save);
            return Outcome::Saved(Box::new(Saved { memory, save }));
        }
        Call::ForceSetMinRect(r) => rust.force_set_min_rect(rect(r)),
        Call::SetCursor(c) => rust.set_cursor(rect(c)),
        Call::ExpandToIncludeRect(r) => rust.expand_to_include_rect(rect(r)),
        Call::AlignSizeWithinRect(size, outer) => {
            return placed(rust.align_size_within_rect(pair(size), rect(outer)));
        }
        Call::AvailableRectBeforeWrap => return placed(rust.available_rect_before_wrap()),
        Call::AvailableSize => {
            let size = rust.available_size();
            return Outcome::Pair([size.x, size.y]);
        }
        Call::NextSpace(size, spacing) => {
            return placed(rust.next_space(pair(size), pair(spacing)));
        }
        Call::NextWidgetPosition => {
            let pos = rust.next_widget_position();
            return Outcome::Pair([pos.x, pos.y]);
        }
        Call::JustifyAndAlign(r, size) => {
            return placed(rust.justify_and_align(rect(r), pair(size)));
        }
        Call::NextWidgetSpaceIgnoreWrapJustify(size) => {
            return placed(rust.next_widget_space_ignore_wrap_justify(pair(size)));
        }
        Call::AdvanceAfterRects(frame, widget, spacing) => {
            rust.advance_after_rects(rect(frame), rect(widget), pair(spacing));
        }
        Call::EndRow(spacing) => rust.end_row(pair(spacing)),
        Call::ByLength(which, x) => rust.change_by_length(*which, *x),
    }
    Outcome::Placer(Box::new(Placer::of(rust, given)))
}

fn placed(r: emath::Rect) -> Outcome {
    Outcome::Rect(edges(r))
}

impl Shown for Call {
    fn show(&self) -> String {
        let name = KINDS[self.kind()].0;
        let given = match self {
            Self::SetGrid(g) => g.show(),
            Self::SaveGrid
            | Self::AvailableRectBeforeWrap
            | Self::AvailableSize
            | Self::NextWidgetPosition => ().show(),
            Self::ForceSetMinRect(r) | Self::SetCursor(r) | Self::ExpandToIncludeRect(r) => {
                r.show()
            }
            Self::AlignSizeWithinRect(size, r) => (*size, *r).show(),
            Self::JustifyAndAlign(r, size) => (*r, *size).show(),
            Self::NextSpace(size, spacing) => (*size, *spacing).show(),
            Self::NextWidgetSpaceIgnoreWrapJustify(size) => size.show(),
            Self::AdvanceAfterRects(frame, widget, spacing) => (*frame, *widget, *spacing).show(),
            Self::EndRow(spacing) => spacing.show(),
            Self::ByLength(_, x) => x.show(),
        };
        format!("{name} of {given}")
    }
}
