//! The calls that make or change a state.

use egui::layout::driver;

use super::corners::Corners;
use super::states::Draw;
use super::{layout, of_layout, of_state, pair};
use crate::answers::{Expected, Operation};
use crate::emath_ops::{edges, rect};
use crate::faults::{self, of_answer, of_cursor, of_lengths, of_rect, of_region};
use crate::probe::{self, asked};
use crate::tally::Tally;
use crate::values::{Edges, Fields, State, Values};

fn operation(name: &str, thousands: u64) -> Operation<'_> {
    Operation {
        name,
        thousands,
        numbers: &[4, 5, 6, 9],
    }
}

/// A layout, a state and a length.
type Lengthened = (Fields, State, f32);

fn lengthened(v: &mut Values) -> Lengthened {
    let mut d = Draw::new(v);
    let mut state = d.state();
    let edge = d.v.rng.below(12) as usize;
    let mut x = match d.v.rng.below(6) {
        0 if state[edge].is_finite() => d.nudged(state[edge]),
        1 => 0.0,
        2 | 3 => d.v.ticks(256),
        _ => d.length(),
    };
    d.open_wrongly(&mut state[8..]);
    d.spoil(&mut [&mut state, std::slice::from_mut(&mut x)]);
    (d.l, state, x)
}

fn spaced(v: &mut Values) -> (Fields, State, [f32; 2]) {
    let mut d = Draw::new(v);
    let (mut state, mut spacing) = (d.state(), d.spacing());
    d.open_wrongly(&mut state[8..]);
    d.spoil(&mut [&mut state, &mut spacing]);
    (d.l, state, spacing)
}

fn included(v: &mut Values) -> (Fields, State, Edges) {
    let mut d = Draw::new(v);
    let (mut state, mut r) = (d.state(), d.rect());
    d.open_wrongly(&mut state[8..]);
    d.spoil(&mut [&mut state, &mut r]);
    (d.l, state, r)
}

fn max_rect(v: &mut Values) -> (Fields, Edges) {
    let mut d = Draw::new(v);
    let mut r = d.rect();
    d.spoil(&mut [&mut r]);
    (d.l, r)
}

/// A layout, a cursor, a frame, its widget and a spacing.
type Advance = ((Fields, Edges), (Edges, Edges), [f32; 2]);

fn advance(v: &mut Values) -> Advance {
    let mut d = Draw::new(v);
    let state = d.state();
    let mut frame = d.frame(&state);
    let mut widget = d.widget(&frame);
    let mut spacing = d.spacing();
    let mut cursor = faults::rect_of(&state, 2);
    d.open_wrongly(&mut cursor);
    d.spoil(&mut [&mut frame, &mut widget, &mut spacing]);
    if d.v.rng.one_in(10) {
        d.spoil(&mut [&mut cursor, &mut frame]);
    }
    ((d.l, cursor), (frame, widget), spacing)
}

fn of_new(dir: u8, new: &State) -> u8 {
    of_answer(faults::least(&of_region(dir, new)))
}

/// A new state that is outside the domain gets 9.
pub fn moved(dir: u8, number: u8, given: &State, new: State) -> Expected<State> {
    let [min_rect, max_rect, cursor] = of_region(dir, given);
    let arguments = [min_rect, max_rect, cursor, number];
    Expected::changed(&arguments, of_new(dir, &new), new, *given)
}

pub fn compare(t: &mut Tally, corners: &Corners) {
    made(t, corners);
    expanded(t);
    changed(t, corners);
    advanced(t, corners);
}

fn made(t: &mut Tally, corners: &Corners) {
    t.answered(
        &Operation {
            name: "Layout::initial_cursor",
            thousands: 500,
            numbers: &[4, 5, 6],
        },
        max_rect,
        |(l, r)| asked(of_layout(l).put_max_rect(r), probe::layout_initial_cursor),
        |(l, r)| {
            let cursor = edges(driver::initial_cursor(layout(l), rect(r)));
            Expected::made(&[of_rect(r)], of_answer(of_cursor(l[0], &cursor)), cursor)
        },
    );
    t.answered(
        &operation("Layout::region_from_max_rect", 2_000),
        max_rect,
        |(l, r)| {
            let mut given = of_layout(l);
            probe::region_after(given.put_max_rect(r), probe::layout_region_from_max_rect)
        },
        |(l, r)| {
            let new = driver::region_from_max_rect(layout(l), rect(r));
            let expected = Expected::made(&[of_rect(r)], of_new(l[0], &new), new);
            if of_rect(r) == 0 {
                corners.seed(l, r, expected.number(), new[0]);
            }
            expected
        },
    );
}

/// Region's calls: the direction says which edge of the cursor is open.
fn expanded(t: &mut Tally) {
    let operation = |name| Operation {
        name,
        thousands: 500,
        numbers: &[4, 5, 6],
    };
    t.answered(
        &operation("Region::expand_to_include_rect"),
        included,
        |(l, g, r)| {
            let mut given = of_state(l, g);
            given.put_rect(r);
            probe::region_after(&given, probe::layout_region_expand_to_include_rect)
        },
        |(l, g, r)| {
            moved(
                l[0],
                of_rect(r),
                g,
                driver::expand_to_include_rect(g, rect(r)),
            )
        },
    );
    t.answered(
        &operation("Region::expand_to_include_x"),
        lengthened,
        |(l, g, x)| {
            let mut given = of_state(l, g);
            given.put_length(*x);
            probe::region_after(&given, probe::layout_region_expand_to_include_x)
        },
        |(l, g, x)| {
            moved(
                l[0],
                of_lengths(&[*x]),
                g,
                driver::expand_to_include_x(g, *x),
            )
        },
    );
    t.answered(
        &operation("Region::expand_to_include_y"),
        lengthened,
        |(l, g, y)| {
            let mut given = of_state(l, g);
            given.put_length(*y);
            probe::region_after(&given, probe::layout_region_expand_to_include_y)
        },
        |(l, g, y)| {
            moved(
                l[0],
                of_lengths(&[*y]),
                g,
                driver::expand_to_include_y(g, *y),
            )
        },
    );
}

fn changed(t: &mut Tally, corners: &Corners) {
    t.answered(
        &operation("Layout::advance_cursor", 500),
        lengthened,
        |(l, g, x)| {
            probe::region_after(of_state(l, g).put_length(*x), probe::layout_advance_cursor)
        },
        |(l, g, x)| {
            let new = driver::advance_cursor(layout(l), g, *x);
            moved(l[0], of_lengths(&[*x]), g, new)
        },
    );
    t.answered(
        &operation("Layout::end_row", 500),
        spaced,
        |(l, g, s)| probe::region_after(of_state(l, g).put_item_spacing(s), probe::layout_end_row),
        |(l, g, s)| {
            let new = driver::end_row(layout(l), g, pair(s));
            let expected = moved(l[0], of_lengths(s), g, new);
            if expected.number() == 0 {
                corners.end_row(l, g, &new);
            }
            expected
        },
    );
    t.answered(
        &operation("Layout::set_row_height", 500),
        lengthened,
        |(l, g, x)| {
            probe::region_after(of_state(l, g).put_length(*x), probe::layout_set_row_height)
        },
        |(l, g, x)| {
            let new = driver::set_row_height(layout(l), g, *x);
            moved(l[0], of_lengths(&[*x]), g, new)
        },
    );
}

fn advanced(t: &mut Tally, corners: &Corners) {
    t.answered(
        &operation("Layout::advance_after_rects", 2_000),
        advance,
        |((l, c), (f, w), s)| {
            let mut given = of_layout(l);
            given.put_cursor(c).put_item_spacing(s);
            given.put_rect(f).put_widget_rect(w);
            asked(&given, probe::layout_advance_after_rects)
        },
        |((l, c), (f, w), s)| {
            let l_ = layout(l);
            let new = driver::advance_after_rects(l_, rect(c), rect(f), rect(w), pair(s));
            let new = edges(new);
            let arguments = [of_cursor(l[0], c), of_rect(f), of_rect(w), of_lengths(s)];
            let after = of_answer(of_cursor(l[0], &new));
            let expected = Expected::changed(&arguments, after, new, *c);
            if expected.number() == 0 {
                corners.advance(l, c, f);
            }
            expected
        },
    );
}
