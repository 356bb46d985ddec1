//! The calls that read a state, or place a frame or a widget.

use egui::layout::driver;

use super::corners::Corners;
use super::states::Draw;
use super::{layout, of_layout, of_state, pair};
use crate::answers::{Expected, Operation};
use crate::emath_ops::{edges, rect};
use crate::faults::{
    of_answer, of_cursor, of_frame, of_lengths, of_rect, of_region, of_sizes, rect_of,
};
use crate::probe::{self, asked};
use crate::tally::Tally;
use crate::values::{Edges, Fields, State, Values};

fn operation<'a>(name: &'a str, thousands: u64, numbers: &'a [usize]) -> Operation<'a> {
    Operation {
        name,
        thousands,
        numbers,
    }
}

fn state(v: &mut Values) -> (Fields, State) {
    let mut d = Draw::new(v);
    let mut state = d.state();
    d.open_wrongly(&mut state[8..]);
    d.spoil(&mut [&mut state]);
    (d.l, state)
}

fn cursor_and_max_rect(v: &mut Values) -> (Fields, Edges, Edges) {
    let (l, state) = state(v);
    (l, rect_of(&state, 2), rect_of(&state, 1))
}

fn sized(v: &mut Values) -> (Fields, State, [f32; 2]) {
    let (l, state, (size, _)) = sized_and_spaced(v);
    (l, state, size)
}

fn sized_and_spaced(v: &mut Values) -> (Fields, State, ([f32; 2], [f32; 2])) {
    let mut d = Draw::new(v);
    let mut state = d.state();
    let (mut size, mut spacing) = (d.size(&state), d.spacing());
    d.open_wrongly(&mut state[8..]);
    d.spoil(&mut [&mut state, &mut size, &mut spacing]);
    (d.l, state, (size, spacing))
}

fn framed(v: &mut Values) -> (Fields, Edges, [f32; 2]) {
    let mut d = Draw::new(v);
    let mut frame = if d.v.rng.one_in(2) {
        d.rect()
    } else {
        let state = d.state();
        d.frame(&state)
    };
    let mut size = d.size_in(&frame);
    d.spoil(&mut [&mut frame, &mut size]);
    (d.l, frame, size)
}

/// A rectangle that is no frame.
fn placed(numbers: &[u8], r: emath::Rect) -> Expected<Edges> {
    let r = edges(r);
    Expected::made(numbers, of_answer(of_lengths(&r)), r)
}

pub fn compare(t: &mut Tally, corners: &Corners) {
    available(t, corners);
    next_frames(t, corners);
    widgets(t);
}

fn available(t: &mut Tally, corners: &Corners) {
    t.answered(
        &operation("Layout::available_rect_before_wrap", 2_000, &[4, 5, 6]),
        state,
        |(l, g)| asked(&of_state(l, g), probe::layout_available_rect_before_wrap),
        |(l, g)| {
            let r = driver::available_rect_before_wrap(layout(l), g);
            let expected = placed(&of_region(l[0], g), r);
            if expected.number() == 0 {
                corners.available(l, &rect_of(g, 2), &edges(r));
            }
            expected
        },
    );
    t.answered(
        &operation("Layout::available_size", 500, &[4, 5, 6, 9]),
        state,
        |(l, g)| asked(&of_state(l, g), probe::layout_available_size),
        |(l, g)| {
            let size = driver::available_size(layout(l), g);
            let size = [size.x, size.y];
            Expected::made(&of_region(l[0], g), of_answer(of_lengths(&size)), size)
        },
    );
    t.answered(
        &operation("Layout::available_from_cursor_max_rect", 500, &[4, 5, 6]),
        cursor_and_max_rect,
        |(l, c, m)| {
            let mut given = of_layout(l);
            given.put_cursor(c).put_max_rect(m);
            asked(&given, probe::layout_available_from_cursor_max_rect)
        },
        |(l, c, m)| {
            let r = driver::available_from_cursor_max_rect(layout(l), rect(c), rect(m));
            placed(&[of_cursor(l[0], c), of_rect(m)], r)
        },
    );
}

fn next_frames(t: &mut Tally, corners: &Corners) {
    t.answered(
        &operation("Layout::next_frame", 2_000, &[4, 5, 6, 9]),
        sized_and_spaced,
        |(l, g, (size, s))| {
            let mut given = of_state(l, g);
            given.put_size(size).put_item_spacing(s);
            asked(&given, probe::layout_next_frame)
        },
        |(l, g, (size, s))| {
            let frame = edges(driver::next_frame(layout(l), g, pair(size), pair(s)));
            let [min_rect, max_rect, cursor] = of_region(l[0], g);
            let arguments = [min_rect, max_rect, cursor, of_sizes(size), of_lengths(s)];
            let expected = Expected::made(&arguments, of_frame(size, &frame), frame);
            if expected.number() == 0 {
                corners.next_frame(l, g, size);
            }
            expected
        },
    );
    t.answered(
        &operation("Layout::next_frame_ignore_wrap", 500, &[4, 5, 6, 9]),
        sized,
        |(l, g, size)| {
            asked(
                of_state(l, g).put_size(size),
                probe::layout_next_frame_ignore_wrap,
            )
        },
        |(l, g, size)| {
            let frame = edges(driver::next_frame_ignore_wrap(layout(l), g, pair(size)));
            let [min_rect, max_rect, cursor] = of_region(l[0], g);
            let arguments = [min_rect, max_rect, cursor, of_sizes(size)];
            let expected = Expected::made(&arguments, of_frame(size, &frame), frame);
            if expected.number() == 0 {
                corners.next_frame_ignore_wrap(l, g, &frame);
            }
            expected
        },
    );
}

fn widgets(t: &mut Tally) {
    t.answered(
        &operation("Layout::align_size_within_rect", 500, &[4, 5, 6, 9]),
        framed,
        |(l, f, size)| {
            let mut given = of_layout(l);
            given.put_size(size).put_rect(f);
            asked(&given, probe::layout_align_size_within_rect)
        },
        |(l, f, size)| {
            let r = layout(l).align_size_within_rect(pair(size), rect(f));
            placed(&[of_sizes(size), of_rect(f)], r)
        },
    );
    t.answered(
        &operation("Layout::justify_and_align", 2_000, &[4, 5, 6, 9]),
        framed,
        |(l, f, size)| {
            let mut given = of_layout(l);
            given.put_rect(f).put_size(size);
            asked(&given, probe::layout_justify_and_align)
        },
        |(l, f, size)| {
            let widget = edges(driver::justify_and_align(layout(l), rect(f), pair(size)));
            let arguments = [of_rect(f), of_sizes(size)];
            Expected::made(&arguments, of_frame(size, &widget), widget)
        },
    );
    t.answered(
        &operation(
            "Layout::next_widget_space_ignore_wrap_justify",
            500,
            &[4, 5, 6, 9],
        ),
        sized,
        |(l, g, size)| {
            let mut given = of_state(l, g);
            given.put_size(size);
            asked(&given, probe::layout_next_widget_space_ignore_wrap_justify)
        },
        |(l, g, size)| {
            let r = driver::next_widget_space_ignore_wrap_justify(layout(l), g, pair(size));
            let [min_rect, max_rect, cursor] = of_region(l[0], g);
            placed(&[min_rect, max_rect, cursor, of_sizes(size)], r)
        },
    );
    t.answered(
        &operation("Layout::next_widget_position", 500, &[4, 5, 6, 9]),
        state,
        |(l, g)| asked(&of_state(l, g), probe::layout_next_widget_position),
        |(l, g)| {
            let pos = driver::next_widget_position(layout(l), g);
            let pos = [pos.x, pos.y];
            Expected::made(&of_region(l[0], g), of_answer(of_lengths(&pos)), pos)
        },
    );
}
