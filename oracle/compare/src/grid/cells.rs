//! The calls that read a grid.

use egui::grid::driver::{Grid, Running};
use emath::{Rect, Vec2};

use super::corners::Corners;
use super::memories::operation;
use super::states::begin;
use super::{port, with_grid};
use crate::answers::Expected;
use crate::emath_ops::{edges, rect};
use crate::faults::{
    COLUMNS, ROWS, of_answer, of_cursor, of_direction, of_frame, of_lengths, of_rect, of_region,
    of_sizes, rect_of,
};
use crate::layout::pair;
use crate::tally::Tally;
use crate::values::{Edges, LIMIT, State, Values};

fn grid(v: &mut Values) -> Grid {
    let mut d = begin(v);
    let state = d.state();
    let mut g = d.grid(&state);
    d.spoil_grid(&mut g);
    g
}

/// A grid and a place, which may be any.
fn placed(v: &mut Values, side: usize, room: usize) -> (Grid, usize) {
    let g = grid(v);
    let mut d = begin(v);
    let near = g.prev.counts[side].min(room);
    let mut place = d.place(room, [near; 2]);
    if d.v.rng.one_in(16) {
        place = d.v.rng.pick(&[room + 1, 1_000, usize::MAX]);
    }
    (g, place)
}

fn regional(v: &mut Values) -> (Grid, u8, State) {
    let mut d = begin(v);
    let mut state = d.state();
    let mut g = d.grid(&state);
    d.open_wrongly(&mut state[8..]);
    d.spoil(&mut [&mut state]);
    d.spoil_grid(&mut g);
    (g, d.l[0], state)
}

/// A grid, a direction and a cursor, and a size: some beside what is remembered.
type Child = (Grid, (u8, Edges), [f32; 2]);

fn child(v: &mut Values) -> Child {
    let mut d = begin(v);
    let state = d.state();
    let mut g = d.grid(&state);
    let mut size = d.size(&state);
    if d.v.rng.one_in(2) {
        let remembered = [
            g.prev.widths[g.col.min(COLUMNS - 1)],
            g.prev.heights[g.row.min(ROWS - 1)],
        ];
        size = remembered.map(|x| match d.v.rng.below(3) {
            0 if of_sizes(&[x]) == 0 => d.nudged(x).abs().min(LIMIT),
            _ => d.extent(),
        });
    }
    let mut cursor = rect_of(&state, 2);
    d.open_wrongly(&mut cursor);
    d.spoil(&mut [&mut cursor, &mut size]);
    d.spoil_grid(&mut g);
    (g, (d.l[0], cursor), size)
}

fn framed(v: &mut Values) -> (Grid, Edges, [f32; 2]) {
    let mut d = begin(v);
    let state = d.state();
    let mut g = d.grid(&state);
    let mut frame = if d.v.rng.one_in(2) {
        d.rect()
    } else {
        d.frame(&state)
    };
    let mut size = d.size_in(&frame);
    d.spoil(&mut [&mut frame, &mut size]);
    d.spoil_grid(&mut g);
    (g, frame, size)
}

/// A length that is always there.
fn length(g: &Grid, rust: impl Fn(&Running) -> f32) -> Expected<[f32; 2]> {
    Expected::asked(&with_grid(g, &[]), [0.0; 2], || {
        (0, [rust(&Running::of(g)), 1.0])
    })
}

pub fn next_cell(
    g: &Grid,
    dir: u8,
    cursor: &Edges,
    size: &[f32; 2],
    rust: impl FnOnce(Rect, Vec2) -> Rect,
) -> Expected<Edges> {
    let others = [of_cursor(dir, cursor), of_sizes(size), of_direction(dir)];
    Expected::asked(&with_grid(g, &others), [0.0; 4], || {
        let frame = edges(rust(rect(cursor), pair(size)));
        (of_frame(size, &frame), frame)
    })
}

/// Of `align_size_within_rect` and `justify_and_align`.
pub fn aligned(
    g: &Grid,
    frame: &Edges,
    size: &[f32; 2],
    rust: impl FnOnce(Rect, Vec2) -> Rect,
) -> Expected<Edges> {
    let others = [of_sizes(size), of_rect(frame)];
    Expected::asked(&with_grid(g, &others), [0.0; 4], || {
        let widget = edges(rust(rect(frame), pair(size)));
        (of_frame(size, &widget), widget)
    })
}

pub fn compare(t: &mut Tally, corners: &Corners) {
    lengths(t);
    rects(t, corners);
}

fn lengths(t: &mut Tally) {
    t.answered(
        &operation("GridLayout::prev_col_width", &[4, 5, 6, 8]),
        |v| placed(v, 0, COLUMNS),
        |(g, col)| port::prev_col_width(g, *col),
        |(g, col)| length(g, |r| r.prev_col_width(*col)),
    );
    t.answered(
        &operation("GridLayout::prev_row_height", &[4, 5, 6, 8]),
        |v| placed(v, 1, ROWS),
        |(g, row)| port::prev_row_height(g, *row),
        |(g, row)| length(g, |r| r.prev_row_height(*row)),
    );
    t.drawn("GridLayout::wrap_text", 300, grid, port::wrap_text, |g| {
        u8::from(Running::of(g).wrap_text())
    });
}

fn rects(t: &mut Tally, corners: &Corners) {
    t.answered(
        &operation("GridLayout::available_rect", &[4, 5, 6, 7, 8, 9]),
        regional,
        |(g, dir, state)| port::available_rect(g, *dir, state),
        |(g, dir, state)| {
            let [min_rect, max_rect, cursor] = of_region(*dir, state);
            let others = [min_rect, max_rect, cursor, of_direction(*dir)];
            Expected::asked(&with_grid(g, &others), [0.0; 4], || {
                let r = edges(Running::of(g).available_rect(state));
                let number = of_answer(of_lengths(&r));
                if number == 0 {
                    corners.available_rect(g);
                }
                (number, r)
            })
        },
    );
    t.answered(
        &operation("GridLayout::next_cell", &[4, 5, 6, 7, 8, 9]),
        child,
        |(g, (dir, cursor), size)| port::next_cell(g, *dir, cursor, size),
        |(g, (dir, cursor), size)| {
            let rust = |c, s| Running::of(g).next_cell(c, s);
            let expected = next_cell(g, *dir, cursor, size, rust);
            if expected.number() == 0 {
                corners.next_cell(g, size);
            }
            expected
        },
    );
    t.answered(
        &operation("GridLayout::align_size_within_rect", &[4, 5, 6, 8, 9]),
        framed,
        |(g, frame, size)| port::align_size_within_rect(g, size, frame),
        |(g, frame, size)| {
            aligned(g, frame, size, |f, s| {
                Running::of(g).align_size_within_rect(s, f)
            })
        },
    );
    t.answered(
        &operation("GridLayout::justify_and_align", &[4, 5, 6, 8, 9]),
        framed,
        |(g, frame, size)| port::justify_and_align(g, frame, size),
        |(g, frame, size)| {
            aligned(g, frame, size, |f, s| {
                Running::of(g).justify_and_align(f, s)
            })
        },
    );
}
