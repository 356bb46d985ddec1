//! The calls that make or change a grid, and `save`.

use egui::grid::driver::{Grid, Running};
use emath::{Rect, vec2};

use super::corners::Corners;
use super::memories::operation;
use super::states::begin;
use super::{
    Moved, NO_GRID, New, Saved, number_of_memory, numbers_of_grid, port, set_aside,
    set_aside_beyond, with_grid,
};
use crate::answers::Expected;
use crate::emath_ops::{edges, rect};
use crate::faults::{
    self, of_answer, of_cursor, of_direction, of_lengths, of_max_cell, of_places, of_rect,
    of_region, of_room, of_sizes, rect_of,
};
use crate::tally::{Answer, Tally};
use crate::values::{Edges, Values};

fn of_new_grid(g: &Grid) -> u8 {
    of_answer(faults::least(&numbers_of_grid(g)))
}

/// A new grid and cursor outside the domain get 9.
fn of_moved(dir: u8, new: &Moved) -> u8 {
    let numbers = with_grid(&new.grid, &[of_cursor(dir, &new.cursor)]);
    of_answer(faults::least(&numbers))
}

pub fn new(n: &New, rust: impl FnOnce() -> Grid) -> Expected<Grid> {
    let [min_rect, max_rect, cursor] = of_region(n.dir, &n.region);
    // RULES 3.2: an absent memory isn't read.
    let memory = if n.known {
        number_of_memory(&n.memory)
    } else {
        0
    };
    let numbers = [
        min_rect,
        max_rect,
        cursor,
        memory,
        of_lengths(&n.options[..2]),
        of_sizes(&n.options[2..4]),
        of_max_cell(&n.options[4..]),
        of_direction(n.dir),
        of_places(0, n.start_row),
    ];
    Expected::asked(&numbers, NO_GRID, || {
        let grid = rust();
        (of_new_grid(&grid), grid)
    })
}

pub fn running(n: &New) -> Running {
    let [across, down, ..] = n.options;
    let [.., min_x, min_y, max_x, max_y] = n.options;
    Running::new(
        rect(&rect_of(&n.region, 1)),
        rect(&rect_of(&n.region, 2)),
        n.known.then_some(&n.memory),
        n.sizing_pass,
        [vec2(across, down), vec2(min_x, min_y), vec2(max_x, max_y)],
        n.num_columns,
        n.start_row,
    )
}

/// The port's answer, what stands beyond the counts of a memory that it was given put aside.
pub fn made(n: &New) -> Answer<Grid> {
    let mut answer = port::new(n);
    if answer.number == 0 && n.known {
        set_aside(&n.memory, &mut answer.value.prev);
    }
    answer
}

pub fn advance(
    given: &Moved,
    dir: u8,
    frame: &Edges,
    widget: &Edges,
    rust: impl FnOnce(Rect, Rect, Rect) -> (Grid, Rect),
) -> Expected<Moved> {
    let Moved { grid, cursor } = given;
    let others = [
        of_cursor(dir, cursor),
        of_rect(frame),
        of_rect(widget),
        of_direction(dir),
        of_room(grid.col, grid.row),
    ];
    Expected::asked(&with_grid(grid, &others), given.clone(), || {
        let (grid, cursor) = rust(rect(cursor), rect(frame), rect(widget));
        let cursor = edges(cursor);
        let new = Moved { grid, cursor };
        (of_moved(dir, &new), new)
    })
}

pub fn end_row(given: &Moved, dir: u8, rust: impl FnOnce(Rect) -> (Grid, Rect)) -> Expected<Moved> {
    let Moved { grid, cursor } = given;
    // RULES 8.12: 8 where no row is left, at any column.
    let others = [
        of_cursor(dir, cursor),
        of_direction(dir),
        of_room(0, grid.row),
    ];
    Expected::asked(&with_grid(grid, &others), given.clone(), || {
        let (grid, cursor) = rust(rect(cursor));
        let cursor = edges(cursor);
        let new = Moved { grid, cursor };
        (of_moved(dir, &new), new)
    })
}

/// Refused, the memory is the one given, and it is not to be saved.
pub fn save(g: &Grid, rust: impl FnOnce() -> Saved) -> Expected<Saved> {
    let refused = Saved {
        memory: g.prev,
        save: 0,
    };
    Expected::asked(&numbers_of_grid(g), refused, || (0, rust()))
}

pub fn saved(running: &Running) -> Saved {
    let (memory, save) = running.save();
    Saved {
        memory,
        save: u8::from(save),
    }
}

fn drawn_new(v: &mut Values) -> New {
    let mut d = begin(v);
    let mut n = d.new_grid();
    d.spoil_new(&mut n);
    n
}

fn moved(v: &mut Values) -> (Moved, u8) {
    let mut d = begin(v);
    let state = d.state();
    let mut grid = d.grid(&state);
    let mut cursor = rect_of(&state, 2);
    d.open_wrongly(&mut cursor);
    d.spoil(&mut [&mut cursor]);
    d.spoil_grid(&mut grid);
    (Moved { grid, cursor }, d.l[0])
}

/// A grid and a cursor, a direction, a frame and a widget.
type Advance = (Moved, u8, (Edges, Edges));

fn drawn_advance(v: &mut Values) -> Advance {
    let mut d = begin(v);
    let state = d.state();
    let mut grid = d.grid(&state);
    let mut frame = d.frame(&state);
    let mut widget = d.widget(&frame);
    let mut cursor = rect_of(&state, 2);
    d.open_wrongly(&mut cursor);
    d.spoil(&mut [&mut cursor, &mut frame, &mut widget]);
    d.spoil_grid(&mut grid);
    (Moved { grid, cursor }, d.l[0], (frame, widget))
}

/// Half of them with memories alike.
fn drawn_save(v: &mut Values) -> Grid {
    let (Moved { mut grid, .. }, _) = moved(v);
    let mut d = begin(v);
    if d.v.rng.one_in(2) && number_of_memory(&grid.prev) == 0 {
        grid.curr = d.like(&grid.prev);
    }
    grid
}

pub fn compare(t: &mut Tally, corners: &Corners) {
    t.answered(
        &operation("GridLayout::new", &[4, 5, 6, 7, 8]),
        drawn_new,
        made,
        |n| {
            let expected = new(n, || running(n).grid());
            if expected.number() == 0 {
                corners.new(n.known, &n.memory);
            }
            expected
        },
    );
    t.answered(
        &operation("GridLayout::advance", &[4, 5, 6, 7, 8, 9]),
        drawn_advance,
        |(m, dir, (f, w))| {
            let answer = port::advance(&m.grid, *dir, &m.cursor, f, w);
            set_aside_beyond(&m.grid, answer)
        },
        |(m, dir, (f, w))| {
            let expected = advance(m, *dir, f, w, |c, f, w| {
                let mut running = Running::of(&m.grid);
                let cursor = running.advance(c, f, w);
                (running.grid(), cursor)
            });
            if expected.number() == 0 {
                corners.grown(&m.grid.curr, &expected.answer().value.grid.curr);
                corners.not_read(&m.grid.prev);
            }
            expected
        },
    );
    t.answered(
        &operation("GridLayout::end_row", &[4, 5, 6, 7, 8, 9]),
        moved,
        |(m, dir)| {
            let answer = port::end_row(&m.grid, *dir, &m.cursor);
            set_aside_beyond(&m.grid, answer)
        },
        |(m, dir)| {
            let expected = end_row(m, *dir, |c| {
                let mut running = Running::of(&m.grid);
                let cursor = running.end_row(c);
                (running.grid(), cursor)
            });
            if expected.number() == 0 {
                corners.end_row(&m.grid);
            }
            expected
        },
    );
    t.answered(
        &operation("GridLayout::save", &[4, 5, 6, 8]),
        drawn_save,
        |g| {
            let mut answer = port::save(g);
            if answer.number == 0 {
                set_aside(&g.curr, &mut answer.value.memory);
            }
            answer
        },
        |g| {
            let expected = save(g, || saved(&Running::of(g)));
            if expected.number() == 0 {
                corners.save(g, &expected.answer().value);
            }
            expected
        },
    );
}
