//! Memory's calls.

use egui::grid::driver::{self, Memory};

use super::corners::Corners;
use super::states::begin;
use super::{number_of_memory, port, set_aside};
use crate::answers::{Expected, Operation};
use crate::faults::{COLUMNS, ROWS, of_answer, of_lengths, of_places, of_sizes};
use crate::tally::{Answer, Tally};
use crate::values::Values;

pub fn operation<'a>(name: &'a str, numbers: &'a [usize]) -> Operation<'a> {
    Operation {
        name,
        thousands: 300,
        numbers,
    }
}

/// A memory, a place and a length to put there.
type Put = (Memory, usize, f32);

/// Sometimes the place is beyond the room.
fn put(v: &mut Values, side: usize, room: usize) -> Put {
    let mut d = begin(v);
    let mut m = d.memory();
    let mut place = d.place(room, [m.counts[side]; 2]);
    if d.v.rng.one_in(16) {
        place = d.v.rng.pick(&[room, room + 1, 1_000, usize::MAX]);
    }
    let mut x = d.extent();
    d.spoil_memory(&mut m);
    d.spoil(&mut [std::slice::from_mut(&mut x)]);
    (m, place, x)
}

fn across(v: &mut Values) -> Put {
    put(v, 0, COLUMNS)
}

fn down(v: &mut Values) -> Put {
    put(v, 1, ROWS)
}

fn at(draw: impl Fn(&mut Values) -> Put) -> impl Fn(&mut Values) -> (Memory, usize) {
    move |v| {
        let (m, place, _) = draw(v);
        (m, place)
    }
}

fn spaced(v: &mut Values) -> (Memory, f32) {
    let mut d = begin(v);
    let mut m = d.memory();
    let [mut spacing, _] = d.spacing();
    d.spoil_memory(&mut m);
    d.spoil(&mut [std::slice::from_mut(&mut spacing)]);
    (m, spacing)
}

fn aside(given: &Memory, answer: Answer<Memory>) -> Answer<Memory> {
    let mut answer = answer;
    if answer.number == 0 {
        set_aside(given, &mut answer.value);
    }
    answer
}

/// The counts that a memory has to have for the place.
fn reached(side: usize, place: usize) -> u8 {
    let count = place.saturating_add(1);
    if side == 0 {
        of_places(count, 0)
    } else {
        of_places(0, count)
    }
}

fn raised(
    corners: &Corners,
    side: usize,
    (m, place, x): &Put,
    rust: impl Fn(&Memory, usize, f32) -> Memory,
) -> Expected<Memory> {
    let numbers = [number_of_memory(m), of_sizes(&[*x]), reached(side, *place)];
    Expected::asked(&numbers, *m, || {
        let new = rust(m, *place, *x);
        let number = of_answer(number_of_memory(&new));
        if number == 0 {
            corners.grown(m, &new);
            corners.not_read(m);
        }
        (number, new)
    })
}

fn entry(m: &Memory, rust: impl Fn() -> Option<f32>) -> Expected<[f32; 2]> {
    Expected::asked(&[number_of_memory(m)], [0.0; 2], || {
        (0, rust().map_or([0.0; 2], |x| [x, 1.0]))
    })
}

pub fn compare(t: &mut Tally, corners: &Corners) {
    t.answered(
        &operation("Memory::set_min_col_width", &[4, 5, 6, 8]),
        across,
        |(m, col, x)| aside(m, port::set_min_col_width(m, *col, *x)),
        |put| raised(corners, 0, put, driver::set_min_col_width),
    );
    t.answered(
        &operation("Memory::set_min_row_height", &[4, 5, 6, 8]),
        down,
        |(m, row, x)| aside(m, port::set_min_row_height(m, *row, *x)),
        |put| raised(corners, 1, put, driver::set_min_row_height),
    );
    t.answered(
        &operation("Memory::col_width", &[4, 5, 6, 8]),
        at(across),
        |(m, col)| port::col_width(m, *col),
        |(m, col)| entry(m, || driver::col_width(m, *col)),
    );
    t.answered(
        &operation("Memory::row_height", &[4, 5, 6, 8]),
        at(down),
        |(m, row)| port::row_height(m, *row),
        |(m, row)| entry(m, || driver::row_height(m, *row)),
    );
    t.answered(
        &operation("Memory::full_width", &[4, 5, 6, 8, 9]),
        spaced,
        |(m, x)| port::full_width(m, *x),
        |(m, x)| {
            let numbers = [number_of_memory(m), of_lengths(&[*x])];
            Expected::asked(&numbers, [0.0; 2], || {
                let width = driver::full_width(m, *x);
                (of_answer(of_lengths(&[width])), [width, 1.0])
            })
        },
    );
}
