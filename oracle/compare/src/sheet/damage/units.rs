//! Damage to M: its place, and what stands in its line.

use super::Hit;
use crate::rng::Rng;
use crate::sheet::texts::{Lines, somewhere};

const UNIT: &[u8] = b"M\n";

fn has_unit(lines: &Lines) -> bool {
    lines.get(1).is_some_and(|line| line == UNIT)
}

fn put_in(lines: &mut Lines, place: usize) -> Hit {
    if lines.len() < place {
        lines.resize_with(place, || b"E\n".to_vec());
    }
    lines.insert(place, UNIT.to_vec());
    Hit::Somewhere
}

/// In H's place, or before it.
pub fn first(rng: &mut Rng, lines: &mut Lines) -> Hit {
    if rng.one_in(2) {
        lines.remove(0);
    }
    put_in(lines, 0)
}

/// Where there is one already, that is a second one then.
pub fn second(_: &mut Rng, lines: &mut Lines) -> Hit {
    put_in(lines, 1)
}

/// After an M, a G or a step.
pub fn third(_: &mut Rng, lines: &mut Lines) -> Hit {
    put_in(lines, 2)
}

pub fn later(rng: &mut Rng, lines: &mut Lines) -> Hit {
    let place = 3 + somewhere(rng, lines.len());
    put_in(lines, place)
}

/// What is left is a sheet in ticks.
pub fn taken_out(_: &mut Rng, lines: &mut Lines) -> Hit {
    if !has_unit(lines) {
        return Hit::Nowhere;
    }
    lines.remove(1);
    Hit::Somewhere
}

/// To the front, or behind some of the records after it.
pub fn moved(rng: &mut Rng, lines: &mut Lines) -> Hit {
    if !has_unit(lines) {
        return Hit::Nowhere;
    }
    let to = somewhere(rng, lines.len());
    if to == 1 {
        return Hit::Nowhere;
    }
    let unit = lines.remove(1);
    lines.insert(to, unit);
    Hit::Somewhere
}

pub fn after_grid(_: &mut Rng, lines: &mut Lines) -> Hit {
    if !has_unit(lines) || lines.get(2).is_none_or(|line| line[0] != b'G') {
        return Hit::Nowhere;
    }
    lines.swap(1, 2);
    Hit::Somewhere
}

/// A field, a space, or nearly nothing.
const MORE: [&[u8]; 10] = [
    b"       1",
    b"       0",
    b"        ",
    b" ",
    b"\r",
    b"\t",
    b"\0",
    b"M",
    b"1",
    b"       1       1",
];

/// Does something to the line of M, which is put in where there is none.
fn to_the_line(lines: &mut Lines, damage: impl FnOnce(&mut Vec<u8>)) -> Hit {
    if !has_unit(lines) {
        lines.insert(1, UNIT.to_vec());
    }
    damage(&mut lines[1]);
    Hit::Somewhere
}

/// Before the LF.
pub fn and_more(rng: &mut Rng, lines: &mut Lines) -> Hit {
    to_the_line(lines, |line| {
        line.splice(1..1, rng.pick(&MORE).iter().copied());
    })
}

/// At the text's end in a third of them, else with the next record right after the letter.
pub fn lf_missing(rng: &mut Rng, lines: &mut Lines) -> Hit {
    if rng.one_in(3) {
        lines.truncate(1 + usize::from(has_unit(lines)));
    }
    to_the_line(lines, |line| line.truncate(1))
}
