//! Single numbers and lines of output, written anywhere in a slice.

use std::cell::Cell;

use super::answers::Written;
use super::counts::{note, show};
use super::probe;
use super::reference::{self, COLUMNS};
use super::texts::whole;
use crate::rng::Rng;
use crate::tally::{Shown, Tally};

/// The least and the greatest number that 8 columns hold.
const LEAST: i32 = -9_999_999;
const GREATEST: i32 = 99_999_999;

/// Any number, often about those that 8 columns just hold.
fn number(rng: &mut Rng) -> i32 {
    match rng.below(4) {
        0 => rng.pick(&[LEAST, GREATEST]) + rng.about_zero(2),
        1 => whole(rng, i32::MIN, i32::MAX),
        _ => whole(rng, LEAST, GREATEST),
    }
}

/// Marks, of which the first `len` are lent, and a place there for a text of `size`: it fits, just
/// fits, or does not.
fn place(rng: &mut Rng, size: usize) -> (Vec<u8>, usize, usize) {
    let before = rng.below(12) as usize;
    let (len, at) = match rng.below(12) {
        0 => (before + size - 1, before),
        1 => (before + rng.below(size as u32) as usize, before),
        2 => (before, before + rng.below(12) as usize),
        3 => (
            before + size,
            usize::MAX - rng.below(size as u32 + 4) as usize,
        ),
        4..=6 => (before + size, before),
        _ => (before + size + rng.below(12) as usize, before),
    };
    let bytes = (0..len + size).map(|_| rng.bits() as u8).collect();
    (bytes, len, at)
}

/// What becomes of a text to be written.
const WRITTEN: [&str; 5] = [
    "written",
    "written up to the end",
    "no text",
    "no room",
    "neither text nor room",
];

fn note_written(counts: &[Cell<u64>], has_text: bool, len: usize, at: usize, size: usize) {
    let room = len.saturating_sub(at);
    let fits = size <= room;
    note(&counts[0], has_text && fits);
    note(&counts[1], has_text && room == size);
    note(&counts[2], !has_text && fits);
    note(&counts[3], has_text && !fits);
    note(&counts[4], !has_text && !fits);
}

struct Number {
    bytes: Vec<u8>,
    len: usize,
    at: usize,
    z: i32,
}

impl Shown for Number {
    fn show(&self) -> String {
        let (len, at, z) = (self.len, self.at, self.z);
        format!("{z}, at {at} of {len}")
    }
}

fn draw_number(rng: &mut Rng) -> Number {
    let (bytes, len, at) = place(rng, COLUMNS);
    let z = number(rng);
    Number { bytes, len, at, z }
}

/// What a number that is written looks like: its sign, and how many digits it has.
const SHAPES: [&str; 15] = [
    "1 digit",
    "2 digits",
    "3 digits",
    "4 digits",
    "5 digits",
    "6 digits",
    "7 digits",
    "8 digits",
    "minus and 1 digit",
    "minus and 2",
    "minus and 3",
    "minus and 4",
    "minus and 5",
    "minus and 6",
    "minus and 7",
];

fn shape(columns: &str) -> usize {
    let text = columns.trim_start();
    match text.strip_prefix('-') {
        Some(digits) => COLUMNS + digits.len() - 1,
        None => text.len() - 1,
    }
}

fn write(c: &Number) -> Written {
    probe::write_field(c.bytes.clone(), c.len, c.at, c.z)
}

fn written(c: &Number, columns: Option<&str>) -> Written {
    Written::of(columns.map(str::as_bytes), c.bytes.clone(), c.len, c.at)
}

/// Every number that five columns hold, in the midst of marks.
fn five_columns() -> impl Iterator<Item = Number> {
    (-9_999..=99_999).map(|z| Number {
        bytes: vec![b'#'; COLUMNS + 2],
        len: COLUMNS + 2,
        at: 1,
        z,
    })
}

fn compare_numbers(t: &mut Tally) {
    let counts = WRITTEN.map(|_| Cell::new(0));
    let shapes = SHAPES.map(|_| Cell::new(0));
    let theirs = |c: &Number| {
        let columns = reference::columns(c.z);
        note_written(&counts, columns.is_some(), c.len, c.at, COLUMNS);
        let written = written(c, columns.as_deref());
        if let Some(columns) = columns {
            note(&shapes[shape(&columns)], written.written != 0);
        }
        written
    };
    t.drawn(
        "field_write",
        300,
        |v| draw_number(&mut v.rng),
        write,
        theirs,
    );
    show(t, "field_write", &WRITTEN, &counts);
    show(t, "field_write", &SHAPES, &shapes);
    let theirs = |c: &Number| written(c, reference::columns(c.z).as_deref());
    t.each("field_write, five columns", five_columns(), write, theirs);
}

struct Line {
    bytes: Vec<u8>,
    len: usize,
    at: usize,
    letter: u8,
    numbers: Vec<i32>,
}

impl Shown for Line {
    fn show(&self) -> String {
        let Self {
            len,
            at,
            letter,
            numbers,
            ..
        } = self;
        let letter = letter.escape_ascii();
        format!("'{letter}' {numbers:?}, at {at} of {len}")
    }
}

fn size(numbers: &[i32]) -> usize {
    2 + COLUMNS * numbers.len()
}

fn draw_line(rng: &mut Rng) -> Line {
    let count = match rng.below(8) {
        0 => rng.below(40),
        1 => rng.pick(&[2, 4, 9]),
        _ => rng.below(13),
    };
    let mut numbers = Vec::from_iter((0..count).map(|_| whole(rng, LEAST, GREATEST)));
    // One that may have no text, at any place.
    if count != 0 && rng.one_in(3) {
        numbers[rng.below(count) as usize] = number(rng);
    }
    let letter = if rng.one_in(4) {
        rng.bits() as u8
    } else {
        rng.pick(b"WPCDX")
    };
    let (bytes, len, at) = place(rng, size(&numbers));
    Line {
        bytes,
        len,
        at,
        letter,
        numbers,
    }
}

fn compare_lines(t: &mut Tally) {
    let counts = WRITTEN.map(|_| Cell::new(0));
    t.drawn(
        "line_write",
        300,
        |v| draw_line(&mut v.rng),
        |c| probe::write_line(c.bytes.clone(), c.len, c.at, c.letter, &c.numbers),
        |c| {
            let line = reference::line(c.letter, &c.numbers);
            note_written(&counts, line.is_some(), c.len, c.at, size(&c.numbers));
            Written::of(line.as_deref(), c.bytes.clone(), c.len, c.at)
        },
    );
    show(t, "line_write", &WRITTEN, &counts);
}

pub fn compare(t: &mut Tally) {
    compare_numbers(t);
    compare_lines(t);
}
