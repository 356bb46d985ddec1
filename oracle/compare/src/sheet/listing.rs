//! The list that program `platelist` prints of a sheet: one pass, or with G two over one slice, then
//! lines in the sheet's columns.

use egui::grid::driver::Memory;

use super::driver::{Given, Passed, pass};
use super::reference::{MOST_RECORDS, PLACES, grid_line, line, lines};
use crate::values::TICKS_PER_POINT;

/// A list, and the pass that it prints or whose refusal it is.
pub struct Listed {
    pub bytes: Vec<u8>,
    pub passed: Passed,
    /// 2 with G, if the first pass is accepted.
    pub passes: usize,
}

pub fn has_grid(text: &[u8]) -> bool {
    grid_line(text).is_some()
}

/// RULES 7.1: with G a second pass over what the first left in the slice, with its memory.
fn printed(text: &[u8]) -> (Passed, usize) {
    let first = Given {
        text: text.to_vec(),
        known: false,
        memory: Memory::EMPTY,
        sizing: true,
        out: vec![0; PLACES * MOST_RECORDS],
    };
    let passed = pass(&first).passed;
    if passed.number != 0 || !has_grid(text) {
        return (passed, 1);
    }
    let second = Given {
        known: true,
        memory: passed.memory,
        sizing: false,
        out: passed.out,
        ..first
    };
    (pass(&second).passed, 2)
}

/// A length in ticks. All that are printed are whole: else the list could not say them.
fn ticks(length: f32) -> i32 {
    let ticks = length * TICKS_PER_POINT;
    assert!(ticks.fract() == 0.0, "{length} is no whole tick");
    ticks as i32
}

fn put(list: &mut Vec<u8>, letter: u8, numbers: &[i32]) {
    list.extend(line(letter, numbers).expect("a length in the domain has a text"));
}

/// RULES 7.5: C for each column, then D for each row.
fn put_memory(list: &mut Vec<u8>, memory: &Memory) {
    let [columns, rows] = memory.counts;
    for (letter, entries) in [
        (b'C', &memory.widths[..columns]),
        (b'D', &memory.heights[..rows]),
    ] {
        for (index, &entry) in entries.iter().enumerate() {
            put(list, letter, &[index as i32, ticks(entry)]);
        }
    }
}

/// RULES 7.4, 7.5: W for each control, then P.
fn put_rects(list: &mut Vec<u8>, text: &[u8], passed: &Passed) {
    let records = lines(text).zip(1..).filter(|(line, _)| line[0] == b'W');
    for ((_, record), edges) in records.zip(passed.out.chunks(PLACES)) {
        put(list, b'W', &[&[record], edges].concat());
    }
    put(list, b'P', &passed.plate.map(ticks));
}

pub fn list(text: &[u8]) -> Listed {
    let (passed, passes) = printed(text);
    let mut bytes = vec![];
    if passed.number == 0 {
        put_rects(&mut bytes, text, &passed);
        if has_grid(text) {
            put_memory(&mut bytes, &passed.memory);
        }
    } else {
        let (number, record) = (i32::from(passed.number), passed.record as i32);
        put(&mut bytes, b'X', &[number, record]);
    }
    Listed {
        bytes,
        passed,
        passes,
    }
}
