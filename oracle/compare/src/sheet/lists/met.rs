//! What the compared lists have to have met.

use super::long::MOST_BYTES;
use crate::sheet::listing::Listed;
use crate::sheet::reference::{
    Field, MOST_RECORDS, PLACES, Record, Unit, field, grid_line, lines, record_at, unit,
};
use crate::tally::{Tally, say};
use crate::values::LIMIT_TICKS;

/// The numbers that a text can get. 3 is not among them, since there is room for every W; nor are 4
/// and 5, since a field cannot say such a length.
const NUMBERS: [usize; 7] = [0, 1, 2, 6, 7, 8, 9];

const LETTERS: &[u8] = b"HGWSRLKNTEM";

/// How many layouts have to be met: without a grid all but the 48 whose H gets 9, with a grid those
/// of directions 0 and 2.
const LAYOUTS: [usize; 2] = [240, 120];

/// Of accepted sheets.
const ACCEPTED: [&str; 30] = [
    "a strip",
    "another sheet without G",
    "a grid",
    "a grid without W",
    "a skipped row, of height 0",
    "32 columns",
    "128 rows",
    "G with a minimum width",
    "G with a minimum height",
    "G with a maximum width",
    "G without a maximum width",
    "G with a maximum height",
    "G without a maximum height",
    "G with columns",
    "G without columns",
    "G with a start row",
    "a plate left of zero and above it",
    "a plate across zero",
    "an edge at the limit",
    "512 records",
    "511 W",
    "a strip with M",
    "another sheet with M and without G",
    "a grid with M",
    "512 records, M among them",
    "a side of 1 hundredth",
    "a side of some whole ticks in hundredths",
    "a side in hundredths, the farthest above its tick",
    "a side in hundredths, the farthest below its tick",
    "a side of 2,097,152 hundredths",
];

const REFUSED: [&str; 7] = [
    "a grid's second pass, after the first was accepted",
    "more bytes than 512 records have, and one of these at fault: 1",
    "more bytes than 512 records have, and these good: 2",
    "M at fault: 1",
    "the G after M on direction 1 or 3: 7",
    "a negative W in hundredths: 6",
    "a W in hundredths that gets 9",
];

pub struct Met {
    numbers: [u64; 10],
    accepted: [u64; ACCEPTED.len()],
    refused: [u64; REFUSED.len()],
    letters: [u64; LETTERS.len()],
    /// By `layout_number`, without a grid and with one.
    layouts: [[u64; 288]; 2],
}

fn count<const N: usize>(counts: &mut [u64; N], met: [bool; N]) {
    for (count, met) in counts.iter_mut().zip(met) {
        *count += u64::from(met);
    }
}

fn layout_number([dir, wrap, main, main_justify, cross, cross_justify]: [usize; 6]) -> usize {
    let aligns = 3 * main + cross;
    let flags = 4 * wrap + 2 * main_justify + cross_justify;
    (4 * aligns + dir) * 8 + flags
}

/// The corners of G.
fn of_grid(record: Option<Record>) -> [bool; 9] {
    let Some(Record::Grid {
        min_cell,
        max_cell,
        columns,
        start_row,
    }) = record
    else {
        return [false; 9];
    };
    let finite = max_cell.map(f32::is_finite);
    [
        min_cell[0] > 0.0,
        min_cell[1] > 0.0,
        finite[0],
        !finite[0],
        finite[1],
        !finite[1],
        columns.is_some(),
        columns.is_none(),
        start_row > 0,
    ]
}

/// The numbers of a W's two fields.
fn sides(line: &[u8]) -> impl Iterator<Item = i64> {
    let number = |at| match field(line, at, LIMIT_TICKS as u32) {
        Field::Number(n) => Some(i64::from(n)),
        _ => None,
    };
    [1, 9].into_iter().filter_map(number)
}

/// The corners of the W of an accepted sheet with M.
fn of_sides(text: &[u8]) -> [bool; 5] {
    let controls = lines(text).filter(|line| line[0] == b'W');
    let sides = Vec::from_iter(controls.flat_map(sides));
    let leaves = |parts| move |n: &i64| *n != 0 && 576 * n % 635 == parts;
    [
        sides.contains(&1),
        sides.iter().any(leaves(0)),
        sides.iter().any(leaves(317)),
        sides.iter().any(leaves(318)),
        sides.contains(&LIMIT_TICKS.into()),
    ]
}

/// How many records each letter has.
fn count_letters(text: &[u8]) -> [usize; LETTERS.len()] {
    let mut counts = [0; LETTERS.len()];
    for line in lines(text) {
        let letter = LETTERS.iter().position(|&letter| letter == line[0]);
        counts[letter.expect("an accepted sheet has no other")] += 1;
    }
    counts
}

/// The corners of what is printed.
fn of_list(listed: &Listed, widgets: usize) -> [bool; 3] {
    let [left, top, right, bottom] = listed.passed.plate;
    let mut edges = listed.passed.out[..PLACES * widgets].iter();
    [
        right < 0.0 && bottom < 0.0,
        left < 0.0 && top < 0.0 && right > 0.0 && bottom > 0.0,
        edges.any(|edge| edge.abs() == LIMIT_TICKS),
    ]
}

impl Met {
    pub fn new() -> Self {
        Self {
            numbers: [0; 10],
            accepted: [0; ACCEPTED.len()],
            refused: [0; REFUSED.len()],
            letters: [0; LETTERS.len()],
            layouts: [[0; 288]; 2],
        }
    }

    pub fn note(&mut self, text: &[u8], listed: &Listed) {
        let number = usize::from(listed.passed.number);
        self.numbers[number] += 1;
        if number == 0 {
            self.note_accepted(text, listed);
        }
        let too_many = text.len() > MOST_BYTES;
        let metric = unit(text) == Unit::Hundredths;
        let record = listed.passed.record;
        let fault = lines(text).nth(record.wrapping_sub(1)).unwrap_or_default();
        let at = |letter: u8| metric && fault.first() == Some(&letter);
        let met = [
            number != 0 && listed.passes == 2,
            number == 1 && too_many,
            number == 2 && too_many,
            number == 1 && record == 2 && at(b'M'),
            number == 7 && record == 3 && at(b'G'),
            number == 6 && at(b'W'),
            number == 9 && at(b'W'),
        ];
        count(&mut self.refused, met);
    }

    fn note_accepted(&mut self, text: &[u8], listed: &Listed) {
        let Some(Record::Heading { layout, .. }) = record_at(text, Unit::Ticks, 0) else {
            unreachable!("an accepted sheet begins with H");
        };
        let letters = count_letters(text);
        let [_, grids, widgets, ..] = letters;
        count(&mut self.letters, letters.map(|n| n != 0));
        self.layouts[grids][layout_number(layout)] += 1;

        let grid = grids == 1;
        let strip = layout[..2] == [0; 2] && layout[3..] == [0; 3];
        let [columns, rows] = listed.passed.memory.counts;
        let heights = &listed.passed.memory.heights[..rows];
        let options = grid_line(text).and_then(|line| record_at(line, Unit::Ticks, 0));
        let [a, b, c, d, e, f, g, h, i] = of_grid(options);
        let [left_and_above, across, at_the_limit] = of_list(listed, widgets);
        let full = letters.iter().sum::<usize>() == MOST_RECORDS;
        let metric = unit(text) == Unit::Hundredths;
        let [one, whole, above, below, longest] = of_sides(text).map(|met| metric && met);
        let met = [
            !grid && strip,
            !grid && !strip,
            grid,
            grid && widgets == 0,
            grid && heights.contains(&0.0),
            grid && columns == 32,
            grid && rows == 128,
            a,
            b,
            c,
            d,
            e,
            f,
            g,
            h,
            i,
            left_and_above,
            across,
            at_the_limit,
            full,
            widgets == MOST_RECORDS - 1,
            metric && !grid && strip,
            metric && !grid && !strip,
            metric && grid,
            metric && full,
            one,
            whole,
            above,
            below,
            longest,
        ];
        count(&mut self.accepted, met);
    }

    pub fn show(&self, t: &mut Tally) {
        let refused = (1..=9).map(|n| format!("{n}: {}", self.numbers[n]));
        let refused = refused.collect::<Vec<_>>().join(", ");
        say!(t, "  accepted {}; refused {refused}", self.numbers[0]);
        if self.numbers[0] * 2 < self.numbers.iter().sum() {
            t.lacking("lists: fewer than half were accepted");
        }
        for n in NUMBERS {
            if self.numbers[n] == 0 {
                t.lacking(&format!("lists: none with number {n}"));
            }
        }
        self.show_letters(t);
        let accepted = ACCEPTED.iter().zip(&self.accepted);
        for (words, count) in accepted.chain(REFUSED.iter().zip(&self.refused)) {
            say!(t, "corner: {words}: {count}");
            if *count == 0 {
                t.lacking(words);
            }
        }
    }

    /// Of the accepted.
    fn show_letters(&self, t: &mut Tally) {
        let letters = LETTERS.iter().map(|&letter| char::from(letter));
        let shown = letters.clone().zip(self.letters);
        let shown = shown.map(|(letter, count)| format!("{letter}: {count}"));
        let shown = shown.collect::<Vec<_>>().join(", ");
        let [without, with] = self
            .layouts
            .map(|of| of.iter().filter(|&&n| n != 0).count());
        say!(t, "  with {shown}; layouts {without}, in a grid {with}");
        for (letter, count) in letters.zip(self.letters) {
            if count == 0 {
                t.lacking(&format!("lists: none with {letter}"));
            }
        }
        if without < LAYOUTS[0] || with < LAYOUTS[1] {
            t.lacking("lists: layouts that no accepted sheet has");
        }
    }
}
