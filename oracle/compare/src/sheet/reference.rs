//! A sheet's text by RULES 6.1 to 6.11, 6.24 and 6.25, and numbers 1 to 3 by RULES 8.6 to 8.8.

use std::ops::RangeInclusive;

use crate::values::{LIMIT_TICKS, TICKS_PER_POINT};

/// RULES 6.2: a field's columns.
pub const COLUMNS: usize = 8;

/// RULES 6.11.
pub const MOST_RECORDS: usize = 512;

/// RULES 6.18: a control's places.
pub const PLACES: usize = 8;

pub enum Field {
    Wrong,
    Blank,
    Number(i32),
}

/// The field in the 8 columns from `at` on; `limit` bounds the number's magnitude.
pub fn field(text: &[u8], at: usize, limit: u32) -> Field {
    let columns = text.get(at..).and_then(|rest| rest.get(..COLUMNS));
    let Some(columns) = columns.and_then(|bytes| str::from_utf8(bytes).ok()) else {
        return Field::Wrong;
    };
    let number = columns.trim_start_matches(' ');
    if number.is_empty() {
        return Field::Blank;
    }
    let digits = number.strip_prefix('-').unwrap_or(number);
    let plain = digits.bytes().all(|b| b.is_ascii_digit());
    // parse alone would take a plus, leading zeros and -0.
    match number.parse::<i32>() {
        Ok(0) if number == "0" => Field::Number(0),
        Ok(n) if plain && !digits.starts_with('0') && n.unsigned_abs() <= limit => Field::Number(n),
        _ => Field::Wrong,
    }
}

/// RULES 6.24: what the fields of a W count.
#[derive(Clone, Copy, PartialEq)]
pub enum Unit {
    Ticks,
    Hundredths,
}

/// An inch is 72 points, and 25.4 mm.
const INCH_TICKS: i64 = 2_304;
const INCH_HUNDREDTHS: i64 = 2_540;

/// RULES 6.25: of the two ticks about so many hundredths of a millimetre the nearer one. None is in the
/// middle of them, so a negative length is the mirror of a positive one by itself.
pub fn from_hundredths(n: i32) -> i32 {
    let exact = INCH_TICKS * i64::from(n);
    let below = exact.div_euclid(INCH_HUNDREDTHS);
    let above = below + 1;
    let [down, up] = [below, above].map(|ticks| exact.abs_diff(INCH_HUNDREDTHS * ticks));
    (if down < up { below } else { above }) as i32
}

pub enum Record {
    Heading {
        layout: [usize; 6],
        max_rect: [f32; 4],
        spacing: [f32; 2],
    },
    Metric,
    Grid {
        min_cell: [f32; 2],
        max_cell: [f32; 2],
        columns: Option<usize>,
        start_row: usize,
    },
    Widget([f32; 2]),
    Space(f32),
    RowHeight(f32),
    MaxWidth(f32),
    MaxHeight(f32),
    MinWidth(f32),
    MinHeight(f32),
    RowEnd,
}

/// What is left of a record, to be taken field by field.
struct Fields<'a>(&'a [u8]);

impl Fields<'_> {
    fn next(&mut self, limit: u32) -> Field {
        let field = field(self.0, 0, limit);
        self.0 = self.0.get(COLUMNS..).unwrap_or_default();
        field
    }

    /// A number, or nothing where the field is blank.
    fn number(&mut self, limit: u32) -> Option<Option<i32>> {
        match self.next(limit) {
            Field::Wrong => None,
            Field::Blank => Some(None),
            Field::Number(n) => Some(Some(n)),
        }
    }

    fn length_or_blank(&mut self) -> Option<Option<f32>> {
        let ticks = self.number(LIMIT_TICKS as u32)?;
        Some(ticks.map(|n| n as f32 / TICKS_PER_POINT))
    }

    fn length(&mut self) -> Option<f32> {
        self.length_or_blank()?
    }

    /// RULES 6.24: a side of a W, whose range is that of its field.
    fn side(&mut self, unit: Unit) -> Option<f32> {
        let n = self.number(LIMIT_TICKS as u32)??;
        let ticks = match unit {
            Unit::Ticks => n,
            Unit::Hundredths => from_hundredths(n),
        };
        Some(ticks as f32 / TICKS_PER_POINT)
    }

    /// RULES 6.9: a bound of the cell, none where it is blank.
    fn max_length(&mut self) -> Option<f32> {
        Some(self.length_or_blank()?.unwrap_or(f32::INFINITY))
    }

    fn within_or_blank(&mut self, range: RangeInclusive<i32>) -> Option<Option<usize>> {
        match self.number(u32::MAX)? {
            Some(n) if range.contains(&n) => Some(Some(n as usize)),
            Some(_) => None,
            None => Some(None),
        }
    }

    fn within(&mut self, range: RangeInclusive<i32>) -> Option<usize> {
        self.within_or_blank(range)?
    }
}

/// The record that a line is, its LF with it.
fn record(line: &[u8], unit: Unit) -> Option<Record> {
    let (letter, rest) = line.split_first()?;
    let mut f = Fields(rest);
    let record = match letter {
        b'H' => Record::Heading {
            layout: [
                f.within(0..=3)?,
                f.within(0..=1)?,
                f.within(0..=2)?,
                f.within(0..=1)?,
                f.within(0..=2)?,
                f.within(0..=1)?,
            ],
            max_rect: [f.length()?, f.length()?, f.length()?, f.length()?],
            spacing: [f.length()?, f.length()?],
        },
        b'M' => Record::Metric,
        b'G' => Record::Grid {
            min_cell: [f.length()?, f.length()?],
            max_cell: [f.max_length()?, f.max_length()?],
            columns: f.within_or_blank(1..=32)?,
            start_row: f.within(0..=127)?,
        },
        b'W' => Record::Widget([f.side(unit)?, f.side(unit)?]),
        b'S' => Record::Space(f.length()?),
        b'R' => Record::RowHeight(f.length()?),
        b'L' => Record::MaxWidth(f.length()?),
        b'K' => Record::MaxHeight(f.length()?),
        b'N' => Record::MinWidth(f.length()?),
        b'T' => Record::MinHeight(f.length()?),
        b'E' => Record::RowEnd,
        _ => return None,
    };
    (f.0 == b"\n").then_some(record)
}

/// The lines of a text, each with its LF; the last may lack it.
pub fn lines(text: &[u8]) -> impl Iterator<Item = &[u8]> {
    text.split_inclusive(|&byte| byte == b'\n')
}

pub fn record_at(text: &[u8], unit: Unit, at: usize) -> Option<Record> {
    record(lines(text.get(at..)?).next()?, unit)
}

/// By the letter right after H.
pub fn unit(text: &[u8]) -> Unit {
    match lines(text).nth(1) {
        Some([b'M', ..]) => Unit::Hundredths,
        _ => Unit::Ticks,
    }
}

/// The line of G, after H and M.
pub fn grid_line(text: &[u8]) -> Option<&[u8]> {
    let before = match unit(text) {
        Unit::Ticks => 1,
        Unit::Hundredths => 2,
    };
    lines(text).nth(before).filter(|line| line[0] == b'G')
}

/// What comes before the first step; of a sheet without a G the grid's numbers are all zero.
pub struct Heading {
    pub layout: [usize; 6],
    pub max_rect: [f32; 4],
    pub spacing: [f32; 2],
    pub unit: Unit,
    pub grid: bool,
    pub min_cell: [f32; 2],
    pub max_cell: [f32; 2],
    pub columns: usize,
    pub start_row: usize,
    pub records: usize,
    pub next: usize,
}

impl Heading {
    /// One more record of it.
    fn take(&mut self, line: &[u8]) {
        self.records += 1;
        self.next += line.len();
    }
}

/// The heading of a text, or the record that it goes wrong at.
pub fn heading(text: &[u8]) -> Result<Heading, usize> {
    let mut lines = lines(text).peekable();
    let first = lines.next().ok_or(1_usize)?;
    let Some(Record::Heading {
        layout,
        max_rect,
        spacing,
    }) = record(first, Unit::Ticks)
    else {
        return Err(1);
    };
    let mut heading = Heading {
        layout,
        max_rect,
        spacing,
        unit: Unit::Ticks,
        grid: false,
        min_cell: [0.0; 2],
        max_cell: [0.0; 2],
        columns: 0,
        start_row: 0,
        records: 1,
        next: first.len(),
    };
    if let Some(line) = lines.next_if(|line| line[0] == b'M') {
        if line != b"M\n" {
            return Err(2);
        }
        heading.unit = Unit::Hundredths;
        heading.take(line);
    }
    let Some(line) = lines.next_if(|line| line[0] == b'G') else {
        return Ok(heading);
    };
    let Some(Record::Grid {
        min_cell,
        max_cell,
        columns,
        start_row,
    }) = record(line, heading.unit)
    else {
        return Err(heading.records + 1);
    };
    heading.grid = true;
    (heading.min_cell, heading.max_cell) = (min_cell, max_cell);
    (heading.columns, heading.start_row) = (columns.unwrap_or(0), start_row);
    heading.take(line);
    Ok(heading)
}

pub enum Outcome {
    Accepted { records: usize, widgets: usize },
    Refused { number: u8, record: usize },
}

/// What numbers 1 to 3 make of a sheet whose lent slice has `room` places.
pub fn check(text: &[u8], room: usize) -> Outcome {
    let refused = |number, record| Outcome::Refused { number, record };
    if text.is_empty() {
        return refused(1, 1);
    }
    let (mut records, mut widgets) = (0, 0);
    // Where a G may stand: an M moves it on.
    let mut grid_at = 2;
    for line in lines(text) {
        if records == MOST_RECORDS {
            return refused(2, MOST_RECORDS + 1);
        }
        records += 1;
        // A W's range is the same in both units.
        let in_place = match record(line, Unit::Ticks) {
            Some(Record::Heading { .. }) => records == 1,
            Some(Record::Metric) => records == 2,
            Some(Record::Grid { .. }) => records == grid_at,
            Some(_) => records != 1,
            None => false,
        };
        if !in_place {
            return refused(1, records);
        }
        grid_at += usize::from(line[0] == b'M');
        widgets += usize::from(line[0] == b'W');
    }
    if room < PLACES * widgets {
        return refused(3, 1);
    }
    Outcome::Accepted { records, widgets }
}

/// A number in 8 columns, if it fits them.
pub fn columns(n: i32) -> Option<String> {
    Some(format!("{n:>COLUMNS$}")).filter(|text| text.len() == COLUMNS)
}

/// A line of output, if each of its numbers has a text.
pub fn line(letter: u8, numbers: &[i32]) -> Option<Vec<u8>> {
    let mut line = vec![letter];
    for &n in numbers {
        line.extend(columns(n)?.bytes());
    }
    line.push(b'\n');
    Some(line)
}
