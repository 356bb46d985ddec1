//! A lean parser of a sheet: its records in one pass over the text, with numbers 1 to 3.

use egui::placer::driver::ByLength;

const MOST_RECORDS: usize = 512;
const LIMIT_TICKS: i32 = 2_097_152;
const COLUMNS: usize = 8;

/// RULES 6.18: a control's places.
pub const PLACES: usize = 8;

#[derive(Clone, Copy)]
pub enum Record {
    Heading {
        layout: [u8; 6],
        max_rect: [f32; 4],
        spacing: [f32; 2],
    },
    Grid {
        min_cell: [f32; 2],
        max_cell: [f32; 2],
        columns: u8,
        start_row: u8,
    },
    Metric,
    Widget([f32; 2]),
    ByLength(ByLength, f32),
    RowEnd,
}

/// The number, and the record.
pub type Fault = (u8, usize);

const ZEROS: u64 = u64::from_le_bytes([b'0'; COLUMNS]);
const SPACES: u64 = u64::from_le_bytes([b' '; COLUMNS]);
const HIGH: u64 = u64::from_le_bytes([0xf0; COLUMNS]);
const SIXES: u64 = u64::from_le_bytes([6; COLUMNS]);

/// Eight digits, the first in the lowest byte: pairs of neighbours are joined three times.
fn value(digits: u64) -> i32 {
    let d = digits - ZEROS;
    let pairs = (d * 10 + (d >> 8)) & 0x00ff_00ff_00ff_00ff;
    let fours = (pairs * 100 + (pairs >> 16)) & 0x0000_ffff_0000_ffff;
    ((fours * 10_000 + (fours >> 32)) & 0xffff_ffff) as i32
}

/// Nothing inside for a blank field, nothing at all for a wrong one.
fn field(columns: [u8; COLUMNS]) -> Option<Option<i32>> {
    let word = u64::from_le_bytes(columns);
    let spaces = (word ^ SPACES).trailing_zeros() / 8;
    if spaces == 8 {
        return Some(None);
    }
    let minus = (word >> (8 * spaces)) as u8 == b'-';
    let before = spaces + u32::from(minus);
    if before == 8 {
        return None;
    }
    let mask = u64::MAX << (8 * before);
    let digits = word & mask | ZEROS & !mask;
    let plain = digits & HIGH == ZEROS && digits.wrapping_add(SIXES) & HIGH == ZEROS;
    let zero_first = (word >> (8 * before)) as u8 == b'0' && (before != 7 || minus);
    if !plain || zero_first {
        return None;
    }
    let n = value(digits);
    Some(Some(if minus { -n } else { n }))
}

/// 635 hundredths of a millimetre are 576 ticks; within the limit that fits.
fn nearest_tick(hundredths: i32) -> i32 {
    (576 * hundredths + 317 * hundredths.signum()) / 635
}

struct Fields<'a>(&'a [[u8; COLUMNS]]);

impl Fields<'_> {
    fn next(&self, at: usize) -> Option<Option<i32>> {
        field(self.0[at])
    }

    fn length_or(&self, at: usize, blank: Option<f32>) -> Option<f32> {
        match self.next(at)? {
            Some(n) if n.abs() <= LIMIT_TICKS => Some(n as f32 * (1.0 / 32.0)),
            Some(_) => None,
            None => blank,
        }
    }

    fn length(&self, at: usize) -> Option<f32> {
        self.length_or(at, None)
    }

    /// A side of a W, in hundredths of a millimetre where the sheet is `METRIC`.
    fn side<const METRIC: bool>(&self, at: usize) -> Option<f32> {
        if !METRIC {
            return self.length(at);
        }
        match self.next(at)? {
            Some(n) if n.abs() <= LIMIT_TICKS => Some(nearest_tick(n) as f32 * (1.0 / 32.0)),
            _ => None,
        }
    }

    fn within_or(&self, at: usize, least: i32, most: i32, blank: Option<u8>) -> Option<u8> {
        match self.next(at)? {
            Some(n) if (least..=most).contains(&n) => Some(n as u8),
            Some(_) => None,
            None => blank,
        }
    }

    fn upto(&self, at: usize, most: i32) -> Option<u8> {
        self.within_or(at, 0, most, None)
    }

    fn heading(&self) -> Option<Record> {
        let mut layout = [0; 6];
        for (at, most) in [3, 1, 2, 1, 2, 1].into_iter().enumerate() {
            layout[at] = self.upto(at, most)?;
        }
        let [a, b, c, d, e, f] = [6, 7, 8, 9, 10, 11].map(|at| self.length(at));
        Some(Record::Heading {
            layout,
            max_rect: [a?, b?, c?, d?],
            spacing: [e?, f?],
        })
    }

    fn grid(&self) -> Option<Record> {
        let open = Some(f32::INFINITY);
        Some(Record::Grid {
            min_cell: [self.length(0)?, self.length(1)?],
            max_cell: [self.length_or(2, open)?, self.length_or(3, open)?],
            columns: self.within_or(4, 1, 32, Some(0))?,
            start_row: self.upto(5, 127)?,
        })
    }
}

/// How many fields a letter has.
fn fields(letter: u8) -> Option<usize> {
    Some(match letter {
        b'W' => 2,
        b'S' | b'R' | b'L' | b'K' | b'N' | b'T' => 1,
        b'E' | b'M' => 0,
        b'H' => 12,
        b'G' => 6,
        _ => return None,
    })
}

/// The record at the front of `text`, and what comes after it.
fn record<const METRIC: bool>(text: &[u8]) -> Option<(Record, &[u8])> {
    let (&letter, rest) = text.split_first()?;
    let count = fields(letter)?;
    let (columns, rest) = rest.split_at_checked(COLUMNS * count)?;
    let (&last, rest) = rest.split_first()?;
    if last != b'\n' {
        return None;
    }
    let f = Fields(columns.as_chunks().0);
    let by_length = |which| Some(Record::ByLength(which, f.length(0)?));
    let record = match letter {
        b'W' => Record::Widget([f.side::<METRIC>(0)?, f.side::<METRIC>(1)?]),
        b'E' => Record::RowEnd,
        b'S' => by_length(ByLength::AdvanceCursor)?,
        b'R' => by_length(ByLength::SetRowHeight)?,
        b'L' => by_length(ByLength::SetMaxWidth)?,
        b'K' => by_length(ByLength::SetMaxHeight)?,
        b'N' => by_length(ByLength::SetMinWidth)?,
        b'T' => by_length(ByLength::SetMinHeight)?,
        b'H' => f.heading()?,
        b'M' => Record::Metric,
        _ => f.grid()?,
    };
    Some((record, rest))
}

/// Compiled for either unit, so that no W has to ask for it.
fn parse_in<const METRIC: bool>(
    text: &[u8],
    room: usize,
    records: &mut Vec<Record>,
) -> Result<(), Fault> {
    records.clear();
    let (mut rest, mut widgets) = (text, 0);
    while records.is_empty() || !rest.is_empty() {
        let n = records.len() + 1;
        if n > MOST_RECORDS {
            return Err((2, n));
        }
        let (record, after) = record::<METRIC>(rest).ok_or((1, n))?;
        let in_place = match record {
            Record::Heading { .. } => n == 1,
            Record::Metric => n == 2,
            Record::Grid { .. } => n == 2 + usize::from(METRIC),
            _ => n != 1,
        };
        if !in_place {
            return Err((1, n));
        }
        widgets += usize::from(matches!(record, Record::Widget(_)));
        records.push(record);
        rest = after;
    }
    if room < PLACES * widgets {
        return Err((3, 1));
    }
    Ok(())
}

/// Where the second record begins, if the first is an H.
const SECOND: usize = 1 + 12 * COLUMNS + 1;

/// Fills `records`, whose room is used again; `room` is what is lent for the rectangles.
pub fn parse(text: &[u8], room: usize, records: &mut Vec<Record>) -> Result<(), Fault> {
    match text.get(SECOND) {
        Some(b'M') => parse_in::<true>(text, room, records),
        _ => parse_in::<false>(text, room, records),
    }
}
