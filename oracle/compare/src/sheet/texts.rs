//! Well-formed sheets, drawn: every letter, every field over its whole range, few records or many.

use crate::rng::Rng;
use crate::values::LIMIT_TICKS;

use super::reference::{COLUMNS, MOST_RECORDS};

/// A sheet's records, each with its LF.
pub type Lines = Vec<Vec<u8>>;

/// What a field may hold.
#[derive(Clone, Copy)]
pub struct Holds {
    pub least: i32,
    pub most: i32,
    pub blank: bool,
}

const fn from(least: i32, most: i32) -> Holds {
    Holds {
        least,
        most,
        blank: false,
    }
}

const fn or_blank(holds: Holds) -> Holds {
    Holds {
        blank: true,
        ..holds
    }
}

const LENGTH: Holds = from(-LIMIT_TICKS, LIMIT_TICKS);
const FLAG: Holds = from(0, 1);
const ALIGN: Holds = from(0, 2);

const HEADING: [Holds; 12] = [
    from(0, 3),
    FLAG,
    ALIGN,
    FLAG,
    ALIGN,
    FLAG,
    LENGTH,
    LENGTH,
    LENGTH,
    LENGTH,
    LENGTH,
    LENGTH,
];

const GRID: [Holds; 6] = [
    LENGTH,
    LENGTH,
    or_blank(LENGTH),
    or_blank(LENGTH),
    or_blank(from(1, 32)),
    from(0, 127),
];

/// Each letter, and its fields.
pub const LETTERS: [(u8, &[Holds]); 11] = [
    (b'H', &HEADING),
    (b'G', &GRID),
    (b'W', &[LENGTH, LENGTH]),
    (b'S', &[LENGTH]),
    (b'R', &[LENGTH]),
    (b'L', &[LENGTH]),
    (b'K', &[LENGTH]),
    (b'N', &[LENGTH]),
    (b'T', &[LENGTH]),
    (b'E', &[]),
    (b'M', &[]),
];

/// The fields of all letters together.
pub const FIELDS: usize = 26;

pub fn fields_of(letter: u8) -> &'static [Holds] {
    LETTERS.iter().find(|l| l.0 == letter).map_or(&[], |l| l.1)
}

/// A field's number among those of all letters.
pub fn field_number(letter: u8, field: usize) -> usize {
    let before = LETTERS.iter().take_while(|l| l.0 != letter);
    before.map(|l| l.1.len()).sum::<usize>() + field
}

/// A whole number: often an end of the range, about zero or a power of ten, and of any length.
pub fn whole(rng: &mut Rng, least: i32, most: i32) -> i32 {
    let (low, high) = (i64::from(least), i64::from(most));
    let sign = rng.pick(&[1, -1]);
    let n = match rng.below(8) {
        0 => rng.pick(&[low, high, low + 1, high - 1]),
        1 => rng.pick(&[0, 1, -1]),
        2 => sign * 10_i64.pow(rng.below(10)) + i64::from(rng.about_zero(1)),
        _ => sign * i64::from(rng.bits() >> rng.below(32)),
    };
    let n = if (low..=high).contains(&n) {
        n
    } else {
        low + i64::from(rng.bits()) % (high - low + 1)
    };
    n as i32
}

/// Puts `text` at the right of a field.
pub fn put(columns: &mut [u8], text: &[u8]) {
    let (spaces, place) = columns.split_at_mut(COLUMNS - text.len());
    spaces.fill(b' ');
    place.copy_from_slice(text);
}

pub fn record(rng: &mut Rng, letter: u8) -> Vec<u8> {
    let mut line = vec![letter];
    for holds in fields_of(letter) {
        if holds.blank && rng.one_in(2) {
            line.extend([b' '; COLUMNS]);
        } else {
            let n = whole(rng, holds.least, holds.most);
            line.extend(format!("{n:>COLUMNS$}").bytes());
        }
    }
    line.push(b'\n');
    line
}

/// Sides whose 576-fold leaves 317, 318, 0, 1 and 634 of 635: the farthest from a tick, right at one,
/// and beside one.
const LEAVING: [i32; 5] = [522, 113, 0, 226, 409];

/// A side of a W in hundredths: half of the time one of these, of any magnitude and sign.
pub fn hundredths(rng: &mut Rng, least: i32, most: i32) -> i32 {
    let n = whole(rng, least, most);
    let near = n - n % 635 + rng.pick(&LEAVING) * n.signum();
    if rng.one_in(2) && (least..=most).contains(&near) {
        near
    } else {
        n
    }
}

/// A step of a sheet with M.
fn metric(rng: &mut Rng, letter: u8) -> Vec<u8> {
    if letter != b'W' {
        return record(rng, letter);
    }
    let sides = [(); 2].map(|()| hundredths(rng, -LIMIT_TICKS, LIMIT_TICKS));
    let sides = sides.map(|n| format!("{n:>COLUMNS$}"));
    format!("W{}\n", sides.concat()).into_bytes()
}

/// The letters that a sheet goes on with: all, controls and row ends, one letter only.
const REST: [&[u8]; 5] = [b"WSRLKNTE", b"WSRLKNTE", b"WWWE", b"W", b"E"];

/// About the most records there may be.
const MANY: [usize; 8] = [510, 511, 512, 512, 512, 513, 513, 514];

pub fn sheet(rng: &mut Rng) -> Lines {
    let records = match rng.below(250) {
        0 => rng.pick(&MANY),
        1..=5 => 13 + rng.below(48) as usize,
        _ => 1 + rng.below(12) as usize,
    };
    let mut lines = vec![record(rng, b'H')];
    let in_hundredths = records > 1 && rng.one_in(2);
    if in_hundredths {
        lines.push(record(rng, b'M'));
    }
    if records > lines.len() && rng.one_in(2) {
        lines.push(record(rng, b'G'));
    }
    let letters = rng.pick(&REST);
    let step: fn(&mut Rng, u8) -> Vec<u8> = if in_hundredths { metric } else { record };
    while lines.len() < records {
        let letter = rng.pick(letters);
        lines.push(step(rng, letter));
    }
    lines
}

/// Whether a sheet has about the most records there may be.
pub fn is_long(lines: &Lines) -> bool {
    lines.len() + 8 > MOST_RECORDS
}

/// Which record, or how far in a text of `len`: where it is long, half of the time near the end.
pub fn somewhere(rng: &mut Rng, len: usize) -> usize {
    let near = len.min(5);
    if len > 400 && rng.one_in(2) {
        len - 1 - rng.below(near as u32) as usize
    } else {
        rng.below(len as u32) as usize
    }
}
