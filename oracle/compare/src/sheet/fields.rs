//! Single fields, read anywhere in a text.

use std::cell::Cell;

use super::answers::FieldRead;
use super::counts::{note, show};
use super::probe;
use super::reference::{self, COLUMNS};
use super::texts::{put, whole};
use crate::rng::Rng;
use crate::tally::{Shown, Tally};
use crate::values::LIMIT_TICKS;

/// Bytes, of which the first `len` are the text.
struct Read {
    bytes: Vec<u8>,
    len: usize,
    at: usize,
    limit: u32,
}

impl Read {
    fn text(&self) -> &[u8] {
        &self.bytes[..self.len]
    }
}

impl Shown for Read {
    fn show(&self) -> String {
        let (text, at, limit) = (self.text().escape_ascii(), self.at, self.limit);
        format!("\"{text}\", at {at}, limit {limit}")
    }
}

const ABOUT: &[u8] = b"   0123456789-\nWE";
const LIKELY: &[u8] = b"        -00123456789";

/// Mostly numbers of the sheet; then nearly such, and anything.
fn columns(rng: &mut Rng) -> [u8; COLUMNS] {
    let mut columns = [b' '; COLUMNS];
    let n = whole(rng, -9_999_999, 99_999_999);
    put(&mut columns, n.to_string().as_bytes());
    let few = n % 100_000;
    match rng.below(16) {
        0 => columns.fill(b' '),
        1 => put(&mut columns, format!("{few:08}").as_bytes()),
        2 => put(&mut columns, format!("0{few}").as_bytes()),
        3 => put(&mut columns, format!("{few:<8}").as_bytes()),
        4 => put(&mut columns, format!("{few:+}").as_bytes()),
        5 => put(&mut columns, b"-0"),
        6 => columns.rotate_left(1),
        7 | 8 => columns[rng.below(8) as usize] = rng.pick(ABOUT),
        9 => columns[rng.below(8) as usize] = rng.bits() as u8,
        10 => columns.fill_with(|| rng.pick(LIKELY)),
        11 => columns.fill_with(|| rng.bits() as u8),
        _ => {}
    }
    columns
}

/// The sheet's own limits, and those about the number that is there.
fn limit(rng: &mut Rng, columns: &[u8]) -> u32 {
    let number = str::from_utf8(columns).ok();
    let number = number.and_then(|text| text.trim_start().parse::<i32>().ok());
    let own = number.map_or(0, i32::unsigned_abs);
    match rng.below(8) {
        0 => rng.pick(&[0, 1, 2, 3, 32, 127, 99_999_999, i32::MAX as u32]),
        1 => rng.bits(),
        2 => u32::MAX,
        3 => own,
        4 => own.saturating_sub(1),
        5 => own + 1,
        _ => LIMIT_TICKS as u32,
    }
}

fn draw_read(rng: &mut Rng) -> Read {
    let columns = columns(rng);
    let some = |rng: &mut Rng| {
        let count = rng.below(12);
        (0..count).map(|_| rng.pick(ABOUT)).collect::<Vec<_>>()
    };
    let before = some(rng);
    let bytes = [&before[..], &columns, &some(rng)].concat();
    let own = before.len();
    // The text may end in the field, or right after it.
    let (len, at) = match rng.below(12) {
        0 => (own + rng.below(8) as usize, own),
        1 => (own + COLUMNS, own),
        2 => (bytes.len(), rng.below(bytes.len() as u32 + 4) as usize),
        3 => (bytes.len(), usize::MAX - rng.below(12) as usize),
        _ => (bytes.len(), own),
    };
    let limit = limit(rng, &columns);
    Read {
        bytes,
        len,
        at,
        limit,
    }
}

/// A text of one field.
fn field(columns: [u8; COLUMNS], limit: u32) -> Read {
    Read {
        bytes: columns.to_vec(),
        len: COLUMNS,
        at: 0,
        limit,
    }
}

const FOUR: &[u8] = b" -/0123456789:\nW\0\xff";

/// Four blank columns, and any four of these bytes.
fn short() -> impl Iterator<Item = Read> {
    let all = FOUR.len().pow(4);
    (0..2 * all).map(move |n| {
        let mut columns = [b' '; COLUMNS];
        let mut rest = n % all;
        for column in &mut columns[4..] {
            *column = FOUR[rest % FOUR.len()];
            rest /= FOUR.len();
        }
        field(columns, if n < all { LIMIT_TICKS as u32 } else { 1_000 })
    })
}

const FIELDS: [&[u8; COLUMNS]; 6] = [
    b"    1280",
    b"     288",
    b"       0",
    b"  -12345",
    b" 2097152",
    b"        ",
];

/// Any byte in any column of a few fields.
fn changed() -> impl Iterator<Item = Read> {
    let cases = FIELDS.len() * COLUMNS * 256;
    (0..cases).map(|n| {
        let mut columns = *FIELDS[n / 256 / COLUMNS];
        columns[n / 256 % COLUMNS] = n as u8;
        field(columns, LIMIT_TICKS as u32)
    })
}

const READ: [&str; 6] = [
    "wrong",
    "blank",
    "number",
    "too few bytes",
    "at the limit",
    "one above the limit",
];

pub fn compare(t: &mut Tally) {
    let counts = READ.map(|_| Cell::new(0));
    t.drawn(
        "field_read",
        500,
        |v| draw_read(&mut v.rng),
        |c| probe::read_field(c.text(), c.at, c.limit),
        |c| {
            let read = FieldRead::from(reference::field(c.text(), c.at, c.limit));
            note(&counts[usize::from(read.kind)], true);
            note(&counts[3], c.len.saturating_sub(c.at) < COLUMNS);
            let size = read.value[0].unsigned_abs();
            note(&counts[4], read.kind == 2 && size == c.limit);
            let more = || reference::field(c.text(), c.at, c.limit.saturating_add(1));
            let above = read.kind == 0 && matches!(more(), reference::Field::Number(_));
            note(&counts[5], above);
            read
        },
    );
    show(t, "field_read", &READ, &counts);
    let ours = |c: &Read| probe::read_field(c.text(), c.at, c.limit);
    let theirs = |c: &Read| FieldRead::from(reference::field(c.text(), c.at, c.limit));
    t.each("field_read, short", short(), ours, theirs);
    t.each("field_read, a byte changed", changed(), ours, theirs);
}
