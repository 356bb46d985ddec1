//! A lean writer of a list, and the way from text to list.

use egui::grid::driver::Memory;

use crate::place::{Laid, pass};
use crate::records::{Fault, PLACES, Record, parse};

pub const ROOM: usize = 40_802;

const SLICE: usize = 4_096;

pub struct List<'a> {
    out: &'a mut [u8; ROOM],
    length: usize,
}

impl<'a> List<'a> {
    pub fn new(out: &'a mut [u8; ROOM]) -> Self {
        Self { out, length: 0 }
    }

    pub fn length(&self) -> usize {
        self.length
    }

    /// Right-justified in eight columns, from the last digit on.
    fn number(&mut self, n: i32) {
        let columns = &mut self.out[self.length..self.length + 8];
        columns.fill(b' ');
        let (mut rest, mut at) = (n.unsigned_abs(), 8);
        loop {
            at -= 1;
            columns[at] = b'0' + (rest % 10) as u8;
            rest /= 10;
            if rest == 0 {
                break;
            }
        }
        if n < 0 {
            columns[at - 1] = b'-';
        }
        self.length += 8;
    }

    pub fn line<'n>(&mut self, letter: u8, numbers: impl IntoIterator<Item = &'n i32>) {
        self.out[self.length] = letter;
        self.length += 1;
        for &n in numbers {
            self.number(n);
        }
        self.out[self.length] = b'\n';
        self.length += 1;
    }
}

/// A letter, and its numbers.
pub type Line = (u8, Vec<i32>);

/// A list's lines, read back.
pub fn lines(list: &[u8]) -> Vec<Line> {
    let numbers = |line: &[u8]| {
        let fields = line[1..].chunks_exact(8).map(|field| {
            let text = str::from_utf8(field).expect("a field in ASCII");
            text.trim_start().parse().expect("a whole number")
        });
        (line[0], fields.collect())
    };
    let ended = list.strip_suffix(b"\n").expect("a list that ends with LF");
    ended.split(|&b| b == b'\n').map(numbers).collect()
}

fn ticks(length: f32) -> i32 {
    (length * 32.0) as i32
}

fn laid<const CHECKED: bool>(records: &[Record], slice: &mut [i32]) -> Result<(Laid, bool), Fault> {
    let first = pass::<CHECKED>(records, None, true, slice)?;
    // After H, and M where there is one.
    let mut heading = records.iter().take(3);
    if !heading.any(|record| matches!(record, Record::Grid { .. })) {
        return Ok((first, false));
    }
    let second = pass::<CHECKED>(records, Some(&first.memory), false, slice)?;
    Ok((second, true))
}

fn put_memory(list: &mut List<'_>, memory: &Memory) {
    let [columns, rows] = memory.counts;
    let both = [
        (b'C', &memory.widths[..columns]),
        (b'D', &memory.heights[..rows]),
    ];
    for (letter, entries) in both {
        for (&entry, index) in entries.iter().zip(0..) {
            list.line(letter, &[index, ticks(entry)]);
        }
    }
}

/// Text to list: its length.
pub fn print<const CHECKED: bool>(
    text: &[u8],
    records: &mut Vec<Record>,
    out: &mut [u8; ROOM],
) -> usize {
    let mut slice = [0; SLICE];
    let mut list = List::new(out);
    let done = parse(text, SLICE, records).and_then(|()| laid::<CHECKED>(records, &mut slice));
    match done {
        Err((number, record)) => list.line(b'X', &[i32::from(number), record as i32]),
        Ok((laid, in_grid)) => {
            let numbered = records.iter().zip(1..);
            let widgets = numbered.filter(|(record, _)| matches!(record, Record::Widget(_)));
            for ((_, n), edges) in widgets.zip(slice.chunks_exact(PLACES)) {
                list.line(b'W', [n].iter().chain(edges));
            }
            list.line(b'P', &laid.plate.map(ticks));
            if in_grid {
                put_memory(&mut list, &laid.memory);
            }
        }
    }
    list.length
}
