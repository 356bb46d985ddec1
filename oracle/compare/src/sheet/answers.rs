//! What the entry points give and write, and the same as the reference has it. A place that a call
//! leaves alone keeps a number that no case expects.

use super::reference::{Field, Heading, Outcome, Record};
use crate::probe::UNTOUCHED;
use crate::tally::{Same, Shown};

const UNTOUCHED_COUNT: usize = usize::MAX - 123;

pub struct FieldRead {
    pub kind: u8,
    pub value: [i32; 1],
}

impl FieldRead {
    pub const UNTOUCHED: Self = Self {
        kind: u8::MAX,
        value: [i32::MAX - 123],
    };
}

impl From<Field> for FieldRead {
    fn from(field: Field) -> Self {
        let value = Self::UNTOUCHED.value;
        match field {
            Field::Wrong => Self { kind: 0, value },
            Field::Blank => Self { kind: 1, value },
            Field::Number(n) => Self {
                kind: 2,
                value: [n],
            },
        }
    }
}

impl Shown for FieldRead {
    fn show(&self) -> String {
        format!("kind {}, {:?}", self.kind, self.value)
    }
}

impl Same for FieldRead {
    fn same(&self, other: &Self) -> bool {
        (self.kind, self.value) == (other.kind, other.value)
    }
}

/// The record at fault; or 0, max_rect's edges, the spacings and the cells, the layout's fields,
/// whether there is a grid, its columns and start row, the heading's records and where it ends, and
/// the unit of a W.
pub struct HeadingRead {
    pub fault: usize,
    pub lengths: [f32; 10],
    pub counts: [usize; 12],
}

impl HeadingRead {
    pub const UNTOUCHED: Self = Self {
        fault: UNTOUCHED_COUNT,
        lengths: [UNTOUCHED; 10],
        counts: [UNTOUCHED_COUNT; 12],
    };
}

impl From<Result<Heading, usize>> for HeadingRead {
    fn from(heading: Result<Heading, usize>) -> Self {
        let h = match heading {
            Ok(h) => h,
            Err(fault) => {
                return Self {
                    fault,
                    ..Self::UNTOUCHED
                };
            }
        };
        let mut read = Self {
            fault: 0,
            ..Self::UNTOUCHED
        };
        read.lengths[..4].copy_from_slice(&h.max_rect);
        read.lengths[4..6].copy_from_slice(&h.spacing);
        read.lengths[6..8].copy_from_slice(&h.min_cell);
        read.lengths[8..].copy_from_slice(&h.max_cell);
        read.counts[..6].copy_from_slice(&h.layout);
        let (grid, unit) = (usize::from(h.grid), h.unit as usize);
        let rest = [grid, h.columns, h.start_row, h.records, h.next, unit];
        read.counts[6..].copy_from_slice(&rest);
        read
    }
}

impl Shown for HeadingRead {
    fn show(&self) -> String {
        let lengths = self.lengths.show();
        format!("fault {}, {lengths}, {:?}", self.fault, self.counts)
    }
}

impl Same for HeadingRead {
    fn same(&self, other: &Self) -> bool {
        let lengths = self.lengths.same(&other.lengths);
        lengths && (self.fault, self.counts) == (other.fault, other.counts)
    }
}

pub struct RecordRead {
    pub kind: u8,
    pub lengths: [f32; 2],
}

impl RecordRead {
    pub const UNTOUCHED: Self = Self {
        kind: u8::MAX,
        lengths: [UNTOUCHED; 2],
    };

    pub fn of(kind: u8, lengths: &[f32]) -> Self {
        let mut read = Self::UNTOUCHED;
        read.kind = kind;
        read.lengths[..lengths.len()].copy_from_slice(lengths);
        read
    }
}

/// Where a step may stand, a heading's record is none.
impl From<Option<Record>> for RecordRead {
    fn from(record: Option<Record>) -> Self {
        match record {
            None | Some(Record::Heading { .. } | Record::Metric | Record::Grid { .. }) => {
                Self::of(0, &[])
            }
            Some(Record::Widget(size)) => Self::of(1, &size),
            Some(Record::Space(amount)) => Self::of(2, &[amount]),
            Some(Record::RowHeight(height)) => Self::of(3, &[height]),
            Some(Record::MaxWidth(width)) => Self::of(4, &[width]),
            Some(Record::MaxHeight(height)) => Self::of(5, &[height]),
            Some(Record::MinWidth(width)) => Self::of(6, &[width]),
            Some(Record::MinHeight(height)) => Self::of(7, &[height]),
            Some(Record::RowEnd) => Self::of(8, &[]),
        }
    }
}

impl Shown for RecordRead {
    fn show(&self) -> String {
        format!("kind {}, {}", self.kind, self.lengths.show())
    }
}

impl Same for RecordRead {
    fn same(&self, other: &Self) -> bool {
        self.kind == other.kind && self.lengths.same(&other.lengths)
    }
}

pub struct Checked {
    pub number: u8,
    pub counts: [usize; 2],
}

impl Checked {
    pub const UNTOUCHED: Self = Self {
        number: u8::MAX,
        counts: [UNTOUCHED_COUNT; 2],
    };
}

impl From<Outcome> for Checked {
    fn from(outcome: Outcome) -> Self {
        match outcome {
            Outcome::Accepted { records, widgets } => Self {
                number: 0,
                counts: [records, widgets],
            },
            Outcome::Refused { number, record } => Self {
                number,
                counts: [record, UNTOUCHED_COUNT],
            },
        }
    }
}

impl Shown for Checked {
    fn show(&self) -> String {
        format!("number {}, {:?}", self.number, self.counts)
    }
}

impl Same for Checked {
    fn same(&self, other: &Self) -> bool {
        (self.number, self.counts) == (other.number, other.counts)
    }
}

/// A writer's answer, and every byte afterwards: of the slice and beyond it.
pub struct Written {
    pub written: u8,
    pub bytes: Vec<u8>,
}

impl Written {
    /// The text at `at`, if there is one and the first `len` bytes have room for it.
    pub fn of(text: Option<&[u8]>, mut bytes: Vec<u8>, len: usize, at: usize) -> Self {
        let room = bytes[..len].get_mut(at..).unwrap_or_default();
        let fits = text.and_then(|text| Some((text, room.get_mut(..text.len())?)));
        let written = u8::from(fits.is_some());
        if let Some((text, place)) = fits {
            place.copy_from_slice(text);
        }
        Self { written, bytes }
    }
}

impl Shown for Written {
    fn show(&self) -> String {
        format!("{}, {}", self.written, self.bytes.escape_ascii())
    }
}

impl Same for Written {
    fn same(&self, other: &Self) -> bool {
        self.written == other.written && self.bytes == other.bytes
    }
}

/// A list, or a file of them.
pub struct Bytes(pub Vec<u8>);

impl Shown for Bytes {
    fn show(&self) -> String {
        self.0.escape_ascii().to_string()
    }
}

impl Same for Bytes {
    fn same(&self, other: &Self) -> bool {
        self.0 == other.0
    }
}
