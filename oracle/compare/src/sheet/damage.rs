//! The kinds of damage that a sheet is given, and what RULES 8.6 and 8.7 make of each.

mod bytes;
mod columns;
mod records;
mod units;

use super::texts::{FIELDS, Lines, is_long};
use crate::rng::Rng;

/// Where a sheet was damaged; the field's number is among those of all letters.
pub enum Hit {
    Nowhere,
    Somewhere,
    Field(usize),
}

/// What becomes of a well-formed sheet of at most 512 records.
#[derive(Clone, Copy)]
pub enum Fate {
    Refused,
    /// With number 2.
    TooLong,
    Either,
    Accepted,
}

use Fate::{Accepted, Either, Refused, TooLong};

pub struct Kind {
    pub words: &'static str,
    pub fate: Fate,
    /// How many fields it has to be met in, of all letters.
    pub fields: usize,
    damage: fn(&mut Rng, &mut Lines) -> Hit,
}

const fn kind(words: &'static str, fate: Fate, damage: fn(&mut Rng, &mut Lines) -> Hit) -> Kind {
    Kind {
        words,
        fate,
        fields: 0,
        damage,
    }
}

const fn in_fields(fields: usize, kind: Kind) -> Kind {
    Kind { fields, ..kind }
}

/// A kind that every field of every letter has to meet.
const fn field(words: &'static str, fate: Fate, damage: fn(&mut Rng, &mut Lines) -> Hit) -> Kind {
    in_fields(FIELDS, kind(words, fate, damage))
}

/// G's maximum width and height, and its columns.
const OPTIONAL: usize = 3;

/// The first two are those of sheets that are long and of sheets that are damaged twice.
pub static KINDS: [Kind; 49] = [
    kind("bytes after 512 records", TooLong, bytes::after_the_most),
    kind("two kinds at once", Either, twice),
    kind("a byte changed", Either, bytes::changed),
    kind("a byte dropped", Refused, bytes::dropped),
    kind("a byte doubled", Refused, bytes::doubled),
    kind("cut off", Either, bytes::cut),
    kind("CR LF", Refused, bytes::cr_lf),
    kind("the last LF missing", Refused, bytes::last_lf_missing),
    kind("no byte at all", Refused, bytes::none),
    kind("any bytes", Refused, bytes::any),
    in_fields(
        OPTIONAL,
        kind("a field blank that may be", Accepted, columns::blank),
    ),
    in_fields(
        FIELDS - OPTIONAL,
        kind(
            "a field blank that may not be",
            Refused,
            columns::wrongly_blank,
        ),
    ),
    field("leading zeros", Refused, columns::leading_zeros),
    field("-0", Refused, columns::minus_zero),
    field("a plus", Refused, columns::plus),
    field("a number moved left", Refused, columns::moved_left),
    field("a number moved right, cut", Either, columns::moved_right),
    kind("a number across two fields", Refused, columns::across),
    field("spaces after a number", Refused, columns::spaces_after),
    field("a tab", Refused, columns::tab),
    field("other notations", Refused, columns::other_notation),
    field("an end of the range", Accepted, columns::at_the_end),
    field("one beyond the range", Refused, columns::one_beyond),
    field("far beyond the range", Refused, columns::far_beyond),
    kind("a field too few", Refused, records::field_too_few),
    kind("a field too many", Refused, records::field_too_many),
    kind("a lower-case letter", Refused, records::lower_case),
    kind("another letter", Either, records::other_letter),
    kind("an empty line", Refused, records::empty_line),
    kind("no H", Refused, records::no_heading),
    kind("a record before H", Refused, records::before_heading),
    kind("H again", Refused, records::heading_again),
    kind("G at record 1", Refused, records::grid_first),
    kind("G put in at record 2", Either, records::grid_second),
    kind("G put in at record 3", Either, records::grid_third),
    kind("G later", Refused, records::grid_later),
    kind("M at record 1", Refused, units::first),
    kind("M put in at record 2", Either, units::second),
    kind("M at record 3", Refused, units::third),
    kind("M later", Refused, units::later),
    kind("M taken out", Accepted, units::taken_out),
    kind("M moved", Refused, units::moved),
    kind("G before M", Refused, units::after_grid),
    kind("M and more in its line", Refused, units::and_more),
    kind("the LF of M missing", Refused, units::lf_missing),
    kind("a record removed", Either, records::removed),
    kind("a record twice", Either, records::repeated),
    kind("two records swapped", Either, records::swapped),
    kind("two records joined", Refused, records::joined),
];

const LONG: usize = 0;
const TWICE: usize = 1;

/// Two kinds, the second in the bytes: the first leaves no records to find.
fn twice(rng: &mut Rng, lines: &mut Lines) -> Hit {
    let first = TWICE + 1 + rng.below((KINDS.len() - TWICE - 1) as u32) as usize;
    (KINDS[first].damage)(rng, lines);
    bytes::changed(rng, lines);
    Hit::Somewhere
}

/// Damages a sheet, and says how: the kind's place in `KINDS`, and where.
pub fn damage(rng: &mut Rng, lines: &mut Lines) -> Option<(usize, Hit)> {
    let kind = if is_long(lines) && rng.one_in(4) {
        LONG
    } else {
        TWICE + rng.below((KINDS.len() - TWICE) as u32) as usize
    };
    match (KINDS[kind].damage)(rng, lines) {
        Hit::Nowhere => None,
        hit => Some((kind, hit)),
    }
}
