//! Damage to one field.

use super::Hit;
use crate::rng::Rng;
use crate::sheet::reference::COLUMNS;
use crate::sheet::texts::{Holds, Lines, field_number, fields_of, put, somewhere, whole};

const BLANK: [u8; COLUMNS] = [b' '; COLUMNS];

/// A field: its line, its number there, and where it starts.
fn field(rng: &mut Rng, lines: &Lines) -> (usize, usize, usize) {
    let mut tries = (0..4).map(|_| somewhere(rng, lines.len()));
    // H has fields, if no other is found.
    let line = tries.find(|&i| !fields_of(lines[i][0]).is_empty());
    let line = line.unwrap_or(0);
    let fields = fields_of(lines[line][0]).len();
    let field = rng.below(fields as u32) as usize;
    (line, field, 1 + COLUMNS * field)
}

/// Does something to a field; `damage` says whether it could.
fn to_a_field(
    rng: &mut Rng,
    lines: &mut Lines,
    damage: impl FnOnce(&mut Rng, &mut [u8], Holds) -> bool,
) -> Hit {
    let (line, field, start) = field(rng, lines);
    let letter = lines[line][0];
    let columns = &mut lines[line][start..start + COLUMNS];
    if damage(rng, columns, fields_of(letter)[field]) {
        Hit::Field(field_number(letter, field))
    } else {
        Hit::Nowhere
    }
}

/// A number for the field, of five digits at most: there is room for more columns.
fn short(rng: &mut Rng, holds: Holds) -> i32 {
    whole(rng, holds.least.max(-99_999), holds.most.min(99_999))
}

pub fn blank(rng: &mut Rng, lines: &mut Lines) -> Hit {
    blanked(rng, lines, true)
}

pub fn wrongly_blank(rng: &mut Rng, lines: &mut Lines) -> Hit {
    blanked(rng, lines, false)
}

fn blanked(rng: &mut Rng, lines: &mut Lines, may_be: bool) -> Hit {
    to_a_field(rng, lines, |_, columns, holds| {
        let damaged = holds.blank == may_be && *columns != BLANK;
        if damaged {
            columns.fill(b' ');
        }
        damaged
    })
}

/// One, two, or as many as there is room for.
pub fn leading_zeros(rng: &mut Rng, lines: &mut Lines) -> Hit {
    to_a_field(rng, lines, |rng, columns, holds| {
        let n = short(rng, holds);
        let text = match rng.below(3) {
            0 => format!("{n:08}"),
            more if n < 0 => format!("-{}{}", &"00"[..more as usize], n.unsigned_abs()),
            more => format!("{}{n}", &"00"[..more as usize]),
        };
        put(columns, text.as_bytes());
        true
    })
}

pub fn minus_zero(rng: &mut Rng, lines: &mut Lines) -> Hit {
    to_a_field(rng, lines, |rng, columns, _| {
        put(columns, rng.pick(&[b"-0", b"-0", b"-00", b"-0000000"]));
        true
    })
}

pub fn plus(rng: &mut Rng, lines: &mut Lines) -> Hit {
    to_a_field(rng, lines, |rng, columns, holds| {
        let n = short(rng, holds).unsigned_abs();
        put(columns, format!("+{n}").as_bytes());
        true
    })
}

pub fn moved_left(rng: &mut Rng, lines: &mut Lines) -> Hit {
    to_a_field(rng, lines, |_, columns, _| {
        let damaged = columns[0] == b' ' && *columns != BLANK;
        columns.rotate_left(usize::from(damaged));
        damaged
    })
}

/// Its last digit is lost.
pub fn moved_right(rng: &mut Rng, lines: &mut Lines) -> Hit {
    to_a_field(rng, lines, |_, columns, _| {
        let damaged = *columns != BLANK;
        columns.rotate_right(1);
        columns[0] = b' ';
        damaged
    })
}

/// A number moved right, its last digit in the next field's first column.
pub fn across(rng: &mut Rng, lines: &mut Lines) -> Hit {
    let (line, _, start) = field(rng, lines);
    let columns = &mut lines[line][start..=start + COLUMNS];
    if columns[COLUMNS] != b' ' || columns[..COLUMNS] == BLANK {
        return Hit::Nowhere;
    }
    columns.rotate_right(1);
    Hit::Somewhere
}

pub fn spaces_after(rng: &mut Rng, lines: &mut Lines) -> Hit {
    to_a_field(rng, lines, |rng, columns, holds| {
        let n = short(rng, holds);
        let text = match rng.below(3) {
            0 => format!("{n:<COLUMNS$}"),
            1 => format!("{n:^COLUMNS$}"),
            _ => format!("{n} "),
        };
        put(columns, text.as_bytes());
        true
    })
}

/// In place of a space.
pub fn tab(rng: &mut Rng, lines: &mut Lines) -> Hit {
    to_a_field(rng, lines, |rng, columns, _| {
        let spaces = columns.iter().filter(|&&b| b == b' ').count();
        if spaces != 0 {
            columns[rng.below(spaces as u32) as usize] = b'\t';
        }
        spaces != 0
    })
}

const NOTATIONS: [&str; 28] = [
    "-", "+", "--1", "-+1", "1-", "1+", "- 1", "1 0", "1  1", "1.", "1.0", "0.5", "1e3", "1,000",
    "1_0", "0x1", "1/2", "1:1", "O", "l", "#1", "inf", "NaN", "½", "１", "1\0", "\x001", "1\n",
];

pub fn other_notation(rng: &mut Rng, lines: &mut Lines) -> Hit {
    to_a_field(rng, lines, |rng, columns, _| {
        put(columns, rng.pick(&NOTATIONS).as_bytes());
        true
    })
}

fn put_number(columns: &mut [u8], n: i32) -> bool {
    put(columns, n.to_string().as_bytes());
    true
}

pub fn at_the_end(rng: &mut Rng, lines: &mut Lines) -> Hit {
    to_a_field(rng, lines, |rng, columns, holds| {
        put_number(columns, rng.pick(&[holds.least, holds.most]))
    })
}

pub fn one_beyond(rng: &mut Rng, lines: &mut Lines) -> Hit {
    to_a_field(rng, lines, |rng, columns, holds| {
        put_number(columns, rng.pick(&[holds.least - 1, holds.most + 1]))
    })
}

/// Also what comes into the range if its high bits or its sign are lost.
pub fn far_beyond(rng: &mut Rng, lines: &mut Lines) -> Hit {
    to_a_field(rng, lines, |rng, columns, holds| {
        let within = whole(rng, holds.least, holds.most);
        let off = rng.pick(&[
            256,
            65_536,
            1 << 22,
            1 << 23,
            1 << 24,
            -256,
            -65_536,
            -(1 << 22),
        ]);
        let n = match rng.below(4) {
            0 => rng.pick(&[99_999_999, 10_000_000, 9_999_999, -9_999_999]),
            1 => whole(rng, -9_999_999, 99_999_999),
            _ => within + off,
        };
        let beyond = !(holds.least..=holds.most).contains(&n);
        put_number(columns, if beyond { n } else { 99_999_999 })
    })
}
