//! Damage to whole records: their letters, their fields' number, their places.

use super::Hit;
use crate::rng::Rng;
use crate::sheet::reference::COLUMNS;
use crate::sheet::texts::{LETTERS, Lines, fields_of, record, somewhere};

pub fn field_too_few(rng: &mut Rng, lines: &mut Lines) -> Hit {
    let line = somewhere(rng, lines.len());
    let line = &mut lines[line];
    let fields = fields_of(line[0]).len();
    if fields == 0 {
        return Hit::Nowhere;
    }
    let start = 1 + COLUMNS * rng.below(fields as u32) as usize;
    line.drain(start..start + COLUMNS);
    Hit::Somewhere
}

pub fn field_too_many(rng: &mut Rng, lines: &mut Lines) -> Hit {
    let line = somewhere(rng, lines.len());
    let line = &mut lines[line];
    let fields = fields_of(line[0]).len();
    let start = 1 + COLUMNS * rng.below(fields as u32 + 1) as usize;
    let field = rng.pick(&[*b"       0", *b"     640", *b"        "]);
    line.splice(start..start, field);
    Hit::Somewhere
}

pub fn lower_case(rng: &mut Rng, lines: &mut Lines) -> Hit {
    let line = somewhere(rng, lines.len());
    lines[line][0].make_ascii_lowercase();
    Hit::Somewhere
}

/// A record's letter for another, or one that no record has.
pub fn other_letter(rng: &mut Rng, lines: &mut Lines) -> Hit {
    let line = somewhere(rng, lines.len());
    let letter = if rng.one_in(3) {
        b'A' + rng.below(26) as u8
    } else {
        rng.pick(&LETTERS).0
    };
    if letter == lines[line][0] {
        return Hit::Nowhere;
    }
    lines[line][0] = letter;
    Hit::Somewhere
}

/// Anywhere, also before the first record and after the last.
pub fn empty_line(rng: &mut Rng, lines: &mut Lines) -> Hit {
    let place = somewhere(rng, lines.len() + 1);
    let line = rng.pick::<&[u8]>(&[b"\n", b"\n", b"\r\n", b" \n", b"        \n"]);
    lines.insert(place, line.to_vec());
    Hit::Somewhere
}

pub fn no_heading(_: &mut Rng, lines: &mut Lines) -> Hit {
    lines.remove(0);
    Hit::Somewhere
}

pub fn before_heading(rng: &mut Rng, lines: &mut Lines) -> Hit {
    let letter = rng.pick(b"WSRLKNTE");
    lines.insert(0, record(rng, letter));
    Hit::Somewhere
}

pub fn heading_again(rng: &mut Rng, lines: &mut Lines) -> Hit {
    let place = 1 + somewhere(rng, lines.len());
    lines.insert(place, record(rng, b'H'));
    Hit::Somewhere
}

fn grid_at(rng: &mut Rng, lines: &mut Lines, place: usize) -> Hit {
    if lines.len() < place {
        lines.resize_with(place, || b"E\n".to_vec());
    }
    lines.insert(place, record(rng, b'G'));
    Hit::Somewhere
}

/// In H's place, or before it.
pub fn grid_first(rng: &mut Rng, lines: &mut Lines) -> Hit {
    if rng.one_in(2) {
        lines.remove(0);
    }
    grid_at(rng, lines, 0)
}

/// Where there is one already, or an M, that is misplaced then.
pub fn grid_second(rng: &mut Rng, lines: &mut Lines) -> Hit {
    grid_at(rng, lines, 1)
}

/// Its place after an M.
pub fn grid_third(rng: &mut Rng, lines: &mut Lines) -> Hit {
    grid_at(rng, lines, 2)
}

pub fn grid_later(rng: &mut Rng, lines: &mut Lines) -> Hit {
    let place = 3 + somewhere(rng, lines.len());
    grid_at(rng, lines, place)
}

pub fn removed(rng: &mut Rng, lines: &mut Lines) -> Hit {
    lines.remove(somewhere(rng, lines.len()));
    Hit::Somewhere
}

pub fn repeated(rng: &mut Rng, lines: &mut Lines) -> Hit {
    let line = somewhere(rng, lines.len());
    lines.insert(line, lines[line].clone());
    Hit::Somewhere
}

pub fn swapped(rng: &mut Rng, lines: &mut Lines) -> Hit {
    let (a, b) = (somewhere(rng, lines.len()), somewhere(rng, lines.len()));
    if lines[a] == lines[b] {
        return Hit::Nowhere;
    }
    lines.swap(a, b);
    Hit::Somewhere
}

/// The LF between them missing, or a space there.
pub fn joined(rng: &mut Rng, lines: &mut Lines) -> Hit {
    if lines.len() < 2 {
        return Hit::Nowhere;
    }
    let line = somewhere(rng, lines.len() - 1);
    lines[line].pop();
    if rng.one_in(2) {
        lines[line].push(b' ');
    }
    Hit::Somewhere
}
