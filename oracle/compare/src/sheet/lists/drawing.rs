//! The texts whose lists are compared.

use super::long;
use crate::rng::Rng;
use crate::sheet::damage::damage;
use crate::sheet::reference::MOST_RECORDS;
use crate::sheet::texts::{self, Lines};
use crate::sheet::{drawn, full};

/// Most can be laid out; the others have lengths over the whole range, are damaged, full or too long.
pub fn text(rng: &mut Rng) -> Vec<u8> {
    match rng.below(300) {
        0 => long::text(rng),
        1 => filled_up(rng).concat(),
        2..=19 => texts::sheet(rng).concat(),
        20..=59 => damaged(rng),
        _ => drawn::sheet(rng).concat(),
    }
}

fn damaged(rng: &mut Rng) -> Vec<u8> {
    let mut lines = drawn::sheet(rng);
    damage(rng, &mut lines);
    lines.concat()
}

/// A grid's last rows reach row 127, now and then 128.
fn filled_up(rng: &mut Rng) -> Lines {
    let records = MOST_RECORDS - rng.below(4) as usize;
    let lines = if rng.one_in(2) {
        full::strip(rng, records)
    } else {
        let start_row = rng.pick(&[111, 112, 112, 112, 112, 113]);
        full::grid(rng, records, start_row, 100)
    };
    if rng.one_in(3) {
        full::in_hundredths(lines)
    } else {
        lines
    }
}
