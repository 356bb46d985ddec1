//! Damage to a sheet's bytes, wherever they stand.

use super::Hit;
use crate::rng::Rng;
use crate::sheet::reference::MOST_RECORDS;
use crate::sheet::texts::{Lines, record, somewhere};

/// What may take a byte's place: all that a sheet is made of, and what looks like it.
const BYTES: &[u8] = b"0123456789 \n\r\t-+.,_HMGWSRLKNTEhmgwsrlkntexX/:\x00\x7f\x80\xff";

/// Does something to the text, unless it is empty.
fn to_the_text(lines: &mut Lines, damage: impl FnOnce(&mut Vec<u8>)) -> Hit {
    let mut text = lines.concat();
    if text.is_empty() {
        return Hit::Nowhere;
    }
    damage(&mut text);
    *lines = vec![text];
    Hit::Somewhere
}

pub fn changed(rng: &mut Rng, lines: &mut Lines) -> Hit {
    to_the_text(lines, |text| {
        let place = somewhere(rng, text.len());
        let byte = text[place];
        text[place] = match rng.below(4) {
            0 => byte.wrapping_add(1),
            1 => byte.wrapping_sub(1),
            2 => rng.pick(BYTES),
            _ => rng.bits() as u8,
        };
        // No damage else.
        if text[place] == byte {
            text[place] = byte ^ 1;
        }
    })
}

pub fn dropped(rng: &mut Rng, lines: &mut Lines) -> Hit {
    to_the_text(lines, |text| {
        text.remove(somewhere(rng, text.len()));
    })
}

pub fn doubled(rng: &mut Rng, lines: &mut Lines) -> Hit {
    to_the_text(lines, |text| {
        let place = somewhere(rng, text.len());
        text.insert(place, text[place]);
    })
}

pub fn cut(rng: &mut Rng, lines: &mut Lines) -> Hit {
    to_the_text(lines, |text| text.truncate(somewhere(rng, text.len())))
}

/// In one line, or in all.
pub fn cr_lf(rng: &mut Rng, lines: &mut Lines) -> Hit {
    let one = somewhere(rng, lines.len());
    let all = rng.one_in(2);
    for (place, line) in lines.iter_mut().enumerate() {
        if all || place == one {
            line.insert(line.len() - 1, b'\r');
        }
    }
    Hit::Somewhere
}

pub fn last_lf_missing(_: &mut Rng, lines: &mut Lines) -> Hit {
    to_the_text(lines, |text| {
        text.pop();
    })
}

pub fn none(_: &mut Rng, lines: &mut Lines) -> Hit {
    lines.clear();
    Hit::Somewhere
}

/// Too few for an H.
pub fn any(rng: &mut Rng, lines: &mut Lines) -> Hit {
    let of_a_sheet = rng.one_in(2);
    let byte = |rng: &mut Rng| match of_a_sheet {
        true => rng.pick(BYTES),
        false => rng.bits() as u8,
    };
    let text = (0..1 + rng.below(60)).map(|_| byte(rng)).collect();
    *lines = vec![text];
    Hit::Somewhere
}

/// 512 records, then a byte, a few, or one more record.
pub fn after_the_most(rng: &mut Rng, lines: &mut Lines) -> Hit {
    lines.resize_with(MOST_RECORDS, || b"E\n".to_vec());
    let tail = match rng.below(6) {
        0 => vec![b'\n'],
        1 => vec![b'\0'],
        2 => record(rng, b'W'),
        3 => b"E\nE\n".to_vec(),
        4 => record(rng, b'H'),
        _ => (0..1 + rng.below(20)).map(|_| rng.pick(BYTES)).collect(),
    };
    lines.push(tail);
    Hit::Somewhere
}
