//! Texts of more than 512 records, up to many more bytes than those can have.

use crate::rng::Rng;
use crate::sheet::drawn;
use crate::sheet::reference::{COLUMNS, MOST_RECORDS};
use crate::sheet::texts::{Lines, somewhere};

/// What 512 records have at most: none is longer than H.
pub const MOST_BYTES: usize = MOST_RECORDS * (1 + 12 * COLUMNS + 1);

const LONGEST: usize = 120_000;

/// About the most that 512 records can have, or far more.
fn length(rng: &mut Rng) -> usize {
    if rng.one_in(3) {
        MOST_BYTES - 8 + rng.below(20) as usize
    } else {
        MOST_BYTES + rng.below((LONGEST - MOST_BYTES) as u32) as usize
    }
}

/// 512 good records; what comes after H, M and G is repeated.
fn filled(rng: &mut Rng) -> Lines {
    let mut lines = drawn::sheet(rng);
    lines.truncate(MOST_RECORDS);
    let heading = |line: &&Vec<u8>| b"HMG".contains(&line[0]);
    let mut steps = Vec::from_iter(lines.iter().skip_while(heading).cloned());
    if steps.is_empty() {
        steps.push(b"E\n".to_vec());
    }
    let missing = MOST_RECORDS - lines.len();
    lines.extend(steps.into_iter().cycle().take(missing));
    lines
}

/// A fault in one of them.
fn spoil(rng: &mut Rng, lines: &mut Lines) {
    let at = somewhere(rng, lines.len());
    let more = length(rng);
    let line = &mut lines[at];
    match rng.below(5) {
        0 => line[0].make_ascii_lowercase(),
        1 => line[0] = 0xff,
        2 => line[0] = 0,
        3 => {
            line.pop();
        }
        // A line that goes on.
        _ => {
            let byte = rng.pick(b" 0E\0");
            line.splice(1..1, std::iter::repeat_n(byte, more));
        }
    }
}

/// Anything after the 512th record.
fn tail(rng: &mut Rng, lines: &Lines) -> Vec<u8> {
    let room = length(rng).saturating_sub(lines.concat().len());
    let steps = || lines[MOST_RECORDS / 2..].iter().flatten().copied().cycle();
    match rng.below(5) {
        0 => vec![rng.bits() as u8],
        1 => lines[MOST_RECORDS - 1].clone(),
        2 => steps().take(room).collect(),
        3 => vec![rng.pick(b"\n E\0"); room],
        _ => {
            let any = Vec::from_iter((0..1_000).map(|_| rng.bits() as u8));
            any.into_iter().cycle().take(room).collect()
        }
    }
}

pub fn text(rng: &mut Rng) -> Vec<u8> {
    let mut lines = filled(rng);
    let tail = tail(rng, &lines);
    if rng.one_in(2) {
        spoil(rng, &mut lines);
    }
    lines.push(tail);
    let mut text = lines.concat();
    text.truncate(LONGEST);
    text
}
