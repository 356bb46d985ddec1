//! Sheets of about as many records as there may be, nearly all of them controls: the longest lists.

use super::drawn::{grid_from, numbers};
use super::texts::Lines;
use crate::rng::Rng;

fn control(rng: &mut Rng) -> Vec<u8> {
    numbers(b'W', &[rng.below(900) as i32, rng.below(600) as i32])
}

fn heading(rng: &mut Rng, direction: i32) -> Vec<u8> {
    let [left, top] = [(); 2].map(|()| rng.about_zero(3_000));
    let aligns = [rng.below(3) as i32, rng.below(3) as i32];
    let layout = [direction, 0, aligns[0], 0, aligns[1], 0];
    let rect = [left, top, left + 6_400, top + 3_200];
    numbers(b'H', &[&layout[..], &rect, &[256, 128]].concat())
}

/// Controls only.
pub fn strip(rng: &mut Rng, records: usize) -> Lines {
    let direction = rng.below(4) as i32;
    let mut lines = vec![heading(rng, direction)];
    lines.resize_with(records, || control(rng));
    lines
}

/// Rows of 32 cells from `start_row` on; one row in `one_more_in` has a cell more.
pub fn grid(rng: &mut Rng, records: usize, start_row: i32, one_more_in: u32) -> Lines {
    let direction = rng.pick(&[0, 2]);
    let mut lines = vec![heading(rng, direction), grid_from(start_row)];
    while lines.len() < records {
        let cells = 32 + usize::from(rng.one_in(one_more_in));
        lines.extend((0..cells).map(|_| control(rng)));
        lines.push(numbers(b'E', &[]));
    }
    lines.truncate(records);
    lines
}

/// The same with M, and as many records: the last one is left out.
pub fn in_hundredths(mut lines: Lines) -> Lines {
    lines.insert(1, numbers(b'M', &[]));
    lines.pop();
    lines
}
