//! RULES 5, and the numbers of RULES 8, worked out here a second time.

use std::sync::atomic::{AtomicU64, Ordering};

use crate::values::Edges;

/// RULES 5.2, in points.
const LIMIT: f32 = 65_536.0;

/// RULES 5.1.
pub fn is_finite(lengths: &[f32]) -> bool {
    !lengths.iter().any(|x| x.is_nan() || x.is_infinite())
}

/// RULES 5.2.
pub fn is_within(lengths: &[f32]) -> bool {
    lengths.iter().all(|x| x.abs() <= LIMIT)
}

/// RULES 5.4, of a size.
pub fn is_negative(sizes: &[f32]) -> bool {
    sizes.iter().any(|&size| size < 0.0)
}

/// RULES 5.4, of a rectangle.
pub fn is_inside_out(&[left, top, right, bottom]: &Edges) -> bool {
    left > right || top > bottom
}

/// RULES 8.2: the least number of those that apply, and 0 if none does.
pub fn least(numbers: &[u8]) -> u8 {
    let applying = numbers.iter().filter(|&&number| number != 0);
    applying.min().copied().unwrap_or(0)
}

/// Of conditions with their numbers, the least number whose condition holds; 0 if none does.
fn turned_back(conditions: &[(u8, bool)]) -> u8 {
    let applying = conditions.iter().filter(|(_, applies)| *applies);
    applying.map(|&(number, _)| number).min().unwrap_or(0)
}

/// RULES 8.9: 4 where one of them is not finite.
fn four(lengths: &[f32]) -> (u8, bool) {
    (4, lengths.iter().any(|x| x.is_nan() || x.is_infinite()))
}

/// RULES 8.9: 5 where one of them is beyond the limit.
fn five(lengths: &[f32]) -> (u8, bool) {
    (5, lengths.iter().any(|x| x.abs() > LIMIT))
}

/// Of a length, a pair or four edges.
pub fn of_lengths(lengths: &[f32]) -> u8 {
    turned_back(&[four(lengths), five(lengths)])
}

/// RULES 8.10: 6 too, of what may not be negative.
pub fn of_sizes(sizes: &[f32]) -> u8 {
    turned_back(&[four(sizes), five(sizes), (6, is_negative(sizes))])
}

/// RULES 8.10: 6 too, of a rectangle that may not be inside out.
pub fn of_rect(rect: &Edges) -> u8 {
    turned_back(&[four(rect), five(rect), (6, is_inside_out(rect))])
}

/// RULES 2.1: each direction's open edge, by its place among the four, and the outward infinity.
pub const OPEN: [(usize, f32); 4] = [
    (2, f32::INFINITY),
    (0, f32::NEG_INFINITY),
    (3, f32::INFINITY),
    (1, f32::NEG_INFINITY),
];

/// Of a cursor, which may be inside out.
pub fn of_cursor(direction: u8, cursor: &Edges) -> u8 {
    let (open, outward) = OPEN[usize::from(direction)];
    let mut asked = *cursor;
    if asked[open] == outward {
        asked[open] = 0.0;
    }
    of_lengths(&asked)
}

/// min_rect, max_rect or the cursor of a region's twelve edges.
pub fn rect_of(state: &[f32; 12], n: usize) -> Edges {
    [0, 1, 2, 3].map(|edge| state[4 * n + edge])
}

/// RULES 8.5: of a region's three rectangles.
pub fn of_region(direction: u8, state: &[f32; 12]) -> [u8; 3] {
    [
        of_rect(&rect_of(state, 0)),
        of_rect(&rect_of(state, 1)),
        of_cursor(direction, &rect_of(state, 2)),
    ]
}

pub fn is_state(direction: u8, state: &[f32; 12]) -> bool {
    of_region(direction, state) == [0; 3]
}

/// RULES 8.13: 9 for any number of the answer's own.
pub fn of_answer(number: u8) -> u8 {
    turned_back(&[(9, number != 0)])
}

/// The frames and widgets that RULES 8.14 speaks of and that were looked at.
pub static UPRIGHT: AtomicU64 = AtomicU64::new(0);

/// RULES 8.13, of a frame or of a widget in any rectangle. By RULES 8.14 it is not inside out if the
/// size is not negative, wherever its edges lie. Should the Rust ever give another there is no
/// number for it, and the run stops.
pub fn of_frame(size: &[f32; 2], rect: &Edges) -> u8 {
    if size.iter().all(|&length| length >= 0.0) {
        let sound = !is_inside_out(rect);
        assert!(sound, "for {size:?} the Rust gave {rect:?}, inside out");
        UPRIGHT.fetch_add(1, Ordering::Relaxed);
    }
    of_answer(of_lengths(rect))
}

/// RULES 3.1: the room of a memory.
pub const COLUMNS: usize = 32;
pub const ROWS: usize = 128;

/// RULES 8.12: 8 where a state is past the last place.
pub fn of_places(column: usize, row: usize) -> u8 {
    turned_back(&[(8, column > COLUMNS || row > ROWS)])
}

/// RULES 8.12: 8 where there is no place for one cell more.
pub fn of_room(column: usize, row: usize) -> u8 {
    turned_back(&[(8, column == COLUMNS || row == ROWS)])
}

/// Of a memory: its entries are remembered widths and heights, those beyond a count are not read.
pub fn of_memory(widths: &[f32; 32], heights: &[f32; 128], &[columns, rows]: &[usize; 2]) -> u8 {
    least(&[
        of_sizes(&widths[..columns.min(COLUMNS)]),
        of_sizes(&heights[..rows.min(ROWS)]),
        of_places(columns, rows),
    ])
}

/// RULES 5.3: +infinity where there is no bound; else a cell size like the minimum.
pub fn of_max_cell(size: &[f32]) -> u8 {
    let excused = |x: f32| if x == f32::INFINITY { 0.0 } else { x };
    of_sizes(&[excused(size[0]), excused(size[1])])
}

/// RULES 8.11: 7 for a direction that no grid has.
pub fn of_direction(direction: u8) -> u8 {
    turned_back(&[(7, direction == 1 || direction == 3)])
}
