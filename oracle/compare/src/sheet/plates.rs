//! RULES 6.19: the plate, worked out from the Rust's frames; and the plates that tell it from other
//! rectangles.

use super::reference::PLACES;

/// The smallest rectangle around some, each with left, top, right, bottom; without one all zero.
pub fn around<T: Copy + Default + PartialOrd>(rects: impl IntoIterator<Item = [T; 4]>) -> [T; 4] {
    let lesser = |a, b| if b < a { b } else { a };
    let greater = |a, b| if a < b { b } else { a };
    let both = |a: [T; 4], b: [T; 4]| {
        [
            lesser(a[0], b[0]),
            lesser(a[1], b[1]),
            greater(a[2], b[2]),
            greater(a[3], b[3]),
        ]
    };
    rects.into_iter().reduce(both).unwrap_or_default()
}

pub const CORNERS: [&str; 9] = [
    "no W, and a plate of zeros",
    "no W, and a min_rect that is not of zeros",
    "a plate that is not min_rect, with a grid",
    "a plate that is not min_rect, without a grid",
    "a plate that does not touch 0, 0",
    "a plate that the first frame alone makes what it is",
    "a plate that the last frame alone makes what it is",
    "a plate that a frame of no width or height alone makes what it is",
    "a plate that the controls themselves do not fill",
];

fn four(places: &[i32]) -> [i32; 4] {
    [places[0], places[1], places[2], places[3]]
}

/// Which of these an accepted pass is, by its plate and min_rect in ticks, and the places of its W.
pub fn corners(plate: [i32; 4], min_rect: [i32; 4], places: &[i32], grid: bool) -> [bool; 9] {
    let frames: Vec<[i32; 4]> = places.chunks(PLACES).map(four).collect();
    let without = |part: &[[i32; 4]]| !part.is_empty() && around(part.iter().copied()) != plate;
    let extended = |&[left, top, right, bottom]: &[i32; 4]| left < right && top < bottom;
    let extended: Vec<[i32; 4]> = frames.iter().copied().filter(extended).collect();
    let controls = around(places.chunks(PLACES).map(|eight| four(&eight[4..])));
    let [left, top, right, bottom] = plate;
    let some = !frames.is_empty();
    [
        !some && plate == [0; 4],
        !some && min_rect != [0; 4],
        some && grid && plate != min_rect,
        some && !grid && plate != min_rect,
        some && (left > 0 || top > 0 || right < 0 || bottom < 0),
        some && without(&frames[1..]),
        some && without(&frames[..frames.len() - 1]),
        some && without(&extended),
        some && controls != plate,
    ]
}
