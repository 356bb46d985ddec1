//! Crate emath's numbers and rectangles beside their stand-ins.

use emath::{NumExt as _, Rect, fast_midpoint, pos2, vec2};

use crate::probe::{self, written};
use crate::tally::Tally;
use crate::values::{Edges, Values};

pub fn rect(&[left, top, right, bottom]: &Edges) -> Rect {
    Rect::from_min_max(pos2(left, top), pos2(right, bottom))
}

pub fn edges(r: Rect) -> Edges {
    [r.left(), r.top(), r.right(), r.bottom()]
}

fn rect_and_number(v: &mut Values) -> (Edges, f32) {
    let r = v.rect();
    let x = match v.byte(4) {
        0 => r[usize::from(v.byte(4))],
        1 => 1.0,
        _ => v.number(),
    };
    (r, x)
}

fn rect_and_pair(v: &mut Values) -> (Edges, [f32; 2]) {
    (v.rect(), v.pair().into())
}

fn two_pairs(v: &mut Values) -> ([f32; 2], [f32; 2]) {
    (v.pair().into(), v.pair().into())
}

pub fn compare(t: &mut Tally) {
    numbers(t);
    rects(t);
    made_rects(t);
}

fn numbers(t: &mut Tally) {
    let pair = Values::pair;
    t.drawn(
        "num::min",
        200,
        pair,
        |&(a, b)| probe::emath_num_min(a, b),
        |&(a, b)| a.min(b),
    );
    t.drawn(
        "num::max",
        200,
        pair,
        |&(a, b)| probe::emath_num_max(a, b),
        |&(a, b)| a.max(b),
    );
    t.drawn(
        "num::at_least",
        100,
        pair,
        |&(x, y)| probe::emath_num_at_least(x, y),
        |&(x, y)| x.at_least(y),
    );
    t.drawn(
        "num::at_most",
        100,
        pair,
        |&(x, y)| probe::emath_num_at_most(x, y),
        |&(x, y)| x.at_most(y),
    );
    t.drawn(
        "num::fast_midpoint",
        200,
        pair,
        |&(a, b)| probe::emath_num_fast_midpoint(a, b),
        |&(a, b)| fast_midpoint(a, b),
    );
    // It takes no argument: one case is all there is.
    t.each(
        "num::infinity",
        std::iter::once(()),
        |()| probe::emath_num_infinity(),
        |()| f32::INFINITY,
    );
    t.each(
        "num::nan",
        std::iter::once(()),
        |()| probe::emath_num_nan(),
        |()| f32::NAN,
    );
    t.drawn(
        "num::is_infinite",
        100,
        Values::number,
        |&x| probe::emath_num_is_infinite(x),
        |&x| u8::from(x == f32::INFINITY),
    );
}

fn rects(t: &mut Tally) {
    let one = Values::rect;
    let two = Values::rects;
    t.drawn(
        "Rect::width",
        100,
        one,
        |r| probe::emath_rect_width(r),
        |r| rect(r).width(),
    );
    t.drawn(
        "Rect::height",
        100,
        one,
        |r| probe::emath_rect_height(r),
        |r| rect(r).height(),
    );
    t.drawn(
        "Rect::size",
        100,
        one,
        |r| written(|o| probe::emath_rect_size(r, o)),
        |r| {
            let s = rect(r).size();
            [s.x, s.y]
        },
    );
    t.drawn(
        "Rect::center",
        150,
        one,
        |r| written(|o| probe::emath_rect_center(r, o)),
        |r| {
            let c = rect(r).center();
            [c.x, c.y]
        },
    );
    t.drawn(
        "Rect::intersect",
        150,
        two,
        |(a, b)| written(|o| probe::emath_rect_intersect(a, b, o)),
        |(a, b)| edges(rect(a).intersect(rect(b))),
    );
    t.drawn(
        "Rect::union",
        150,
        two,
        |(a, b)| written(|o| probe::emath_rect_union(a, b, o)),
        |(a, b)| {
            let mut r = rect(a);
            r |= rect(b);
            edges(r)
        },
    );
    t.drawn(
        "Rect::intersects",
        200,
        two,
        |(a, b)| probe::emath_rect_intersects(a, b),
        |(a, b)| u8::from(rect(a).intersects(rect(b))),
    );
}

fn made_rects(t: &mut Tally) {
    t.drawn(
        "Rect::from_min_size",
        100,
        two_pairs,
        |&([x, y], [w, h])| written(|o| probe::emath_rect_from_min_size(x, y, w, h, o)),
        |&([x, y], [w, h])| edges(Rect::from_min_size(pos2(x, y), vec2(w, h))),
    );
    t.drawn(
        "Rect::from_center_size",
        150,
        two_pairs,
        |&([x, y], [w, h])| written(|o| probe::emath_rect_from_center_size(x, y, w, h, o)),
        |&([x, y], [w, h])| edges(Rect::from_center_size(pos2(x, y), vec2(w, h))),
    );
    t.drawn(
        "Rect::translate",
        150,
        rect_and_pair,
        |&(ref r, [x, y])| written(|o| probe::emath_rect_translate(r, x, y, o)),
        |&(ref r, [x, y])| edges(rect(r).translate(vec2(x, y))),
    );
    t.drawn(
        "Rect::extend_with_x",
        100,
        rect_and_number,
        |(r, x)| written(|o| probe::emath_rect_extend_with_x(r, *x, o)),
        |(r, x)| {
            let mut r = rect(r);
            r.extend_with_x(*x);
            edges(r)
        },
    );
    t.drawn(
        "Rect::extend_with_y",
        100,
        rect_and_number,
        |(r, y)| written(|o| probe::emath_rect_extend_with_y(r, *y, o)),
        |(r, y)| {
            let mut r = rect(r);
            r.extend_with_y(*y);
            edges(r)
        },
    );
    t.drawn(
        "Rect::shrink",
        100,
        rect_and_number,
        |(r, x)| written(|o| probe::emath_rect_shrink(r, *x, o)),
        |(r, x)| edges(rect(r).shrink(*x)),
    );
}
