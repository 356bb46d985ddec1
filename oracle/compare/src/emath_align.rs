//! Crate emath's alignment and rounding beside their stand-ins.

use emath::{Align, Align2, GuiRounding as _, Rangef, round_to_steps, vec2};

use crate::emath_ops::{edges, rect};
use crate::probe::{self, written};
use crate::tally::Tally;
use crate::values::{self, Edges, Values};

pub fn align(n: u8) -> Align {
    [Align::Min, Align::Center, Align::Max][usize::from(n)]
}

fn aligned(align: Align, &[low, high]: &[f32; 2], size: f32) -> [f32; 2] {
    let Rangef { min, max } = align.align_size_within_range(
        size,
        Rangef {
            min: low,
            max: high,
        },
    );
    [min, max]
}

/// A choice below n, a range, and a size for it.
fn range_to_align(v: &mut Values, n: u32) -> (u8, [f32; 2], f32) {
    let (low, high) = v.range();
    (v.byte(n), [low, high], v.size_for(low, high))
}

/// A rectangle, and a size for it.
fn rect_to_align(v: &mut Values) -> (Edges, [f32; 2]) {
    let r = v.rect();
    (r, [v.size_for(r[0], r[2]), v.size_for(r[1], r[3])])
}

/// Every two aligns, and one to put in.
fn aligns() -> impl Iterator<Item = (u8, u8, u8)> {
    (0..27).map(|n| (n / 9, n / 3 % 3, n % 3))
}

/// The entry points' code for two aligns: 3 times the one across, and the one down.
pub fn code(a: Align2) -> u8 {
    let mut codes = 0..9;
    let found = codes.find(|&n| Align2::new(align(n / 3), align(n % 3)) == a);
    found.unwrap_or(u8::MAX)
}

pub fn compare(t: &mut Tally) {
    alignment(t);
    parts(t);
    rounding(t);
}

fn alignment(t: &mut Tally) {
    t.drawn(
        "Align::align_size_within_range",
        300,
        |v| range_to_align(v, 3),
        |&(a, [low, high], size)| {
            written(|o| probe::emath_align_size_within_range(a, size, low, high, o))
        },
        |(a, range, size)| aligned(align(*a), range, *size),
    );
    // The sides in the entry point's order.
    let sides = [Align::LEFT, Align::TOP, Align::RIGHT, Align::BOTTOM];
    t.drawn(
        "Align::LEFT, TOP, RIGHT, BOTTOM",
        100,
        |v| range_to_align(v, 4),
        |&(side, [low, high], size)| {
            written(|o| probe::emath_side_size_within_range(side, size, low, high, o))
        },
        |(side, range, size)| aligned(sides[usize::from(*side)], range, *size),
    );
    t.drawn(
        "Align2::align_size_within_rect",
        300,
        |v| ((v.byte(3), v.byte(3)), rect_to_align(v)),
        |&((across, down), (ref r, [x, y]))| {
            written(|o| probe::emath_align2_size_within_rect(across, down, x, y, r, o))
        },
        |&((across, down), (ref r, [x, y]))| {
            edges(
                Align2::new(align(across), align(down)).align_size_within_rect(vec2(x, y), rect(r)),
            )
        },
    );
    t.drawn(
        "Align2::LEFT_CENTER",
        150,
        rect_to_align,
        |&(ref r, [x, y])| written(|o| probe::emath_left_center_size_within_rect(x, y, r, o)),
        |&(ref r, [x, y])| edges(Align2::LEFT_CENTER.align_size_within_rect(vec2(x, y), rect(r))),
    );
}

fn parts(t: &mut Tally) {
    t.each(
        "Align2::with_x",
        aligns(),
        |&(across, down, x)| probe::emath_align2_with_x(across, down, x),
        |&(across, down, x)| code(Align2::new(align(across), align(down)).with_x(align(x))),
    );
    t.each(
        "Align2::with_y",
        aligns(),
        |&(across, down, y)| probe::emath_align2_with_y(across, down, y),
        |&(across, down, y)| code(Align2::new(align(across), align(down)).with_y(align(y))),
    );
}

fn rounding(t: &mut Tally) {
    // With --times 32 every half tick of the domain.
    let most = (65_536 * t.times).min(2_097_152) as u32;
    t.drawn(
        "gui_rounding::round",
        200,
        |v| v.to_round(1.0),
        |&x| probe::emath_gui_round(x),
        |x| x.round(),
    );
    t.each(
        "gui_rounding::round, halves",
        values::ties(1.0, 65_536),
        |&x| probe::emath_gui_round(x),
        |x| x.round(),
    );
    for per in [32.0, 64.0] {
        let name = format!("gui_rounding::round_by {per}");
        t.drawn(
            &name,
            150,
            |v| v.to_round(per),
            |&x| probe::emath_gui_round_by(per, x),
            |&x| round_to_steps(x, per),
        );
    }
    t.drawn(
        "gui_rounding::round_ui",
        300,
        |v| v.to_round(32.0),
        |&x| probe::emath_gui_round_ui(x),
        |x| x.round_ui(),
    );
    t.each(
        "gui_rounding::round_ui, half ticks",
        values::ties(32.0, most),
        |&x| probe::emath_gui_round_ui(x),
        |x| x.round_ui(),
    );
    t.drawn(
        "Rect::round_ui",
        150,
        |v| {
            [
                v.to_round(32.0),
                v.to_round(32.0),
                v.to_round(32.0),
                v.to_round(32.0),
            ]
        },
        |r| written(|o| probe::emath_rect_round_ui(r, o)),
        |r| edges(rect(r).round_ui()),
    );
}
