//! Layout's constructors, builders and inspectors, on every argument there is.

use egui::layout::Layout;
use egui::{Align, Direction};
use packing::{Counts, Packed};

use super::{align_number, direction, layout, layouts, of_layout};
use crate::emath_align::{align, code};
use crate::probe;
use crate::tally::Tally;
use crate::values::Fields;

pub fn fields(l: Layout) -> Fields {
    [
        direction_number(l.main_dir),
        u8::from(l.main_wrap),
        align_number(l.main_align),
        u8::from(l.main_justify),
        align_number(l.cross_align),
        u8::from(l.cross_justify),
    ]
}

fn direction_number(d: Direction) -> u8 {
    match d {
        Direction::LeftToRight => 0,
        Direction::RightToLeft => 1,
        Direction::TopDown => 2,
        Direction::BottomUp => 3,
    }
}

/// The layout that a call writes.
fn made(call: impl FnOnce(&mut Counts)) -> Fields {
    let mut out = Packed::untouched();
    call(&mut out.counts);
    out.layout()
}

pub fn compare(t: &mut Tally) {
    constructors(t);
    builders(t);
    flags(t);
    numbers(t);
}

fn constructors(t: &mut Tally) {
    type Rattle = extern "C" fn(u8, &mut Counts);
    type Rust = fn(Align) -> Layout;
    let aligned: [(&str, Rattle, Rust); 5] = [
        (
            "Layout::left_to_right",
            probe::layout_left_to_right,
            Layout::left_to_right,
        ),
        (
            "Layout::right_to_left",
            probe::layout_right_to_left,
            Layout::right_to_left,
        ),
        ("Layout::top_down", probe::layout_top_down, Layout::top_down),
        (
            "Layout::top_down_justified",
            probe::layout_top_down_justified,
            Layout::top_down_justified,
        ),
        (
            "Layout::bottom_up",
            probe::layout_bottom_up,
            Layout::bottom_up,
        ),
    ];
    t.each(
        "Layout::default",
        std::iter::once(()),
        |()| made(|o| probe::layout_default(o)),
        |()| fields(Layout::default()),
    );
    for (name, rattle, rust) in aligned {
        t.each(
            name,
            0..3,
            |&a| made(|o| rattle(a, o)),
            |&a| fields(rust(align(a))),
        );
    }
    t.each(
        "Layout::from_main_dir_and_cross_align",
        (0..12).map(|n| (n / 3, n % 3)),
        |&(d, a)| made(|o| probe::layout_from_main_dir_and_cross_align(d, a, o)),
        |&(d, a)| {
            fields(Layout::from_main_dir_and_cross_align(
                direction(d),
                align(a),
            ))
        },
    );
    t.each(
        "Layout::centered_and_justified",
        0..4,
        |&d| made(|o| probe::layout_centered_and_justified(d, o)),
        |&d| fields(Layout::centered_and_justified(direction(d))),
    );
}

fn builders(t: &mut Tally) {
    type Rattle = extern "C" fn(&Counts, u8, &mut Counts);
    type Rust = fn(Layout, u8) -> Layout;
    let all: [(&str, u8, Rattle, Rust); 5] = [
        (
            "Layout::with_main_wrap",
            2,
            probe::layout_with_main_wrap,
            |l, n| l.with_main_wrap(n != 0),
        ),
        (
            "Layout::with_main_align",
            3,
            probe::layout_with_main_align,
            |l, n| l.with_main_align(align(n)),
        ),
        (
            "Layout::with_cross_align",
            3,
            probe::layout_with_cross_align,
            |l, n| l.with_cross_align(align(n)),
        ),
        (
            "Layout::with_main_justify",
            2,
            probe::layout_with_main_justify,
            |l, n| l.with_main_justify(n != 0),
        ),
        (
            "Layout::with_cross_justify",
            2,
            probe::layout_with_cross_justify,
            |l, n| l.with_cross_justify(n != 0),
        ),
    ];
    for (name, below, rattle, rust) in all {
        t.each(
            name,
            layouts().flat_map(|l| (0..below).map(move |n| (l, n))),
            |(l, n)| made(|o| rattle(&of_layout(l).counts, *n, o)),
            |(l, n)| fields(rust(layout(l), *n)),
        );
    }
}

fn flags(t: &mut Tally) {
    type Rattle = extern "C" fn(&Counts) -> u8;
    type Rust = fn(&Layout) -> bool;
    let all: [(&str, Rattle, Rust); 7] = [
        (
            "Layout::main_wrap",
            probe::layout_main_wrap,
            Layout::main_wrap,
        ),
        (
            "Layout::cross_justify",
            probe::layout_cross_justify,
            Layout::cross_justify,
        ),
        (
            "Layout::is_horizontal",
            probe::layout_is_horizontal,
            Layout::is_horizontal,
        ),
        (
            "Layout::is_vertical",
            probe::layout_is_vertical,
            Layout::is_vertical,
        ),
        (
            "Layout::prefer_right_to_left",
            probe::layout_prefer_right_to_left,
            Layout::prefer_right_to_left,
        ),
        (
            "Layout::horizontal_justify",
            probe::layout_horizontal_justify,
            Layout::horizontal_justify,
        ),
        (
            "Layout::vertical_justify",
            probe::layout_vertical_justify,
            Layout::vertical_justify,
        ),
    ];
    for (name, rattle, rust) in all {
        t.each(
            name,
            layouts(),
            |l| rattle(&of_layout(l).counts),
            |l| u8::from(rust(&layout(l))),
        );
    }
    t.each(
        "Direction::is_horizontal",
        0..4,
        |&d| probe::layout_direction_is_horizontal(d),
        |&d| u8::from(direction(d).is_horizontal()),
    );
    t.each(
        "Direction::is_vertical",
        0..4,
        |&d| probe::layout_direction_is_vertical(d),
        |&d| u8::from(direction(d).is_vertical()),
    );
}

fn numbers(t: &mut Tally) {
    type Rattle = extern "C" fn(&Counts) -> u8;
    type Rust = fn(&Layout) -> u8;
    let all: [(&str, Rattle, Rust); 6] = [
        ("Layout::main_dir", probe::layout_main_dir, |l| {
            direction_number(l.main_dir())
        }),
        ("Layout::cross_align", probe::layout_cross_align, |l| {
            align_number(l.cross_align())
        }),
        (
            "Layout::horizontal_placement",
            probe::layout_horizontal_placement,
            |l| align_number(l.horizontal_placement()),
        ),
        (
            "Layout::horizontal_align",
            probe::layout_horizontal_align,
            |l| align_number(l.horizontal_align()),
        ),
        (
            "Layout::vertical_align",
            probe::layout_vertical_align,
            |l| align_number(l.vertical_align()),
        ),
        ("Layout::align2", probe::layout_align2, |l| code(l.align2())),
    ];
    for (name, rattle, rust) in all {
        t.each(
            name,
            layouts(),
            |l| rattle(&of_layout(l).counts),
            |l| rust(&layout(l)),
        );
    }
}
