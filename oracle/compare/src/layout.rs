//! Crate layout beside egui's layout.rs and the numbers of RULES 8.15.

mod corners;
mod faulty;
pub mod fields;
mod frames;
mod lent;
mod regions;
pub mod states;

use egui::layout::Layout;
use egui::{Align, Direction};
use emath::{Vec2, vec2};
use packing::Packed;

use crate::emath_align::align;
use crate::tally::Tally;
use crate::values::{Fields, State};
use corners::Corners;

pub fn compare(t: &mut Tally) {
    let corners = Corners::default();
    fields::compare(t);
    regions::compare(t, &corners);
    frames::compare(t, &corners);
    lent::compare(t);
    corners.show(t);
}

fn direction(n: u8) -> Direction {
    [
        Direction::LeftToRight,
        Direction::RightToLeft,
        Direction::TopDown,
        Direction::BottomUp,
    ][usize::from(n)]
}

pub fn layout(&[dir, wrap, main, main_justify, cross, cross_justify]: &Fields) -> Layout {
    Layout {
        main_dir: direction(dir),
        main_wrap: wrap != 0,
        main_align: align(main),
        main_justify: main_justify != 0,
        cross_align: align(cross),
        cross_justify: cross_justify != 0,
    }
}

/// A layout to be given.
fn of_layout(l: &Fields) -> Packed {
    let mut given = Packed::unfilled();
    given.put_layout(l);
    given
}

/// A layout and a region to be given.
fn of_state(l: &Fields, region: &State) -> Packed {
    let mut given = of_layout(l);
    given.put_region(region);
    given
}

fn align_number(a: Align) -> u8 {
    match a {
        Align::Min => 0,
        Align::Center => 1,
        Align::Max => 2,
    }
}

/// All 288 layouts.
fn layouts() -> impl Iterator<Item = Fields> {
    (0..288).map(numbered)
}

fn numbered(n: u32) -> Fields {
    [n % 4, n / 4 % 2, n / 8 % 3, n / 24 % 2, n / 48 % 3, n / 144].map(|field| field as u8)
}

pub fn pair(&[x, y]: &[f32; 2]) -> Vec2 {
    vec2(x, y)
}
