//! The entry points of crates probe_emath and probe_layout, by the names they have there.
//!
//! A bool comes back as a byte: whatever the other side puts there, reading it is sound.

use packing::{Counts, Lengths, Packed};

pub use packing::UNTOUCHED;

use crate::tally::Answer;
use crate::values::{Edges, State};

/// Entry points that are given a state and arguments, packed, and that answer with a number or a bool:
/// of each its name, and the types of what else it is lent. As below, the calls are safe.
macro_rules! entry_points {
    ($($name:ident($($lent:ty),*);)*) => {
        unsafe extern "C" {
            $(pub safe fn $name(
                lengths: &packing::Lengths,
                counts: &packing::Counts
                $(, _: $lent)*
            ) -> u8;)*
        }
    };
}
#[cfg(feature = "grid")]
pub(crate) use entry_points;

// Each takes numbers and whole arrays only, reads and writes no more than those, and ends:
// that is proved there, so the calls are safe.
unsafe extern "C" {
    pub safe fn emath_num_min(a: f32, b: f32) -> f32;
    pub safe fn emath_num_max(a: f32, b: f32) -> f32;
    pub safe fn emath_num_at_least(x: f32, lower: f32) -> f32;
    pub safe fn emath_num_at_most(x: f32, upper: f32) -> f32;
    pub safe fn emath_num_fast_midpoint(a: f32, b: f32) -> f32;
    pub safe fn emath_num_infinity() -> f32;
    pub safe fn emath_num_nan() -> f32;
    pub safe fn emath_num_is_infinite(x: f32) -> u8;

    pub safe fn emath_rect_width(r: &Edges) -> f32;
    pub safe fn emath_rect_height(r: &Edges) -> f32;
    pub safe fn emath_rect_size(r: &Edges, out: &mut [f32; 2]);
    pub safe fn emath_rect_center(r: &Edges, out: &mut [f32; 2]);
    pub safe fn emath_rect_from_min_size(px: f32, py: f32, sx: f32, sy: f32, out: &mut Edges);
    pub safe fn emath_rect_from_center_size(px: f32, py: f32, sx: f32, sy: f32, out: &mut Edges);
    pub safe fn emath_rect_translate(r: &Edges, x: f32, y: f32, out: &mut Edges);
    pub safe fn emath_rect_intersect(r: &Edges, other: &Edges, out: &mut Edges);
    pub safe fn emath_rect_union(r: &Edges, other: &Edges, out: &mut Edges);
    pub safe fn emath_rect_extend_with_x(r: &Edges, x: f32, out: &mut Edges);
    pub safe fn emath_rect_extend_with_y(r: &Edges, y: f32, out: &mut Edges);
    pub safe fn emath_rect_shrink(r: &Edges, amount: f32, out: &mut Edges);
    pub safe fn emath_rect_intersects(r: &Edges, other: &Edges) -> u8;
    pub safe fn emath_rect_round_ui(r: &Edges, out: &mut Edges);
    pub safe fn emath_rect_is_finite(r: &Edges) -> u8;
    pub safe fn emath_rect_is_within(r: &Edges) -> u8;
    pub safe fn emath_rect_is_inside_out(r: &Edges) -> u8;

    pub safe fn emath_align_size_within_range(
        align: u8,
        size: f32,
        min: f32,
        max: f32,
        out: &mut [f32; 2],
    );
    pub safe fn emath_side_size_within_range(
        side: u8,
        size: f32,
        min: f32,
        max: f32,
        out: &mut [f32; 2],
    );
    pub safe fn emath_align2_size_within_rect(
        across: u8,
        down: u8,
        x: f32,
        y: f32,
        frame: &Edges,
        out: &mut Edges,
    );
    pub safe fn emath_align2_with_x(across: u8, down: u8, x: u8) -> u8;
    pub safe fn emath_align2_with_y(across: u8, down: u8, y: u8) -> u8;
    pub safe fn emath_left_center_size_within_rect(x: f32, y: f32, frame: &Edges, out: &mut Edges);

    pub safe fn emath_gui_round(x: f32) -> f32;
    pub safe fn emath_gui_round_by(per: f32, x: f32) -> f32;
    pub safe fn emath_gui_round_ui(x: f32) -> f32;

    pub safe fn emath_domain_is_finite(x: f32) -> u8;
    pub safe fn emath_domain_is_within(x: f32) -> u8;
    pub safe fn emath_domain_both_finite(x: f32, y: f32) -> u8;
    pub safe fn emath_domain_both_within(x: f32, y: f32) -> u8;
    pub safe fn emath_vec2_is_negative(x: f32, y: f32) -> u8;

    pub safe fn emath_faults_number_when(b: bool, n: u8) -> u8;
    pub safe fn emath_faults_lesser_number(a: u8, b: u8) -> u8;
    pub safe fn emath_faults_or_else(n: u8, m: u8) -> u8;
    pub safe fn emath_faults_length_fault(x: f32) -> u8;
    pub safe fn emath_faults_extent_fault(x: f32) -> u8;
    pub safe fn emath_faults_pair_fault(x: f32, y: f32) -> u8;
    pub safe fn emath_faults_size_fault(x: f32, y: f32) -> u8;
    pub safe fn emath_faults_edges_fault(r: &Edges) -> u8;
    pub safe fn emath_faults_rect_fault(r: &Edges) -> u8;
    pub safe fn emath_faults_outside_domain(n: u8) -> u8;

    pub safe fn layout_default(out: &mut Counts);
    pub safe fn layout_left_to_right(valign: u8, out: &mut Counts);
    pub safe fn layout_right_to_left(valign: u8, out: &mut Counts);
    pub safe fn layout_top_down(halign: u8, out: &mut Counts);
    pub safe fn layout_top_down_justified(halign: u8, out: &mut Counts);
    pub safe fn layout_bottom_up(halign: u8, out: &mut Counts);
    pub safe fn layout_from_main_dir_and_cross_align(
        main_dir: u8,
        cross_align: u8,
        out: &mut Counts,
    );
    pub safe fn layout_centered_and_justified(main_dir: u8, out: &mut Counts);
    pub safe fn layout_with_main_wrap(counts: &Counts, main_wrap: u8, out: &mut Counts);
    pub safe fn layout_with_main_align(counts: &Counts, main_align: u8, out: &mut Counts);
    pub safe fn layout_with_cross_align(counts: &Counts, cross_align: u8, out: &mut Counts);
    pub safe fn layout_with_main_justify(counts: &Counts, main_justify: u8, out: &mut Counts);
    pub safe fn layout_with_cross_justify(counts: &Counts, cross_justify: u8, out: &mut Counts);
    pub safe fn layout_main_dir(counts: &Counts) -> u8;
    pub safe fn layout_main_wrap(counts: &Counts) -> u8;
    pub safe fn layout_cross_justify(counts: &Counts) -> u8;
    pub safe fn layout_is_horizontal(counts: &Counts) -> u8;
    pub safe fn layout_is_vertical(counts: &Counts) -> u8;
    pub safe fn layout_prefer_right_to_left(counts: &Counts) -> u8;
    pub safe fn layout_horizontal_justify(counts: &Counts) -> u8;
    pub safe fn layout_vertical_justify(counts: &Counts) -> u8;
    pub safe fn layout_cross_align(counts: &Counts) -> u8;
    pub safe fn layout_horizontal_placement(counts: &Counts) -> u8;
    pub safe fn layout_horizontal_align(counts: &Counts) -> u8;
    pub safe fn layout_vertical_align(counts: &Counts) -> u8;
    pub safe fn layout_align2(counts: &Counts) -> u8;
    pub safe fn layout_direction_is_horizontal(main_dir: u8) -> u8;
    pub safe fn layout_direction_is_vertical(main_dir: u8) -> u8;
}

entry_points! {
    layout_region_expand_to_include_rect(&mut Lengths);
    layout_region_expand_to_include_x(&mut Lengths);
    layout_region_expand_to_include_y(&mut Lengths);
    layout_align_size_within_rect(&mut Edges);
    layout_initial_cursor(&mut Edges);
    layout_region_from_max_rect(&mut Lengths);
    layout_available_rect_before_wrap(&mut Edges);
    layout_available_size(&mut [f32; 2]);
    layout_available_from_cursor_max_rect(&mut Edges);
    layout_next_frame(&mut Edges);
    layout_next_frame_ignore_wrap(&mut Edges);
    layout_justify_and_align(&mut Edges);
    layout_next_widget_space_ignore_wrap_justify(&mut Edges);
    layout_next_widget_position(&mut [f32; 2]);
    layout_advance_cursor(&mut Lengths);
    layout_advance_after_rects(&mut Edges);
    layout_end_row(&mut Lengths);
    layout_set_row_height(&mut Lengths);
}

/// What a call writes. A place that it leaves alone shows up as a number no case expects.
pub fn written<const N: usize>(call: impl FnOnce(&mut [f32; N])) -> [f32; N] {
    let mut out = [UNTOUCHED; N];
    call(&mut out);
    out
}

/// The number that an entry point gives, and what it writes.
pub fn asked<const N: usize>(
    given: &Packed,
    entry: extern "C" fn(&Lengths, &Counts, &mut [f32; N]) -> u8,
) -> Answer<[f32; N]> {
    let mut value = [UNTOUCHED; N];
    let number = entry(&given.lengths, &given.counts, &mut value);
    Answer { number, value }
}

/// The same of one that writes a region.
pub fn region_after(
    given: &Packed,
    entry: extern "C" fn(&Lengths, &Counts, &mut Lengths) -> u8,
) -> Answer<State> {
    let mut out = Packed::untouched();
    let number = entry(&given.lengths, &given.counts, &mut out.lengths);
    Answer {
        number,
        value: out.region(),
    }
}

/// The same of one that writes a state.
pub fn changed(
    given: &Packed,
    entry: extern "C" fn(&Lengths, &Counts, &mut Lengths, &mut Counts) -> u8,
) -> Answer<Packed> {
    let mut value = Packed::untouched();
    let number = entry(
        &given.lengths,
        &given.counts,
        &mut value.lengths,
        &mut value.counts,
    );
    Answer { number, value }
}
