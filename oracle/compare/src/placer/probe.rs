//! The entry points of crate probe_placer, by the names they have there.

use packing::{Counts, Lengths};

use crate::probe::entry_points;
use crate::values::Edges;

entry_points! {
    placer_new(&mut Lengths, &mut Counts);
    placer_set_grid(&Lengths, &Counts, &mut Lengths, &mut Counts);
    placer_change_by_rect(&mut Lengths, &mut Counts);
    placer_change_by_length(&mut Lengths, &mut Counts);
    placer_advance_after_rects(&mut Lengths, &mut Counts);
    placer_end_row(&mut Lengths, &mut Counts);
    placer_inspect();
    placer_inspect_rect(&mut Edges);
    placer_place_rect(&mut Edges);
    placer_available_size(&mut [f32; 2]);
    placer_next_widget_position(&mut [f32; 2]);
    placer_save_grid(&mut Lengths, &mut Counts);
}
