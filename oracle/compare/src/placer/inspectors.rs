//! What a placer says of itself, faulty ones included.

use egui::placer::driver::Running;
use emath::Rect;

use super::{port, states};
use crate::emath_ops::edges;
use crate::tally::Tally;

const THOUSANDS: u64 = 420;

pub fn compare(t: &mut Tally) {
    let flags: [(&str, fn(&Running) -> bool); 2] = [
        ("Placer::is_grid", Running::is_grid),
        (
            "Placer::prefer_right_to_left",
            Running::prefer_right_to_left,
        ),
    ];
    for (number, (name, rust)) in (0..).zip(flags) {
        t.drawn(
            name,
            THOUSANDS,
            states::placer,
            |p| port::inspect(p, number),
            |p| u8::from(rust(&p.running())),
        );
    }
    let rects: [(&str, fn(&Running) -> Rect); 3] = [
        ("Placer::min_rect", Running::min_rect),
        ("Placer::max_rect", Running::max_rect),
        ("Placer::cursor", Running::cursor),
    ];
    for (number, (name, rust)) in (0..).zip(rects) {
        t.drawn(
            name,
            THOUSANDS,
            states::placer,
            |p| port::inspect_rect(p, number),
            |p| edges(rust(&p.running())),
        );
    }
}
