//! A sheet's W on a placer: the Rust's three calls with the numbers of RULES 8.3, in one order over
//! all of them; and the port's three public calls, whose numbers and states RULES 8.18 puts together.

use egui::placer::driver::Running;

use super::calls::{Call, run};
use super::{Outcome, Placer, made, port, states};
use crate::answers::{Expected, Operation};
use crate::faults::{COLUMNS, ROWS, least, of_frame};
use crate::grid::NO_GRID;
use crate::tally::{Answer, Tally};
use crate::values::Edges;

/// What is asked for: a size, and the spacing.
pub type Wanted = ([f32; 2], [f32; 2]);

/// What a W gives.
pub struct Laid {
    pub frame: Edges,
    pub widget: Edges,
    pub after: Placer,
}

/// The numbers of what the three calls are given.
pub fn given(p: &Placer, &(size, spacing): &Wanted) -> Vec<u8> {
    let space = Call::NextSpace(size, spacing);
    let anywhere = Call::AdvanceAfterRects([0.0; 4], [0.0; 4], spacing);
    [p.numbers(), space.numbers(p), anywhere.numbers(p)].concat()
}

/// What they give, by placer.rs, and the numbers of that.
pub fn laid(p: &Placer, rust: &mut Running, &(size, spacing): &Wanted) -> ([u8; 3], Laid) {
    let frame = edges(&run(rust, &Call::NextSpace(size, spacing), &NO_GRID));
    let widget = edges(&run(rust, &Call::JustifyAndAlign(frame, size), &NO_GRID));
    let advance = Call::AdvanceAfterRects(frame, widget, spacing);
    run(rust, &advance, &NO_GRID);
    let after = Placer::of(rust, &p.grid);
    let numbers = [
        of_frame(&size, &frame),
        of_frame(&size, &widget),
        after.number_as_new(),
    ];
    let laid = Laid {
        frame,
        widget,
        after,
    };
    (numbers, laid)
}

fn edges(outcome: &Outcome) -> Edges {
    match outcome {
        Outcome::Rect(r) => *r,
        _ => unreachable!("the call gives a rectangle"),
    }
}

/// RULES 8.18: each call is given what the one before answered, a refused one's zeros too. The number
/// is the lesser of the first's and of the 8 of a grid without room; then the second's; then the
/// third's, whose placer is the W's.
fn by_calls(p: &Placer, &(size, spacing): &Wanted) -> Answer<Outcome> {
    let space = port::answer(p, &Call::NextSpace(size, spacing));
    let frame = edges(&space.value);
    let justified = port::answer(p, &Call::JustifyAndAlign(frame, size));
    let widget = edges(&justified.value);
    let advanced = port::answer(p, &Call::AdvanceAfterRects(frame, widget, spacing));
    let full = p.has_grid && (p.grid.col >= COLUMNS || p.grid.row >= ROWS);
    let first = least(&[space.number, if full { 8 } else { 0 }]);
    let numbers = [first, justified.number, advanced.number];
    match numbers.into_iter().find(|&number| number != 0) {
        None => advanced,
        Some(number) => made(number, p.clone()),
    }
}

pub fn compare(t: &mut Tally) {
    t.answered(
        &Operation {
            name: "Placer, a W by its three calls",
            thousands: 420,
            numbers: &[4, 5, 6, 7, 8, 9],
        },
        states::widget,
        |(p, wanted)| by_calls(p, wanted),
        |(p, wanted)| {
            let unmoved = Outcome::Placer(Box::new(p.clone()));
            Expected::asked(&given(p, wanted), unmoved, || {
                let (numbers, laid) = laid(p, &mut p.running(), wanted);
                (least(&numbers), Outcome::Placer(Box::new(laid.after)))
            })
        },
    );
}
