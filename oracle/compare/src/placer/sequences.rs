//! Sequences: a `new`, in half of them a `set_grid`, then up to 60 calls. One `Placer` of placer.rs
//! goes through all of a sequence; after every call the answer and the whole state are compared. The
//! first refusal ends it.

use egui::placer::driver::Running;

use super::calls::{self, Call, KINDS, expected};
use super::{Outcome, Placer, new, port};
use crate::answers::Expected;
use crate::emath_ops::rect;
use crate::grid::states::begin;
use crate::layout::layout;
use crate::layout::states::Draw;
use crate::rng::Rng;
use crate::tally::{Answer, Shown, Tally, say};
use crate::values::Values;

const NAME: &str = "Placer, sequences";
const SEQUENCES: u64 = 200_000;
const CALLS: u32 = 60;

/// The kinds of call that change a placer, and how they are weighed.
const CHANGES: [usize; 20] = [
    2, 3, 4, 12, 12, 13, 13, 13, 13, 14, 14, 15, 15, 16, 17, 18, 19, 20, 20, 21,
];

/// A call in its state, to be shown.
struct Asked<'a>(&'a Call, &'a Placer);

impl Shown for Asked<'_> {
    fn show(&self) -> String {
        format!("{} in {}", self.0.show(), self.1.show())
    }
}

/// The two sides, in the midst of a sequence.
struct Sequence<'a> {
    t: &'a mut Tally,
    /// The state of both, as they agree on it, with the bits of the port.
    state: Placer,
    rust: Running,
    accepted: u64,
    /// Whether it ended with a refusal.
    refused: bool,
}

impl Sequence<'_> {
    /// What both give, if they agree and don't refuse; a refused call leaves the state as it was.
    fn ask(&mut self, call: &Call) -> Option<Outcome> {
        let (state, rust) = (&self.state, &mut self.rust);
        let ours = port::answer(state, call);
        let theirs = expected(state, call, || calls::run(rust, call, &state.grid));
        let case = Asked(call, state);
        if !self.t.agree(NAME, &case, &ours, &theirs.answer()) {
            return None;
        }
        if ours.number != 0 {
            self.refused = true;
            return None;
        }
        self.accepted += 1;
        if let Outcome::Placer(new) = &ours.value {
            self.state = (**new).clone();
        } else {
            self.unmoved(call)?;
        }
        Some(ours.value)
    }

    /// The Rust's placer is as it was after a call that only reads.
    fn unmoved(&mut self, call: &Call) -> Option<()> {
        let theirs = Placer::of(&self.rust, &self.state.grid);
        let same = super::made(0, self.state.clone());
        let theirs = super::made(0, theirs);
        let case = Asked(call, &self.state);
        self.t.agree(NAME, &case, &same, &theirs).then_some(())
    }

    /// A widget as a sheet's W places it.
    fn widget(&mut self, size: [f32; 2], spacing: [f32; 2]) -> Option<()> {
        let Outcome::Rect(frame) = self.ask(&Call::NextSpace(size, spacing))? else {
            return None;
        };
        let Outcome::Rect(widget) = self.ask(&Call::JustifyAndAlign(frame, size))? else {
            return None;
        };
        self.ask(&Call::AdvanceAfterRects(frame, widget, spacing))?;
        Some(())
    }

    fn step(&mut self, d: &mut Draw<'_>, left: u32) -> Option<u32> {
        if left >= 3 && d.v.rng.one_in(2) {
            let size = if d.v.rng.one_in(2) {
                d.size(&self.state.region)
            } else {
                [(); 2].map(|()| d.v.ticks(256).abs())
            };
            let spacing = d.spacing();
            self.widget(size, spacing)?;
            return Some(3);
        }
        let mut kind = if d.v.rng.one_in(3) {
            1 + d.v.rng.below(KINDS.len() as u32 - 1) as usize
        } else {
            d.v.rng.pick(&CHANGES)
        };
        // A space ends a sequence in a grid.
        if self.state.has_grid && kind == calls::BY_LENGTH && !d.v.rng.one_in(16) {
            kind = 13;
        }
        let mut call = d.call(kind, &self.state);
        let mut lengths = call.lengths();
        if !lengths.is_empty() && d.v.rng.one_in(30) {
            d.spoil(&mut lengths);
        }
        self.ask(&call)?;
        Some(1)
    }
}

pub fn compare(t: &mut Tally) {
    let (cases, differences) = (t.cases, t.differences);
    let (mut accepted, mut refused, mut whole) = (0, 0_u64, 0_u64);
    let mut values = Values::new(Rng::new(t.seed, NAME));
    for _ in 0..SEQUENCES * t.times {
        let in_grid = values.rng.one_in(2);
        let mut d = if in_grid {
            begin(&mut values)
        } else {
            Draw::new(&mut values)
        };
        let max_rect = d.rect();
        let rust = Running::new(rect(&max_rect), layout(&d.l));
        let ours = port::new(&d.l, &max_rect);
        let theirs: Expected<_> = new(&d.l, &max_rect, || {
            Running::new(rect(&max_rect), layout(&d.l))
        });
        let agree = t.agree(NAME, &(d.l, max_rect), &ours, &theirs.answer());
        let Answer {
            number: 0,
            value: Outcome::Placer(state),
        } = ours
        else {
            refused += 1;
            continue;
        };
        if !agree {
            continue;
        }
        let mut sequence = Sequence {
            t,
            state: *state,
            rust,
            accepted: 1,
            refused: false,
        };
        let mut left = 1 + d.v.rng.below(CALLS);
        let mut going = true;
        if in_grid {
            let call = d.call(0, &sequence.state);
            going = sequence.ask(&call).is_some();
        }
        while going && left > 0 {
            match sequence.step(&mut d, left) {
                Some(calls) => left -= calls,
                None => going = false,
            }
        }
        accepted += sequence.accepted;
        refused += u64::from(sequence.refused);
        whole += u64::from(going);
    }
    let (calls, differ) = (t.cases - cases, t.differences - differences);
    let sequences = SEQUENCES * t.times;
    say!(
        t,
        "{NAME}: {calls} cases in {sequences} sequences, {differ} differ"
    );
    say!(
        t,
        "  accepted {accepted}; sequences refused {refused}, to the end {whole}"
    );
    if accepted < 5 * sequences || whole == 0 || refused == 0 {
        t.lacking("sequences: they are too short, or none is refused or comes to its end");
    }
}
