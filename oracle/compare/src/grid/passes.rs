//! Whole passes: a `new`, then up to 40 calls, then `save`, and some a second time with the memory
//! that was saved. One `GridLayout` of grid.rs goes through all of a pass; after every call the whole
//! state is compared.

use egui::grid::driver::Running;

use super::corners::{Corner, Corners};
use super::states::begin;
use super::{Moved, New, Saved, cells, moves, port};
use crate::answers::{Counts, Expected, Operation};
use crate::faults::{ROWS, rect_of};
use crate::layout::states::Draw;
use crate::rng::Rng;
use crate::tally::{Answer, Shown, Tally, Value, say};
use crate::values::{Edges, Values};

/// 100,000 first passes or more. Their arguments are of the domain, so that few numbers turn up.
const PASSES: Operation<'_> = Operation {
    name: "GridLayout, whole passes",
    thousands: 100,
    numbers: &[8, 9],
};

/// The most calls between `new` and `save`.
const CALLS: usize = 40;

/// A step of a pass: a widget as a sheet's W places it, a widget placed anyhow, an end of row.
enum Step {
    Widget([f32; 2]),
    Placed(Edges, Edges),
    RowEnd,
}

impl Step {
    fn calls(&self) -> usize {
        match self {
            Self::Widget(_) => 3,
            Self::Placed(..) | Self::RowEnd => 1,
        }
    }
}

impl Shown for Step {
    fn show(&self) -> String {
        match self {
            Self::Widget(size) => format!("a widget of {}", size.show()),
            Self::Placed(frame, widget) => format!("{} in {}", widget.show(), frame.show()),
            Self::RowEnd => "a row's end".into(),
        }
    }
}

/// Widgets and row ends; or, to come to the end of the room, only placed widgets or row ends.
fn steps(d: &mut Draw<'_>) -> Vec<Step> {
    let kind = d.v.rng.below(12);
    let calls = 1 + d.v.rng.below(CALLS as u32) as usize;
    let mut steps = Vec::new();
    let mut left = if kind < 2 { CALLS } else { calls };
    let row_ends = 2 + d.v.rng.below(6);
    while left > 0 {
        let step = match kind {
            0 => placed(d),
            1 => Step::RowEnd,
            _ if d.v.rng.one_in(row_ends) => Step::RowEnd,
            _ if d.v.rng.one_in(10) => placed(d),
            _ => Step::Widget([d.extent(), d.extent()]),
        };
        if step.calls() > left {
            break;
        }
        left -= step.calls();
        steps.push(step);
    }
    steps
}

fn placed(d: &mut Draw<'_>) -> Step {
    let frame = d.rect();
    Step::Placed(frame, d.rect())
}

/// One call of a pass.
struct Call<'a> {
    name: &'a str,
    step: &'a Step,
    dir: u8,
    state: &'a Moved,
}

impl Shown for Call<'_> {
    fn show(&self) -> String {
        let Self {
            name, step, dir, ..
        } = self;
        let (step, state) = (step.show(), self.state.show());
        format!("{name}, {step}, direction {dir}, {state}")
    }
}

/// The two sides, in the midst of a pass.
struct Pass<'a> {
    t: &'a mut Tally,
    dir: u8,
    /// The state of both, as they agree on it, with the bits of the port.
    state: Moved,
    rust: Running,
    counts: &'a Counts,
}

impl Pass<'_> {
    /// What both answer, if they agree.
    fn agreed<V: Value + Clone>(
        &mut self,
        name: &str,
        step: &Step,
        ours: Answer<V>,
        theirs: &Expected<V>,
    ) -> Option<Answer<V>> {
        let call = Call {
            name,
            step,
            dir: self.dir,
            state: &self.state,
        };
        self.counts.note(theirs);
        let same = self.t.agree(PASSES.name, &call, &ours, &theirs.answer());
        same.then_some(ours)
    }

    /// A refused call leaves the state as it was, on both sides.
    fn moved(&mut self, answer: Answer<Moved>) {
        self.state = answer.value;
        if answer.number != 0 {
            self.rust = Running::of(&self.state.grid);
        }
    }

    /// None where the two sides differ: the pass ends there.
    fn step(&mut self, step: &Step) -> Option<()> {
        match step {
            Step::Widget(size) => self.widget(step, size),
            Step::Placed(frame, widget) => self.advance(step, frame, widget),
            Step::RowEnd => {
                let (dir, state) = (self.dir, &self.state);
                let ours = port::end_row(&state.grid, dir, &state.cursor);
                let rust = &mut self.rust;
                let theirs = moves::end_row(state, dir, |c| {
                    let cursor = rust.end_row(c);
                    (rust.grid(), cursor)
                });
                let answer = self.agreed("end_row", step, ours, &theirs)?;
                self.moved(answer);
                Some(())
            }
        }
    }

    /// next_cell, justify_and_align, advance: as far as they are accepted.
    fn widget(&mut self, step: &Step, size: &[f32; 2]) -> Option<()> {
        let (dir, Moved { grid, cursor }) = (self.dir, &self.state);
        let ours = port::next_cell(grid, dir, cursor, size);
        let theirs = cells::next_cell(grid, dir, cursor, size, |c, s| self.rust.next_cell(c, s));
        let frame = self.agreed("next_cell", step, ours, &theirs)?;
        if frame.number != 0 {
            return Some(());
        }
        let (frame, grid) = (frame.value, &self.state.grid);
        let ours = port::justify_and_align(grid, &frame, size);
        let theirs = cells::aligned(grid, &frame, size, |f, s| self.rust.justify_and_align(f, s));
        let widget = self.agreed("justify_and_align", step, ours, &theirs)?;
        if widget.number != 0 {
            return Some(());
        }
        self.advance(step, &frame, &widget.value)
    }

    fn advance(&mut self, step: &Step, frame: &Edges, widget: &Edges) -> Option<()> {
        let (dir, state) = (self.dir, &self.state);
        let ours = port::advance(&state.grid, dir, &state.cursor, frame, widget);
        let rust = &mut self.rust;
        let theirs = moves::advance(state, dir, frame, widget, |c, f, w| {
            let cursor = rust.advance(c, f, w);
            (rust.grid(), cursor)
        });
        let answer = self.agreed("advance", step, ours, &theirs)?;
        self.moved(answer);
        Some(())
    }

    fn save(&mut self) -> Option<Saved> {
        let ours = port::save(&self.state.grid);
        let theirs = moves::save(&self.state.grid, || moves::saved(&self.rust));
        Some(self.agreed("save", &Step::RowEnd, ours, &theirs)?.value)
    }
}

/// What the pass saved, where it was accepted and the two sides agree.
fn pass(t: &mut Tally, new: &New, steps: &[Step], counts: &Counts) -> Option<Saved> {
    let rust = moves::running(new);
    let ours = moves::made(new);
    let theirs = moves::new(new, || rust.grid());
    counts.note(&theirs);
    if !t.agree(PASSES.name, new, &ours, &theirs.answer()) || ours.number != 0 {
        return None;
    }
    let state = Moved {
        grid: ours.value,
        cursor: rect_of(&new.region, 2),
    };
    let mut pass = Pass {
        t,
        dir: new.dir,
        state,
        rust,
        counts,
    };
    for step in steps {
        pass.step(step)?;
    }
    pass.save()
}

pub fn compare(t: &mut Tally, corners: &Corners) {
    let (cases, differences) = (t.cases, t.differences);
    let counts = Counts::default();
    let firsts = PASSES.thousands * 1_000 * t.times;
    let mut seconds = 0_u64;
    let mut values = Values::new(Rng::new(t.seed, PASSES.name));
    for _ in 0..firsts {
        let mut d = begin(&mut values);
        d.l[0] &= 2;
        let mut new = d.new_grid();
        if d.v.rng.one_in(2) {
            new.start_row = d.v.rng.pick(&[0, 0, 0, 1, 5, ROWS - 20, ROWS - 1]);
        }
        let steps = steps(&mut d);
        let again = d.v.rng.one_in(3);
        let Some(saved) = pass(t, &new, &steps, &counts) else {
            continue;
        };
        if again {
            seconds += 1;
            new.known = true;
            new.sizing_pass = false;
            new.memory = saved.memory;
            let second = pass(t, &new, &steps, &counts);
            let settled = second.is_some_and(|saved| saved.save == 0);
            corners.note(Corner::SecondSame, settled);
        }
    }
    let (calls, differ) = (t.cases - cases, t.differences - differences);
    let (name, passes) = (PASSES.name, firsts + seconds);
    say!(
        t,
        "{name}: {calls} cases in {passes} passes, {differ} differ"
    );
    t.judge(&PASSES, &counts);
}
