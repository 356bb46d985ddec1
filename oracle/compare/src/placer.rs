//! Crate placer beside egui's placer.rs and the numbers of RULES 8.17.

pub mod calls;
mod corners;
mod inspectors;
mod port;
mod probe;
mod sequences;
mod states;
pub mod widgets;

use egui::grid::driver::Grid;
use egui::placer::driver::Running;

use crate::answers::{Expected, Operation};
use crate::emath_ops::rect;
use crate::faults::{least, of_answer, of_direction, of_rect, of_region};
use crate::grid::{NO_GRID, Saved, numbers_of_grid};
use crate::layout::fields::fields;
use crate::layout::layout;
use crate::tally::{Answer, Same, Shown, Tally, Value};
use crate::values::{Edges, Fields, State};
use calls::{KINDS, expected};
use corners::Corners;

/// A placer as the port has it: without a grid nothing is read of the one there.
#[derive(Clone)]
pub struct Placer {
    pub l: Fields,
    pub has_grid: bool,
    pub grid: Grid,
    pub region: State,
}

/// What a call gives.
#[derive(Clone)]
pub enum Outcome {
    Rect(Edges),
    Pair([f32; 2]),
    Placer(Box<Placer>),
    Saved(Box<Saved>),
}

impl Placer {
    fn running(&self) -> Running {
        let grid = self.has_grid.then_some(&self.grid);
        Running::of(layout(&self.l), &self.region, grid)
    }

    /// What the Rust has come to; the grid is the one given where there is none.
    pub fn of(running: &Running, given: &Grid) -> Self {
        Self {
            l: fields(running.layout()),
            has_grid: running.is_grid(),
            grid: running.grid().unwrap_or(*given),
            region: running.region(),
        }
    }

    /// RULES 8.5: the region's numbers, and where there is a grid its own and that of its
    /// direction.
    pub fn numbers(&self) -> Vec<u8> {
        let mut numbers = of_region(self.l[0], &self.region).to_vec();
        if self.has_grid {
            numbers.extend(numbers_of_grid(&self.grid));
            numbers.push(of_direction(self.l[0]));
        }
        numbers
    }

    /// 9 for a new state outside the domain.
    pub fn number_as_new(&self) -> u8 {
        of_answer(least(&self.numbers()))
    }
}

pub fn compare(t: &mut Tally) {
    let corners = Corners::default();
    inspectors::compare(t);
    t.answered(
        &Operation {
            name: "Placer::new",
            thousands: 200,
            numbers: &[4, 5, 6, 9],
        },
        states::max_rect,
        |(l, r)| port::new(l, r),
        |(l, r)| new(l, r, || Running::new(rect(r), layout(l))),
    );
    for (kind, (name, numbers)) in KINDS.into_iter().enumerate() {
        t.answered(
            &Operation {
                name,
                thousands: 420,
                numbers,
            },
            |v| states::asked(v, kind),
            |(p, call)| port::answer(p, call),
            |(p, call)| {
                let expected = expected(p, call, || calls::run(&mut p.running(), call, &p.grid));
                corners.note(p, call, &expected.answer());
                expected
            },
        );
    }
    sequences::compare(t);
    widgets::compare(t);
    corners.show(t);
}

/// Refused, the placer's region is all zero; a new placer has no grid.
pub fn new(l: &Fields, max_rect: &Edges, rust: impl FnOnce() -> Running) -> Expected<Outcome> {
    let refused = Placer {
        l: *l,
        has_grid: false,
        grid: NO_GRID,
        region: [0.0; 12],
    };
    let refused = Outcome::Placer(Box::new(refused));
    Expected::asked(&[of_rect(max_rect)], refused, || {
        let new = Placer::of(&rust(), &NO_GRID);
        (new.number_as_new(), Outcome::Placer(Box::new(new)))
    })
}

impl Shown for Placer {
    fn show(&self) -> String {
        let grid = if self.has_grid {
            self.grid.show()
        } else {
            "none".into()
        };
        format!(
            "layout {}, region {}; grid {grid}",
            self.l.show(),
            self.region.show()
        )
    }
}

impl Same for Placer {
    fn same(&self, other: &Self) -> bool {
        let grids = if self.has_grid {
            self.grid.same(&other.grid)
        } else {
            self.grid.identical(&other.grid)
        };
        let fields = self.l == other.l && self.has_grid == other.has_grid;
        fields && self.region.same(&other.region) && grids
    }
}

impl Value for Placer {
    fn identical(&self, other: &Self) -> bool {
        let fields = self.l == other.l && self.has_grid == other.has_grid;
        fields && self.region.identical(&other.region) && self.grid.identical(&other.grid)
    }
}

impl Shown for Outcome {
    fn show(&self) -> String {
        match self {
            Self::Rect(r) => r.show(),
            Self::Pair(v) => v.show(),
            Self::Placer(p) => p.show(),
            Self::Saved(s) => s.show(),
        }
    }
}

impl Same for Outcome {
    fn same(&self, other: &Self) -> bool {
        match (self, other) {
            (Self::Rect(a), Self::Rect(b)) => a.same(b),
            (Self::Pair(a), Self::Pair(b)) => a.same(b),
            (Self::Placer(a), Self::Placer(b)) => a.same(b),
            (Self::Saved(a), Self::Saved(b)) => a.same(b),
            _ => false,
        }
    }
}

impl Value for Outcome {
    fn identical(&self, other: &Self) -> bool {
        match (self, other) {
            (Self::Rect(a), Self::Rect(b)) => a.identical(b),
            (Self::Pair(a), Self::Pair(b)) => a.identical(b),
            (Self::Placer(a), Self::Placer(b)) => a.identical(b),
            (Self::Saved(a), Self::Saved(b)) => a.identical(b),
            _ => false,
        }
    }
}

fn made(number: u8, value: Placer) -> Answer<Outcome> {
    let value = Outcome::Placer(Box::new(value));
    Answer { number, value }
}
