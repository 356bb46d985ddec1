//! Calls that can be refused: what RULES 8 expects of each, and how often it happened.

use std::cell::Cell;

use crate::faults;
use crate::rng::Rng;
use crate::tally::{Answer, Shown, Tally, Value, say};
use crate::values::Values;

/// What RULES 8 makes of a call.
pub struct Expected<V> {
    /// The number of each argument, the parts of a region or a grid apart; 0 where there is no more.
    arguments: [u8; MOST_PARTS],
    /// The number of what the Rust answers, 9 or 0.
    answer: u8,
    /// What the Rust answers.
    value: V,
    /// RULES 8.4: zeros, or the state that was given.
    refused: V,
}

const MOST_PARTS: usize = 20;

impl<const N: usize> Expected<[f32; N]> {
    /// A call that makes a rectangle, a position, a size or a first state.
    pub fn made(numbers: &[u8], answer: u8, value: [f32; N]) -> Self {
        Self::changed(numbers, answer, value, [0.0; N])
    }
}

impl<V: Clone> Expected<V> {
    /// A call that changes the state it is given.
    pub fn changed(numbers: &[u8], answer: u8, value: V, given: V) -> Self {
        let mut arguments = [0; MOST_PARTS];
        arguments[..numbers.len()].copy_from_slice(numbers);
        Self {
            arguments,
            answer,
            value,
            refused: given,
        }
    }

    /// The same, where the Rust is asked only if no argument has a fault: it would run out of room.
    pub fn asked(numbers: &[u8], given: V, rust: impl FnOnce() -> (u8, V)) -> Self {
        let (answer, value) = match faults::least(numbers) {
            0 => rust(),
            _ => (0, given.clone()),
        };
        Self::changed(numbers, answer, value, given)
    }

    /// RULES 8.2: the arguments' least; the answer is looked at only if they have no fault.
    pub fn number(&self) -> u8 {
        match faults::least(&self.arguments) {
            0 => self.answer,
            number => number,
        }
    }

    pub fn answer(&self) -> Answer<V> {
        let number = self.number();
        let value = if number == 0 {
            &self.value
        } else {
            &self.refused
        };
        Answer {
            number,
            value: value.clone(),
        }
    }

    /// Two arguments that have different faults: here the order shows.
    fn is_mixed(&self) -> bool {
        let least = faults::least(&self.arguments);
        self.arguments.iter().any(|&n| n != 0 && n != least)
    }
}

/// The calls of one operation, by number; 0 is for the accepted.
#[derive(Default)]
pub struct Counts {
    numbers: [Cell<u64>; 10],
    mixed: Cell<u64>,
}

impl Counts {
    pub fn note<V: Clone>(&self, expected: &Expected<V>) {
        let count = &self.numbers[usize::from(expected.number())];
        count.set(count.get() + 1);
        if expected.is_mixed() {
            self.mixed.set(self.mixed.get() + 1);
        }
    }

    fn show(&self) -> String {
        // 7 and 8 are a grid's.
        let shown = (4..=9).filter(|&n| !(7..=8).contains(&n) || self.numbers[n].get() != 0);
        let counted = shown.map(|n| format!("{n}: {}", self.numbers[n].get()));
        let refused = counted.collect::<Vec<_>>().join(", ");
        let (accepted, mixed) = (self.numbers[0].get(), self.mixed.get());
        format!("  accepted {accepted}; refused {refused}; two faults at once {mixed}")
    }
}

/// One operation: its name, the thousands of calls in a run of `--times 1`, and the numbers that
/// have to turn up among them.
pub struct Operation<'a> {
    pub name: &'a str,
    pub thousands: u64,
    pub numbers: &'a [usize],
}

impl Tally {
    /// Compares on drawn arguments, and fails where fewer than a third of the calls are accepted or
    /// a number does not turn up.
    pub fn answered<I: Shown, V: Value + Clone>(
        &mut self,
        operation: &Operation<'_>,
        draw: impl Fn(&mut Values) -> I,
        rattle: impl Fn(&I) -> Answer<V>,
        rust: impl Fn(&I) -> Expected<V>,
    ) {
        let name = operation.name;
        let counts = Counts::default();
        let mut values = Values::new(Rng::new(self.seed, name));
        let calls = operation.thousands * 1_000 * self.times;
        let cases = (0..calls).map(|_| draw(&mut values));
        self.each(name, cases, rattle, |case| {
            let expected = rust(case);
            counts.note(&expected);
            expected.answer()
        });
        self.judge(operation, &counts);
    }

    /// Shows the counts, and what is lacking among them.
    pub fn judge(&mut self, operation: &Operation<'_>, counts: &Counts) {
        let name = operation.name;
        say!(self, "{}", counts.show());
        let calls: u64 = counts.numbers.iter().map(Cell::get).sum();
        if counts.numbers[0].get() * 3 < calls {
            self.lacking(&format!("{name}: fewer than a third were accepted"));
        }
        for &n in operation.numbers {
            if counts.numbers[n].get() == 0 {
                self.lacking(&format!("{name}: none was refused with {n}"));
            }
        }
    }
}
