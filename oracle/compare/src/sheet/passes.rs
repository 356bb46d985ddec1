//! Passes over whole sheets: the first without a memory and sizing, the second with the first's and
//! not, and one with any memory.

use egui::grid::driver::Memory;

use super::damage::damage;
use super::driver::{self, Driven, Given, Passed, ticks};
use super::listing::has_grid;
use super::plates;
use super::reference::{MOST_RECORDS, PLACES, Unit, lines, unit};
use super::{drawn, probe};
use crate::grid::set_aside;
use crate::grid::states::begin;
use crate::rng::Rng;
use crate::tally::{Same, Shown, Tally, Value, say};
use crate::values::Values;

const NAME: &str = "sheet_pass";
const SHEETS: u64 = 100_000;

/// The numbers that have to turn up.
const NUMBERS: [usize; 10] = [0, 1, 2, 3, 4, 5, 6, 7, 8, 9];

impl Shown for Given {
    fn show(&self) -> String {
        let memory = self.memory.show();
        let (known, sizing, room) = (self.known, self.sizing, self.out.len());
        let text = self.text.escape_ascii();
        format!("\"{text}\", known {known}, {memory}, sizing {sizing}, room {room}")
    }
}

impl Shown for Passed {
    fn show(&self) -> String {
        format!(
            "number {} at {}, plate {}, {}, flag {}, slice {:?}",
            self.number,
            self.record,
            self.plate.show(),
            self.memory.show(),
            self.save,
            self.out
        )
    }
}

/// A pass, and whether its sheet has a grid: without one the memory is the one given, every bit.
pub struct Seen(pub Passed, pub bool);

impl Shown for Seen {
    fn show(&self) -> String {
        self.0.show()
    }
}

impl Same for Seen {
    fn same(&self, other: &Self) -> bool {
        let (a, b) = (&self.0, &other.0);
        let memories = if a.number == 0 && self.1 {
            a.memory.same(&b.memory)
        } else {
            a.memory.identical(&b.memory)
        };
        let places = (a.number, a.record, a.save) == (b.number, b.record, b.save);
        places && a.plate.same(&b.plate) && a.out == b.out && memories
    }
}

/// How often each number was met, and each corner.
struct Met {
    numbers: [u64; 10],
    corners: [u64; CORNERS.len()],
    plates: [u64; plates::CORNERS.len()],
}

const CORNERS: [&str; 12] = [
    "a strip accepted",
    "another sheet without G accepted",
    "a grid without memory accepted",
    "a grid with a memory accepted, not sizing",
    "a grid with a memory accepted, sizing",
    "a fault after some W",
    "a slice that is exactly full",
    "512 records accepted",
    "a strip with M accepted",
    "another sheet with M and without G accepted",
    "a grid with M accepted, not sizing",
    "a fault after some W in hundredths",
];

fn count<const N: usize>(counts: &mut [u64; N], met: [bool; N]) {
    for (count, met) in counts.iter_mut().zip(met) {
        *count += u64::from(met);
    }
}

impl Met {
    fn note(&mut self, given: &Given, driven: &Driven) {
        let passed = &driven.passed;
        let (number, text) = (usize::from(passed.number), &given.text);
        self.numbers[number] += 1;
        let widgets = lines(text).filter(|line| line[0] == b'W').count();
        let accepted = number == 0;
        let grid = accepted && has_grid(text);
        let metric = unit(text) == Unit::Hundredths;
        let plain = text.starts_with(b"H       0       0") && {
            let field = |n: usize| text.get(1 + 8 * n + 7) == Some(&b'0');
            field(3) && field(4) && field(5)
        };
        let mut before_fault = lines(text).take(passed.record.saturating_sub(1));
        let after_some = number > 3 && before_fault.any(|line| line[0] == b'W');
        let met = [
            accepted && !grid && plain,
            accepted && !grid && !plain,
            grid && !given.known,
            grid && given.known && !given.sizing,
            grid && given.known && given.sizing,
            after_some,
            accepted && widgets != 0 && given.out.len() == PLACES * widgets,
            accepted && lines(text).count() == MOST_RECORDS,
            metric && accepted && !grid && plain,
            metric && accepted && !grid && !plain,
            metric && grid && given.known && !given.sizing,
            metric && after_some,
        ];
        count(&mut self.corners, met);
        if accepted {
            let (plate, min_rect) = (ticks(&passed.plate), ticks(&driven.min_rect));
            let places = &passed.out[..PLACES * widgets];
            count(
                &mut self.plates,
                plates::corners(plate, min_rect, places, grid),
            );
        }
    }

    fn show(&self, t: &mut Tally) {
        let refused = (1..=9).map(|n| format!("{n}: {}", self.numbers[n]));
        let refused = refused.collect::<Vec<_>>().join(", ");
        say!(t, "  accepted {}; refused {refused}", self.numbers[0]);
        if self.numbers[0] * 3 < self.numbers.iter().sum() {
            t.lacking("passes: fewer than a third were accepted");
        }
        for n in NUMBERS {
            if self.numbers[n] == 0 {
                t.lacking(&format!("passes: none with number {n}"));
            }
        }
        let corners = CORNERS.iter().zip(self.corners);
        for (words, count) in corners.chain(plates::CORNERS.iter().zip(self.plates)) {
            say!(t, "corner: {words}: {count}");
            if count == 0 {
                t.lacking(words);
            }
        }
    }
}

/// Compares a pass, and gives the Rust's.
fn compare_pass(t: &mut Tally, given: &Given, met: &mut Met) -> Passed {
    let mut ours = probe::pass(given);
    let theirs = driver::pass(given);
    let grid = has_grid(&given.text);
    if ours.number == 0 && grid && given.known {
        set_aside(&given.memory, &mut ours.memory);
    }
    met.note(given, &theirs);
    let theirs = Seen(theirs.passed, grid);
    t.agree(NAME, given, &Seen(ours, grid), &theirs);
    theirs.0
}

/// Marks in as many places as the W need, most often; else too few, or more.
fn lent(rng: &mut Rng, text: &[u8]) -> Vec<i32> {
    let need = PLACES * lines(text).filter(|line| line[0] == b'W').count();
    let places = match rng.below(16) {
        0 => need.saturating_sub(1),
        1..=4 => need + 1 + rng.below(40) as usize,
        _ => need,
    };
    (0..places).map(|_| rng.bits() as i32).collect()
}

pub fn compare(t: &mut Tally) {
    let (cases, differences) = (t.cases, t.differences);
    let mut values = Values::new(Rng::new(t.seed, NAME));
    let mut met = Met {
        numbers: [0; 10],
        corners: [0; CORNERS.len()],
        plates: [0; plates::CORNERS.len()],
    };
    for _ in 0..SHEETS * t.times {
        let mut d = begin(&mut values);
        let mut sheet = drawn::sheet(&mut d.v.rng);
        if d.v.rng.one_in(12) {
            damage(&mut d.v.rng, &mut sheet);
        }
        let text = sheet.concat();
        let mut memory = d.memory();
        d.spoil_memory(&mut memory);
        let rng = &mut d.v.rng;
        let first = Given {
            out: lent(rng, &text),
            text,
            known: false,
            memory: Memory::EMPTY,
            sizing: true,
        };
        let passed = compare_pass(t, &first, &mut met);
        let second = Given {
            known: true,
            memory: passed.memory,
            sizing: false,
            out: passed.out,
            ..first.clone()
        };
        compare_pass(t, &second, &mut met);
        let other = Given {
            known: rng.one_in(2),
            memory,
            sizing: rng.one_in(2),
            ..first
        };
        compare_pass(t, &other, &mut met);
    }
    let (passes, differ) = (t.cases - cases, t.differences - differences);
    say!(t, "{NAME}: {passes} cases, {differ} differ");
    met.show(t);
}
