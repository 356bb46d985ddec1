//! Strips with M: a plate's width beside the widths that its sheet names. Each W is off by 317/635 of
//! a tick at the most (RULES 6.25), and nothing else is where the spacing across is not negative.

use std::cell::Cell;

use egui::grid::driver::Memory;

use super::counts::{note, show};
use super::drawn::numbers;
use super::driver::{self, Given, Passed, ticks};
use super::passes::Seen;
use super::probe;
use super::reference::{MOST_RECORDS, PLACES};
use super::texts::{Lines, hundredths};
use crate::rng::Rng;
use crate::tally::{Same, Shown, Tally, say};

const NAME: &str = "sheet_pass, strips with M";
const MARGIN: &str = "the margin of strips with M";
const SHEETS: u64 = 50_000;

/// How long the sides of a sheet are at most, in hundredths.
const SCALES: [i32; 4] = [20, 1_000, 5_000, 100_000];

/// The widths that are the farthest above their tick, and below it, come again after 635.
const FAR: [i32; 2] = [522, 113];

/// H, M, then W and E.
struct Strip {
    lines: Lines,
    spacing: i32,
    widths: Vec<i32>,
}

/// Few; now and then as many as there may be.
fn steps(rng: &mut Rng) -> usize {
    match rng.below(200) {
        0 => MOST_RECORDS - 2,
        _ => rng.below(20) as usize,
    }
}

impl Strip {
    /// In a third of them all W have one width, as far from its tick as can be.
    fn new(rng: &mut Rng) -> Self {
        let spacing = match rng.below(6) {
            0 => -(rng.below(2_000) as i32),
            1 => 0,
            _ => rng.below(300) as i32,
        };
        let [left, top] = [(); 2].map(|()| rng.about_zero(2_000));
        let layout = [0, 0, rng.below(3) as i32, 0, 0, 0];
        let rect = [left, top, left + 640, top + 640];
        let down = rng.about_zero(100);
        let heading = numbers(b'H', &[&layout[..], &rect, &[spacing, down]].concat());
        let mut strip = Self {
            lines: vec![heading, numbers(b'M', &[])],
            spacing,
            widths: vec![],
        };
        let scale = rng.pick(&SCALES);
        let far = rng.pick(&FAR) + 635 * rng.below(8) as i32;
        let all_far = rng.one_in(3);
        for _ in 0..steps(rng) {
            if rng.one_in(6) {
                strip.lines.push(numbers(b'E', &[]));
                continue;
            }
            let width = if all_far {
                far
            } else {
                hundredths(rng, 0, scale)
            };
            strip.widths.push(width);
            let height = hundredths(rng, 0, scale);
            strip.lines.push(numbers(b'W', &[width, height]));
        }
        strip
    }

    fn given(&self) -> Given {
        Given {
            text: self.lines.concat(),
            known: false,
            memory: Memory::EMPTY,
            sizing: true,
            out: vec![0; PLACES * self.widths.len()],
        }
    }

    /// How far the plate's width is from that of the W and what is between them, in 635ths of a tick.
    fn off(&self, passed: &Passed) -> i64 {
        let [left, _, right, _] = ticks(&passed.plate).map(i64::from);
        let between = self.widths.len().saturating_sub(1) as i64;
        let widths = self.widths.iter().copied().map(i64::from).sum::<i64>();
        let spacing = i64::from(self.spacing);
        (635 * (right - left - spacing * between) - 576 * widths).abs()
    }

    fn margin(&self) -> i64 {
        317 * self.widths.len() as i64
    }
}

/// 635ths of a tick.
struct Off(i64);

impl Shown for Off {
    fn show(&self) -> String {
        format!("{}/635", self.0)
    }
}

impl Same for Off {
    fn same(&self, other: &Self) -> bool {
        self.0 == other.0
    }
}

const CORNERS: [&str; 5] = [
    "within",
    "of them no W",
    "of them at the margin",
    "of them 400 W or more at the margin",
    "with negative spacing beyond",
];

/// The margin of an accepted strip.
fn compare_margin(t: &mut Tally, strip: &Strip, given: &Given, passed: &Passed, met: &[Cell<u64>]) {
    let (off, margin) = (strip.off(passed), strip.margin());
    if strip.spacing < 0 {
        note(&met[4], off > margin);
        return;
    }
    let sides = [off, off.min(margin)].map(Off);
    let within = t.agree_as(MARGIN, given, ["plate", "margin"], [&sides[0], &sides[1]]);
    let controls = strip.widths.len();
    note(&met[0], within);
    note(&met[1], controls == 0);
    note(&met[2], controls != 0 && off == margin);
    note(&met[3], controls >= 400 && off == margin);
}

pub fn compare(t: &mut Tally) {
    let mut rng = Rng::new(t.seed, NAME);
    let met = CORNERS.map(|_| Cell::new(0));
    let (mut differ, mut beyond) = (0, 0);
    let sheets = SHEETS * t.times;
    for _ in 0..sheets {
        let strip = Strip::new(&mut rng);
        let given = strip.given();
        let before = t.differences;
        let [ours, theirs] = [probe::pass(&given), driver::pass(&given).passed];
        let [ours, theirs] = [ours, theirs].map(|passed| Seen(passed, false));
        t.agree(NAME, &given, &ours, &theirs);
        differ += t.differences - before;

        let before = t.differences;
        if ours.0.number == 0 {
            compare_margin(t, &strip, &given, &ours.0, &met);
        }
        beyond += t.differences - before;
    }
    say!(t, "{NAME}: {sheets} cases, {differ} differ");
    let cases = met[0].get() + beyond;
    say!(t, "{MARGIN}: {cases} cases, {beyond} beyond");
    show(t, MARGIN, &CORNERS, &met);
}
