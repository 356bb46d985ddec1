//! Every side that a W can name in hundredths of a millimetre (RULES 6.25), in both of its fields.

use std::cell::Cell;

use super::answers::RecordRead;
use super::counts::note;
use super::probe;
use super::reference::{COLUMNS, Unit, from_hundredths};
use crate::tally::{Shown, Tally, say};
use crate::values::{LIMIT_TICKS, TICKS_PER_POINT};

const NAME: &str = "record_read, every side in hundredths";

const SIDES: i32 = 2 * LIMIT_TICKS + 1;

/// How far on the height is: each side is met in both fields, and never twice in one W.
const APART: i32 = 1_234_567;

/// The farthest that a side may be from its tick, in 635ths of a tick.
const FARTHEST: i64 = 317;

/// A W, its width and its height.
struct Control([i32; 2]);

impl Shown for Control {
    fn show(&self) -> String {
        let [width, height] = self.0;
        format!("W {width} {height}")
    }
}

impl Control {
    fn read_by_rattle(&self) -> RecordRead {
        let [width, height] = self.0;
        let text = format!("W{width:>COLUMNS$}{height:>COLUMNS$}\n");
        probe::read_record(text.as_bytes(), Unit::Hundredths, 0)
    }

    fn converted(&self) -> RecordRead {
        let sides = self.0.map(from_hundredths);
        RecordRead::of(1, &sides.map(|ticks| ticks as f32 / TICKS_PER_POINT))
    }

    /// How far each side is from what was read, in 635ths of a tick.
    fn off(&self, read: &RecordRead) -> [i64; 2] {
        let off = |n: i32, length: f32| {
            let ticks = (length * TICKS_PER_POINT) as i64;
            (576 * i64::from(n) - 635 * ticks).abs()
        };
        let ([width, height], [x, y]) = (self.0, read.lengths);
        [off(width, x), off(height, y)]
    }
}

fn controls() -> impl Iterator<Item = Control> {
    (0..SIDES).map(|n| Control([n, (n + APART) % SIDES].map(|n| n - LIMIT_TICKS)))
}

pub fn compare(t: &mut Tally) {
    let (farthest, beyond) = (Cell::new(0), Cell::new(0));
    let ours = |c: &Control| {
        let read = c.read_by_rattle();
        for off in c.off(&read) {
            note(&farthest, off == FARTHEST);
            note(&beyond, off > FARTHEST);
        }
        read
    };
    t.each(NAME, controls(), ours, Control::converted);
    let (farthest, beyond) = (farthest.get(), beyond.get());
    say!(
        t,
        "  fields {FARTHEST}/635 from their tick: {farthest}, farther: {beyond}"
    );
    if farthest == 0 || beyond != 0 {
        t.lacking(&format!("{NAME}: {FARTHEST}/635 from its tick at the most"));
    }
}
