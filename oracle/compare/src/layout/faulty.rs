//! Arguments and states with faults, so that every number turns up.

use super::states::{Draw, TICK};
use crate::faults::OPEN;
use crate::values::LIMIT;

/// The usual one, one with the sign set, one with other bits, and a signalling one.
const NANS: [f32; 4] = [
    f32::NAN,
    f32::from_bits(0xffc0_0000),
    f32::from_bits(0x7fc1_2345),
    f32::from_bits(0x7f80_0001),
];

impl Draw<'_> {
    /// Sometimes an edge of the cursor is infinite where it may not be.
    pub fn open_wrongly(&mut self, cursor: &mut [f32]) {
        let own = usize::from(self.l[0]);
        if self.v.rng.one_in(50) {
            let (open, outward) = OPEN[own];
            cursor[open] = -outward;
        } else if self.v.rng.one_in(50) {
            let (open, outward) = OPEN[(own + 1 + self.v.rng.below(3) as usize) % 4];
            cursor[open] = outward;
        }
    }

    /// In some cases a fault, or two: NaN, an infinity, a length above the limit, a rectangle
    /// inside out, a negative size. A part of four edges or more is of rectangles.
    pub fn spoil(&mut self, parts: &mut [&mut [f32]]) {
        let faults = match self.v.rng.below(12) {
            0 => 1,
            1 => 2,
            _ => return,
        };
        for _ in 0..faults {
            let part = self.v.rng.below(parts.len() as u32) as usize;
            let place = self.v.rng.below(parts[part].len() as u32) as usize;
            let less = self.v.rng.pick(&[TICK, 1.0, 100.0]);
            let above = self
                .v
                .rng
                .pick(&[LIMIT.next_up(), LIMIT + TICK, 1e6, f32::MAX]);
            let x = match self.v.rng.below(8) {
                0 => self.v.rng.pick(&NANS),
                1 => f32::INFINITY,
                2 => f32::NEG_INFINITY,
                3 | 4 => self.v.either_sign(above),
                _ if parts[part].len() < 4 => -less,
                _ if place % 4 < 2 => parts[part][place + 2] + less,
                _ => parts[part][place - 2] - less,
            };
            parts[part][place] = x;
        }
    }
}
