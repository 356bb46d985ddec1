//! Sheets of which most can be laid out: strips and grids of every layout, few long lengths.

use super::texts::{Lines, hundredths};
use crate::rng::Rng;
use crate::values::LIMIT_TICKS;

/// How long the lengths of a sheet are at most, in ticks.
const SCALES: [i32; 6] = [40, 700, 700, 5_000, 40_000, LIMIT_TICKS];

struct Sheet<'a> {
    rng: &'a mut Rng,
    scale: i32,
    /// No length at its limit and none below 0: else nearly every sheet of many records is refused.
    tame: bool,
    /// Its W are in hundredths of a millimetre.
    metric: bool,
}

/// A record's letter and its fields; nothing is a blank one.
pub fn line(letter: u8, fields: &[Option<i32>]) -> Vec<u8> {
    let mut line = vec![letter];
    for field in fields {
        let text = field.map_or(String::new(), |n| n.to_string());
        line.extend(format!("{text:>8}").bytes());
    }
    line.push(b'\n');
    line
}

pub fn numbers(letter: u8, fields: &[i32]) -> Vec<u8> {
    let fields = Vec::from_iter(fields.iter().copied().map(Some));
    line(letter, &fields)
}

/// A grid of which only the start row is named.
pub fn grid_from(start_row: i32) -> Vec<u8> {
    line(b'G', &[Some(0), Some(0), None, None, None, Some(start_row)])
}

impl Sheet<'_> {
    fn extent(&mut self) -> i32 {
        let n = self.rng.below(self.scale as u32 + 1) as i32;
        if self.tame {
            return n;
        }
        match self.rng.below(120) {
            0 => -n,
            1 => LIMIT_TICKS - n,
            2 => 0,
            _ => n,
        }
    }

    /// Mostly short and not negative.
    fn spacing(&mut self) -> i32 {
        let n = self.rng.below(300) as i32;
        match self.rng.below(10) {
            0 => -n,
            1 | 2 => 0,
            3 => self.extent(),
            _ => n,
        }
    }

    fn heading(&mut self, in_grid: bool) -> Vec<u8> {
        let mut fields = [3, 1, 2, 1, 2, 1].map(|most| self.rng.below(most + 1) as i32);
        if self.rng.one_in(3) {
            let align = fields[2];
            fields = [0, 0, align, 0, 0, 0];
        }
        // A grid on direction 1 or 3 is refused.
        if in_grid && !self.rng.one_in(24) {
            fields[0] &= 2;
        }
        let [left, top] = [(); 2].map(|()| self.rng.about_zero(self.scale) / 2);
        let [width, height] = [(); 2].map(|()| self.extent() / 2);
        let rect = [left, top, left + width, top + height];
        let spacing = [self.spacing(), self.spacing()];
        numbers(b'H', &[&fields[..], &rect, &spacing].concat())
    }

    fn grid(&mut self) -> Vec<u8> {
        let least = [self.extent() / 8, self.extent() / 8].map(Some);
        let most = [(); 2].map(|()| (!self.rng.one_in(2)).then(|| self.extent()));
        let columns = (!self.rng.one_in(2)).then(|| 1 + self.rng.below(32) as i32);
        let start_row = match self.rng.below(8) {
            0 => 120 + self.rng.below(8),
            1 => self.rng.below(128),
            _ => 0,
        };
        let places = [columns, Some(start_row as i32)];
        line(b'G', &[&least[..], &most, &places].concat())
    }

    /// Of a W; in hundredths half of the time one that is far from its tick, or at it.
    fn side(&mut self) -> i32 {
        let n = self.extent() / 4;
        if !self.metric || n < 0 || self.rng.one_in(8) {
            return n;
        }
        match self.rng.below(60) {
            0 if !self.tame => LIMIT_TICKS,
            1 => 1,
            _ => hundredths(self.rng, 0, n),
        }
    }

    fn step(&mut self, in_grid: bool) -> Vec<u8> {
        let kinds: &[u8] = match (in_grid, self.rng.below(12)) {
            (_, 0) => b"RLKNT",
            (false, 1) => b"S",
            (true, 1) if self.rng.one_in(12) => b"S",
            _ => b"WWWWE",
        };
        match self.rng.pick(kinds) {
            b'W' => numbers(b'W', &[self.side(), self.side()]),
            b'E' => numbers(b'E', &[]),
            letter => numbers(letter, &[self.extent() / 2]),
        }
    }
}

pub fn sheet(rng: &mut Rng) -> Lines {
    let (mut scale, tame) = (rng.pick(&SCALES), rng.one_in(4));
    let records = match rng.below(200) {
        // About the most there may be.
        0 => {
            scale = scale.min(700);
            510 + rng.below(4) as usize
        }
        1..=10 => 20 + rng.below(120) as usize,
        _ => 2 + rng.below(18) as usize,
    };
    let in_grid = rng.one_in(2);
    // Only row ends: a grid's rows come to their end.
    let rows_only = rng.one_in(40);
    let metric = rng.one_in(3);
    let mut s = Sheet {
        rng,
        scale,
        tame,
        metric,
    };
    let mut lines = vec![s.heading(in_grid)];
    if metric {
        lines.push(numbers(b'M', &[]));
    }
    if in_grid {
        lines.push(s.grid());
    }
    while lines.len() < records {
        lines.push(if rows_only {
            numbers(b'E', &[])
        } else {
            s.step(in_grid)
        });
    }
    lines
}
