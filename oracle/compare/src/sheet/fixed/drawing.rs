//! The sheets of the fixed list: short, each theme with its own mixture.

use crate::rng::Rng;
use crate::sheet::damage::damage;
use crate::sheet::drawn::{grid_from, line, numbers};
use crate::sheet::texts::Lines;
use crate::values::LIMIT_TICKS;

/// A layout's six fields.
type Layout = [i32; 6];

/// How long the controls of a sheet are at most, in ticks.
const SCALES: [i32; 4] = [12, 700, 2_000, 20_000];

struct Sheet<'a> {
    rng: &'a mut Rng,
    scale: i32,
    lines: Lines,
}

fn within(rng: &mut Rng, least: u32, most: u32) -> u32 {
    least + rng.below(most - least + 1)
}

/// Any, a grid's direction apart.
fn any_layout(rng: &mut Rng) -> Layout {
    [3, 1, 2, 1, 2, 1].map(|most| rng.below(most + 1) as i32)
}

fn strip_layout(rng: &mut Rng) -> Layout {
    [0, 0, rng.below(3) as i32, 0, 0, 0]
}

/// Mostly that of a strip, else any on direction 0 or 2.
fn grid_layout(rng: &mut Rng) -> Layout {
    if rng.one_in(3) {
        let mut layout = any_layout(rng);
        layout[0] &= 2;
        layout
    } else {
        strip_layout(rng)
    }
}

impl<'a> Sheet<'a> {
    /// H; max_rect has room for a few controls across and down.
    fn new(rng: &'a mut Rng, layout: Layout) -> Self {
        let scale = rng.pick(&SCALES);
        let [left, top] = [(); 2].map(|()| match rng.below(3) {
            0 => rng.about_zero(4 * scale),
            _ => 0,
        });
        let [across, down] = [(); 2].map(|()| rng.below(4 * scale as u32) as i32);
        let [x, y] = [(); 2].map(|()| match rng.below(6) {
            0 => 0,
            1 => -(rng.below(40) as i32),
            _ => rng.below(300) as i32,
        });
        let rect = [left, top, left + across, top + down];
        let heading = numbers(b'H', &[&layout[..], &rect, &[x, y]].concat());
        Self {
            rng,
            scale,
            lines: vec![heading],
        }
    }

    fn length(&mut self) -> i32 {
        self.rng.below(self.scale as u32 + 1) as i32
    }

    fn grid(mut self) -> Self {
        let least = [(); 2].map(|()| Some(self.length() / 2));
        let most = [(); 2].map(|()| (self.rng.one_in(2)).then(|| self.length()));
        let columns = (self.rng.one_in(2)).then(|| within(self.rng, 1, 32) as i32);
        let start_row = match self.rng.below(8) {
            0 => within(self.rng, 1, 12) as i32,
            _ => 0,
        };
        let places = [columns, Some(start_row)];
        let grid = line(b'G', &[&least[..], &most, &places].concat());
        self.lines.push(grid);
        self
    }

    /// So many steps, of these letters.
    fn steps(mut self, least: u32, most: u32, letters: &[u8]) -> Lines {
        for _ in 0..within(self.rng, least, most) {
            let step = match self.rng.pick(letters) {
                b'E' => numbers(b'E', &[]),
                b'W' => numbers(b'W', &[self.length(), self.length()]),
                letter => numbers(letter, &[2 * self.length()]),
            };
            self.lines.push(step);
        }
        self.lines
    }
}

pub fn strip(rng: &mut Rng) -> Lines {
    let layout = strip_layout(rng);
    Sheet::new(rng, layout).steps(1, 5, b"WWWWE")
}

pub fn wrapped(rng: &mut Rng) -> Lines {
    let mut layout = any_layout(rng);
    layout[1] = 1;
    if !rng.one_in(8) {
        layout[3] = 0;
    }
    Sheet::new(rng, layout).steps(2, 6, b"WWWWE")
}

pub fn with_layout(rng: &mut Rng, layout: Layout) -> Lines {
    Sheet::new(rng, layout).steps(2, 3, b"WWWE")
}

pub fn grid(rng: &mut Rng) -> Lines {
    let layout = grid_layout(rng);
    Sheet::new(rng, layout).grid().steps(1, 7, b"WWE")
}

/// The other records, among controls.
pub fn mixed(rng: &mut Rng) -> Lines {
    if rng.one_in(3) {
        let layout = grid_layout(rng);
        Sheet::new(rng, layout).grid().steps(2, 5, b"RLKNTWWE")
    } else {
        let layout = any_layout(rng);
        Sheet::new(rng, layout).steps(2, 5, b"SSRLKNTWWWE")
    }
}

/// Any of these, its W in hundredths of a millimetre.
pub fn metric(rng: &mut Rng) -> Lines {
    let mut lines = match rng.below(4) {
        0 => strip(rng),
        1 => wrapped(rng),
        2 => grid(rng),
        _ => mixed(rng),
    };
    lines.insert(1, numbers(b'M', &[]));
    lines
}

/// A grid of any direction, about its last row.
fn last_rows(rng: &mut Rng) -> Lines {
    let (layout, start_row) = (any_layout(rng), within(rng, 126, 127));
    let mut sheet = Sheet::new(rng, layout);
    sheet.lines.push(grid_from(start_row as i32));
    sheet.steps(1, 5, b"WEE")
}

/// Half of them with a length that is negative or at the limit.
pub fn faulty(rng: &mut Rng) -> Lines {
    let mut lines = match rng.below(3) {
        0 => last_rows(rng),
        _ => mixed(rng),
    };
    if rng.one_in(2) {
        let n = LIMIT_TICKS - rng.below(20) as i32;
        let size = [rng.pick(&[-1, n, 7]), rng.pick(&[-2, n, 9])];
        lines.push(numbers(b'W', &size));
    }
    lines
}

pub fn damaged(rng: &mut Rng) -> Vec<u8> {
    let mut lines = match rng.below(4) {
        0 => strip(rng),
        1 => grid(rng),
        2 => metric(rng),
        _ => mixed(rng),
    };
    lines.truncate(6);
    damage(rng, &mut lines);
    lines.concat()
}

/// Few lengths, all about the limit, of either sign.
pub fn at_the_limit(rng: &mut Rng) -> Lines {
    let edge = |rng: &mut Rng| LIMIT_TICKS - rng.pick(&[0, 0, 1, 2, 40]);
    let low = rng.pick(&[0, 1 - LIMIT_TICKS, -LIMIT_TICKS]);
    let high = edge(rng);
    let spacing = [0, rng.below(2) as i32];
    let layout = match rng.below(3) {
        0 => any_layout(rng),
        _ => strip_layout(rng),
    };
    let rect = [low, low, high, high];
    let mut lines = vec![numbers(b'H', &[&layout[..], &rect, &spacing].concat())];
    for _ in 0..within(rng, 1, 3) {
        let size = [edge(rng) / 2, rng.below(50) as i32];
        lines.push(match rng.below(5) {
            0 => numbers(b'N', &size[..1]),
            1 => numbers(b'W', &[size[1], size[0]]),
            2 => numbers(b'S', &[-size[0]]),
            _ => numbers(b'W', &size),
        });
    }
    lines
}
