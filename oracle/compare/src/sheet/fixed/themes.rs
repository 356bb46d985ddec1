//! What the fixed list is made of, a file for each theme.

use super::drawing;
use crate::rng::Rng;
use crate::sheet::cases::cases;
use crate::sheet::full;
use crate::sheet::listing::list;
use crate::sheet::reference::MOST_RECORDS;

/// The fixed list does not change with `--seed`.
const SEED: u64 = 1;

/// A theme that keeps too few of the sheets drawn for it is a mistake.
const TRIES: usize = 100_000;

pub struct Sheet {
    pub name: String,
    pub text: Vec<u8>,
    pub list: Vec<u8>,
}

struct Theme {
    name: &'static str,
    sheets: usize,
    /// By the sheet's number in its theme.
    draw: fn(&mut Rng, usize) -> Vec<u8>,
    /// Whether a sheet so numbered may get this number.
    keeps: fn(usize, u8) -> bool,
}

const THEMES: [Theme; 9] = [
    theme("strips", 350, |rng, _| drawing::strip(rng).concat()),
    theme("wrapped", 300, |rng, _| drawing::wrapped(rng).concat()),
    theme("layouts", 288, every_layout),
    theme("grids", 400, |rng, _| drawing::grid(rng).concat()),
    theme("records", 300, |rng, _| drawing::mixed(rng).concat()),
    theme("metric", 200, |rng, _| drawing::metric(rng).concat()),
    Theme {
        keeps: |n, number| number == [6, 7, 8, 9][n % 4],
        ..theme("refused", 160, |rng, _| drawing::faulty(rng).concat())
    },
    theme("damaged", 300, |rng, _| drawing::damaged(rng)),
    theme("limits", 80, about_the_limits),
];

const fn theme(name: &'static str, sheets: usize, draw: fn(&mut Rng, usize) -> Vec<u8>) -> Theme {
    Theme {
        name,
        sheets,
        draw,
        keeps: |_, _| true,
    }
}

/// All 288, in the order of their fields.
fn every_layout(rng: &mut Rng, n: usize) -> Vec<u8> {
    let n = n as i32;
    let layout = [n / 72, n / 36 % 2, n / 12 % 3, n / 6 % 2, n / 2 % 3, n % 2];
    drawing::with_layout(rng, layout).concat()
}

/// As many records, columns and rows as there may be, or one more; then lengths at the limit.
fn about_the_limits(rng: &mut Rng, n: usize) -> Vec<u8> {
    match n {
        0 => full::strip(rng, MOST_RECORDS),
        1 => full::strip(rng, MOST_RECORDS + 1),
        2 => full::grid(rng, MOST_RECORDS, 112, 1_000),
        3 => full::grid(rng, MOST_RECORDS, 113, 1_000),
        4 => full::grid(rng, 34, 0, 1_000),
        5 => full::grid(rng, 35, 0, 1),
        6 => full::grid(rng, 34, 127, 1_000),
        _ => drawing::at_the_limit(rng),
    }
    .concat()
}

impl Theme {
    fn sheet(&self, rng: &mut Rng, n: usize) -> Sheet {
        for _ in 0..TRIES {
            let text = (self.draw)(rng, n);
            let listed = list(&text);
            // A shell holds no NUL.
            if (self.keeps)(n, listed.passed.number) && !text.contains(&0) {
                return Sheet {
                    name: format!("{}-{:03}", self.name, n + 1),
                    text,
                    list: listed.bytes,
                };
            }
        }
        panic!("no sheet for {}, number {n}", self.name);
    }

    fn sheets(&self) -> Vec<Sheet> {
        let mut rng = Rng::new(SEED, self.name);
        (0..self.sheets).map(|n| self.sheet(&mut rng, n)).collect()
    }
}

/// Each theme's name and sheets; the cases written out by hand come first.
pub fn themes() -> Vec<(&'static str, Vec<Sheet>)> {
    let sheets = cases().into_iter().map(|case| Sheet {
        name: format!("cases: {}", case.name),
        text: case.text,
        list: case.list,
    });
    let cases = ("cases", sheets.collect());
    let drawn = THEMES.iter().map(|theme| (theme.name, theme.sheets()));
    [cases].into_iter().chain(drawn).collect()
}
