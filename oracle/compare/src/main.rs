//! Compares the entry points of the probe crates with layout.rs, grid.rs and placer.rs, with the
//! Rust stand-ins, with the numbers of RULES 8 and with a parser of the sheet of RULES 6.

// Without placer.rs some of what the comparisons share has no use.
#![cfg_attr(not(feature = "placer"), allow(dead_code))]

mod answers;
mod emath_align;
mod emath_domain;
mod emath_ops;
mod faults;
#[cfg(feature = "grid")]
mod grid;
#[cfg(feature = "layout")]
mod layout;
mod parts;
#[cfg(feature = "placer")]
mod placer;
mod probe;
mod rng;
mod sheet;
mod tally;
mod values;

use std::env;
use std::process::ExitCode;
use std::sync::atomic::Ordering;

use parts::Part;
use tally::Tally;

const SEED: u64 = 1;

/// A run that compares fewer has gone wrong, whatever it found.
const FEWEST: u64 = if cfg!(feature = "placer") {
    55_000_000
} else if cfg!(feature = "grid") {
    45_000_000
} else if cfg!(feature = "layout") {
    35_000_000
} else {
    20_000_000
};

/// The same of the frames and widgets that RULES 8.14 speaks of.
const FEWEST_UPRIGHT: u64 = if cfg!(feature = "placer") {
    10_000_000
} else if cfg!(feature = "layout") {
    2_000_000
} else {
    0
};

/// Those that take longest come first, so that no processor is left alone with one at the end.
const PARTS: &[Part] = &[
    #[cfg(feature = "placer")]
    placer::compare,
    sheet::sheets::compare,
    #[cfg(feature = "grid")]
    grid::compare,
    #[cfg(feature = "placer")]
    sheet::lists::compare,
    #[cfg(feature = "layout")]
    layout::compare,
    #[cfg(feature = "placer")]
    sheet::passes::compare,
    sheet::writers::compare,
    sheet::hundredths::compare,
    #[cfg(feature = "placer")]
    sheet::margins::compare,
    emath_ops::compare,
    emath_align::compare,
    emath_domain::compare,
    sheet::fields::compare,
    #[cfg(feature = "placer")]
    sheet::cases::compare,
    #[cfg(feature = "placer")]
    sheet::fixed::compare,
];

const USAGE: &str = "usage: compare [--seed N] [--times K], or compare --answers";

struct Arguments {
    seed: u64,
    times: u64,
    /// Write the fixed list instead of comparing.
    answers: bool,
}

fn arguments() -> Result<Arguments, String> {
    let mut given = Arguments {
        seed: SEED,
        times: 1,
        answers: false,
    };
    let mut words = env::args().skip(1);
    while let Some(word) = words.next() {
        let place = match word.as_str() {
            "--answers" => {
                given.answers = true;
                continue;
            }
            "--seed" => &mut given.seed,
            "--times" => &mut given.times,
            _ => return Err(format!("unknown argument {word}")),
        };
        let number = words.next().and_then(|n| n.parse().ok());
        *place = number.ok_or_else(|| format!("{word} needs a whole number"))?;
    }
    Ok(given)
}

#[cfg(feature = "placer")]
fn write_answers() -> Result<(), String> {
    sheet::fixed::write().map_err(|why| why.to_string())
}

#[cfg(not(feature = "placer"))]
fn write_answers() -> Result<(), String> {
    Err("the answers are those of placer.rs, which is not here".into())
}

fn main() -> ExitCode {
    let result = arguments().map_err(|why| format!("{why}; {USAGE}"));
    let result = result.and_then(|given| match given.answers {
        true => write_answers().map(|()| ExitCode::SUCCESS),
        false => Ok(compare(given.seed, given.times)),
    });
    result.unwrap_or_else(|why| {
        eprintln!("compare: {why}");
        ExitCode::from(2)
    })
}

fn compare(seed: u64, times: u64) -> ExitCode {
    let Tally {
        cases,
        differences,
        lacks,
        ..
    } = parts::run(PARTS, seed, times);
    // Of RULES 8.14: the run would have stopped at the first that is.
    let upright = faults::UPRIGHT.load(Ordering::Relaxed);
    println!("compare: {upright} frames and widgets of the Rust, none inside out");
    println!("compare: {cases} cases, {differences} differences");
    if differences == 0 && lacks == 0 && cases >= FEWEST && upright >= FEWEST_UPRIGHT {
        ExitCode::SUCCESS
    } else {
        ExitCode::FAILURE
    }
}
