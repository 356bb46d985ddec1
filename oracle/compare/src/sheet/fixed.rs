//! The fixed list below tests/answers, sheets with their lists, and the lists of examples/: the
//! reference makes them, and a script replays them without it.

mod drawing;
mod files;
mod themes;

use std::fs;
use std::io;

use crate::tally::{Same, Shown, Tally, say};
use files::{File, answers, examples, strays};

const NAME: &str = "the fixed list";

/// As many sheets have to be in it, and as many examples.
const FEWEST: usize = 2_000;
const FEWEST_EXAMPLES: usize = 8;

/// Writes all files anew.
pub fn write() -> io::Result<()> {
    let files = Vec::from_iter(answers().into_iter().chain(examples()?));
    for file in &files {
        fs::write(&file.path, &file.bytes)?;
    }
    let sheets = files.iter().map(|file| file.sheets).sum::<usize>();
    println!("answers: {sheets} sheets in {} files", files.len());
    Ok(())
}

/// A file's bytes, by the first line that another has not.
struct Content<'a> {
    bytes: &'a [u8],
    other: &'a [u8],
}

impl Shown for Content<'_> {
    fn show(&self) -> String {
        let [these, those] = [self.bytes, self.other].map(|b| b.split(|&byte| byte == b'\n'));
        let mut others = those.map(Some).chain(std::iter::repeat(None));
        let differing = (1..)
            .zip(these)
            .find(|(_, line)| others.next() != Some(Some(line)));
        match differing {
            Some((n, line)) => format!("line {n}: {}", line.escape_ascii()),
            None => "ends earlier".into(),
        }
    }
}

impl Same for Content<'_> {
    fn same(&self, other: &Self) -> bool {
        self.bytes == other.bytes
    }
}

fn compare_file(t: &mut Tally, file: &File) {
    let there = fs::read(&file.path).unwrap_or_default();
    let (made, there) = (&file.bytes[..], &there[..]);
    let sides = [
        Content {
            bytes: there,
            other: made,
        },
        Content {
            bytes: made,
            other: there,
        },
    ];
    let name = file.path.file_name().unwrap_or_default();
    let name = &*name.to_string_lossy();
    t.agree_as(NAME, name, ["there", "Rust"], [&sides[0], &sides[1]]);
    // Each sheet is a case.
    t.cases += file.sheets as u64 - 1;
}

/// Compares the files as they are with what the reference gives.
fn compare_files(t: &mut Tally) -> io::Result<()> {
    let (answers, examples) = (answers(), examples()?);
    let sheets = answers.iter().map(|file| file.sheets).sum::<usize>();
    if sheets < FEWEST || examples.len() < FEWEST_EXAMPLES {
        t.lacking(&format!(
            "{NAME}: {FEWEST} sheets, {FEWEST_EXAMPLES} examples"
        ));
    }
    let made = Vec::from_iter(answers.into_iter().chain(examples));
    for file in &made {
        compare_file(t, file);
    }
    for path in strays(&made)? {
        let name = path.file_name().unwrap_or_default();
        t.lacking(&format!("{NAME}: sheets for {}", name.to_string_lossy()));
    }
    Ok(())
}

pub fn compare(t: &mut Tally) {
    let (cases, differences) = (t.cases, t.differences);
    if let Err(why) = compare_files(t) {
        t.lacking(&format!("{NAME}: {why}"));
    }
    let (sheets, differ) = (t.cases - cases, t.differences - differences);
    say!(t, "{NAME}: {sheets} cases, {differ} files differ");
}
