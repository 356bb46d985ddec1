//! How long the Rattle takes for a sheet of 510 records, beside the Rust doing the same work, and
//! beside an earlier Rattle where the benchmark was given one.

mod measure;
mod place;
mod rattle;
mod records;
mod sheets;
mod works;
mod write;

use measure::{Times, Work, describe, times};
use rattle::Rattle;
use works::Sheet;

const ROWS: [&str; 5] = [
    "the text alone",
    "(a) a pass, parsed",
    "(b) a pass from text",
    "(c) text to list",
    "(d) the list's lines alone",
];

/// Each row's work in the Rust.
fn in_rust(sheet: &Sheet) -> [Work<'_>; 5] {
    [
        sheet.text_alone_in_rust(),
        sheet.parsed::<false>(),
        sheet.text_pass_in_rust::<false>(),
        sheet.list_in_rust::<false>(),
        sheet.lines_in_rust(),
    ]
}

/// Rows (a) to (c) with the checks of RULES 8.
fn checked(sheet: &Sheet) -> [Work<'_>; 3] {
    [
        sheet.parsed::<true>(),
        sheet.text_pass_in_rust::<true>(),
        sheet.list_in_rust::<true>(),
    ]
}

/// All rows but (a): there is no entry point for a parsed sheet.
fn in_rattle(sheet: &Sheet, tree: Rattle) -> [Work<'_>; 4] {
    [
        sheet.text_alone(tree),
        sheet.text_pass(tree),
        sheet.list(tree),
        sheet.lines(tree),
    ]
}

/// Each row's times of the Rattle, (a) worked out.
fn rows(tree: &[Times]) -> [Times; 5] {
    let [text, pass, list, lines] = tree else {
        unreachable!("as many as were to be timed");
    };
    let laid = pass.less(text);
    [text, &laid, pass, list, lines].map(Times::clone)
}

fn number(x: Option<f64>) -> String {
    x.map_or("-".into(), |x| format!("{x:.2}"))
}

/// The Rattle's column; then the Rust's, the checked Rust's and an earlier Rattle's, each with what
/// stands behind it.
fn line(what: &str, ours: &str, [rust, checked, before]: [[String; 2]; 3]) {
    let width = 9;
    print!("{what:41}{ours:>width$}{:>width$}{:>8}", rust[0], rust[1]);
    print!("{:>14}{:>8}", checked[0], checked[1]);
    if Rattle::TREES.len() > 1 {
        print!("{:>width$}{:>8}", before[0], before[1]);
    }
    println!();
}

fn show(what: &str, ours: &Times, others: [Option<&Times>; 3]) {
    let beside = |other: Option<&Times>| {
        let ratio = other.map(|other| ours.ratio(other));
        [other.map(Times::median), ratio].map(number)
    };
    line(what, &number(Some(ours.median())), others.map(beside));
}

/// All that is timed of a sheet takes turns.
fn time(sheet: &Sheet) {
    let mut works = Vec::from_iter(in_rust(sheet).into_iter().chain(checked(sheet)));
    works.extend(sheet.trees.iter().flat_map(|&tree| in_rattle(sheet, tree)));
    let times = times(works);

    let (rust, rest) = times.split_at(5);
    let (checked, rest) = rest.split_at(3);
    let (here, before) = rest.split_at(4);
    let here = rows(here);
    let before = (!before.is_empty()).then(|| rows(before));
    for (row, what) in ROWS.iter().enumerate() {
        let checked = row.checked_sub(1).and_then(|n| checked.get(n));
        let before = before.as_ref().map(|before| &before[row]);
        let what = format!("{}: {what}", sheet.name);
        show(&what, &here[row], [Some(&rust[row]), checked, before]);
    }
}

fn main() {
    println!("{}", describe());
    let columns = ["Rust", "Rust checked", "before"];
    line(
        "",
        "Rattle",
        columns.map(|name| [name, "ratio"].map(String::from)),
    );
    let (strip, grid) = (sheets::strip(), sheets::grid());
    time(&Sheet::new("strip", strip.clone(), false));
    time(&Sheet::new("grid", grid.clone(), true));
    time(&Sheet::new(
        "strip with M",
        sheets::with_unit(&strip),
        false,
    ));
    time(&Sheet::new("grid with M", sheets::with_unit(&grid), true));
    println!("(a) of the Rattle is not measured: it is (b) less the text alone");
}
