//! Sheets with their lists, those of RULES 9 first, written out by hand; the corners, as a program written from RULES gives
//! them. No reference made them.

mod corners;
mod metric;
mod plates;

use self::corners::corners;
use self::metric::metric;
use self::plates::plates;
use super::answers::Bytes;
use super::listing::list;
use super::reference::{COLUMNS, MOST_RECORDS};
use crate::tally::{Tally, say};

const NAME: &str = "the lists by hand";

pub struct Case {
    pub name: &'static str,
    pub text: Vec<u8>,
    pub list: Vec<u8>,
}

/// RULES 9.2, to the byte.
const STRIP: &str = "\
H       0       0       1       0       0       0       0       0    6400    3200     256     128
W     640     320
W     320     480
";
const STRIP_LIST: &str = "\
W       2       0       0     640     320       0       0     640     320
W       3     896       0    1216     480     896       0    1216     480
P       0       0    1216     480
";

/// Its H.
const HEADING: &str = "H 0 0 1 0 0 0 0 0 6400 3200 256 128\n";

/// RULES 9.3, after that H.
const GRID: &str = "G 320 160 _ _ _ 0\nW 640 160\nW 100 161\nE\nW 200 50\n";
const GRID_LIST: &str = "\
W 3 0 0 640 161 0 1 640 161
W 4 896 0 1216 161 896 0 996 161
W 6 0 289 640 449 0 344 200 394
P 0 0 1216 449
C 0 640
C 1 320
D 0 161
D 1 160
";

/// RULES 9.5: a row that wraps, without spacing.
const WRAPPED: &str = "H 0 1 0 0 0 0 0 0 640 3200 0 0\n";

/// Lines whose fields stand apart by one space, put in their columns; `_` is a blank field.
pub fn in_columns(lines: &str) -> Vec<u8> {
    let mut text = String::new();
    for line in lines.split_inclusive('\n') {
        let mut words = line.split_whitespace();
        text += words.next().unwrap_or_default();
        for word in words {
            let field = if word == "_" { "" } else { word };
            text += &format!("{field:>COLUMNS$}");
        }
        text += if line.ends_with('\n') { "\n" } else { "" };
    }
    text.into_bytes()
}

fn case(name: &'static str, sheet: &[&str], list: &str) -> Case {
    Case {
        name,
        text: in_columns(&sheet.concat()),
        list: in_columns(list),
    }
}

/// H and n row ends.
fn row_ends(n: usize) -> String {
    [HEADING, &"E\n".repeat(n)].concat()
}

/// RULES 9.2 to 9.7, and 512 records.
fn settled() -> Vec<Case> {
    let grid_row_32 = "W 0 0\n".repeat(32);
    vec![
        Case {
            name: "the printed example",
            text: STRIP.into(),
            list: STRIP_LIST.into(),
        },
        case("the grid", &[HEADING, GRID], GRID_LIST),
        case(
            "one tick centred between -1 and 1",
            &["H 2 0 0 0 1 0 -1 0 1 100 0 0\nW 1 1\n"],
            "W 2 -1 0 1 1 -1 0 1 1\nP -1 0 1 1\n",
        ),
        case(
            "a wrapped row that is just full",
            &[WRAPPED, "W 320 100\nW 320 100\n"],
            "W 2 0 0 320 100 0 0 320 100\nW 3 320 0 640 100 320 0 640 100\nP 0 0 640 100\n",
        ),
        case(
            "one tick too many for the row",
            &[WRAPPED, "W 320 100\nW 321 100\n"],
            "W 2 0 0 320 100 0 0 320 100\nW 3 0 100 321 200 0 100 321 200\nP 0 0 321 200\n",
        ),
        case(
            "a control as wide as the domain",
            &["H 0 0 1 0 0 0 0 0 6400 3200 0 0\nW 2097152 0\n"],
            "W 2 0 0 2097152 0 0 0 2097152 0\nP 0 0 2097152 0\n",
        ),
        case(
            "the same, spacing 1",
            &["H 0 0 1 0 0 0 0 0 6400 3200 1 0\nW 2097152 0\n"],
            "X 9 2\n",
        ),
        case(
            "a grid on direction 1",
            &["H 1 0 1 0 0 0 0 0 6400 3200 256 128\nG 0 0 _ _ _ 0\n"],
            "X 7 2\n",
        ),
        case(
            "the 33rd W in a row",
            &[HEADING, "G 0 0 _ _ _ 0\n", &grid_row_32, "W 0 0\n"],
            "X 8 35\n",
        ),
        case("512 records", &[&row_ends(511)], "P 0 0 0 0\n"),
    ]
}

/// Other refusals, and their order.
fn refused() -> Vec<Case> {
    let limit = "H 0 0 1 0 0 0 2097120 0 2097120 0 0 0\nG 1 0 _ _ _ 0\n";
    let grid_row_32 = "W 0 0\n".repeat(32);
    vec![
        case("a W with one field", &[HEADING, "W 640\n"], "X 1 2\n"),
        case("an empty sheet", &[], "X 1 1\n"),
        case("the last LF missing", &[HEADING, "E\nE"], "X 1 3\n"),
        case("no H", &["W 640 320\n"], "X 1 1\n"),
        case("H and 512 E", &[&row_ends(MOST_RECORDS)], "X 2 513\n"),
        case(
            "a byte after 512 records",
            &[&row_ends(511), "E"],
            "X 2 513\n",
        ),
        case(
            "a fault in record 512, and one more",
            &[&row_ends(510), "W 1\nE\n"],
            "X 1 512\n",
        ),
        case("a negative W", &[HEADING, "W -1 0\n"], "X 6 2\n"),
        case(
            "an inside-out max_rect",
            &["H 0 0 1 0 0 0 1 0 0 0 0 0\n"],
            "X 6 1\n",
        ),
        case("a negative L", &[HEADING, "L -1\n"], "X 6 2\n"),
        case("S in a grid", &[HEADING, "G 0 0 _ _ _ 0\nS 0\n"], "X 7 3\n"),
        case(
            "a W at row 128",
            &[HEADING, "G 0 0 _ _ _ 127\nE\nW 0 0\n"],
            "X 8 4\n",
        ),
        case(
            "an end of row at row 128",
            &[HEADING, "G 0 0 _ _ _ 127\nE\nE\n"],
            "X 8 4\n",
        ),
        case(
            "8 before 9 in one record",
            &[limit, &grid_row_32, "W 1 0\n"],
            "X 8 35\n",
        ),
        case(
            "wrap, main justify, main align 1",
            &["H 0 1 1 1 0 0 0 0 6400 3200 256 128\n"],
            "X 9 1\n",
        ),
    ]
}

/// Accepted sheets at the corners of the rules.
fn accepted() -> Vec<Case> {
    vec![
        case(
            "an end of row at row 127",
            &[HEADING, "G 0 0 _ _ _ 127\nE\n"],
            "P 0 0 0 0\n",
        ),
        case(
            "skipped rows",
            &[HEADING, "G 0 0 _ _ _ 2\nW 5 7\n"],
            "W 3 0 0 5 7 0 0 5 7\nP 0 0 5 7\nC 0 5\nD 0 0\nD 1 0\nD 2 7\n",
        ),
        case(
            "a grid without W",
            &[HEADING, "G 320 160 _ _ 3 0\nE\n"],
            "P 0 0 0 0\n",
        ),
        case(
            "N and T of 0 or less",
            &[HEADING, "N 0\nT -5\n"],
            "P 0 0 0 0\n",
        ),
        case(
            "a NaN on the way",
            &["H 1 1 2 1 0 0 0 0 0 0 0 1\nE\nN 1\n"],
            "P 0 0 0 0\n",
        ),
    ]
}

pub fn cases() -> Vec<Case> {
    [
        settled(),
        refused(),
        accepted(),
        corners(),
        plates(),
        metric(),
    ]
    .into_iter()
    .flatten()
    .collect()
}

/// The reference beside them.
pub fn compare(t: &mut Tally) {
    let differences = t.differences;
    let cases = cases();
    for case in &cases {
        let lists = [list(&case.text).bytes, case.list.clone()].map(Bytes);
        let [listed, settled] = &lists;
        t.agree_as(NAME, case.name, ["Rust", "hand"], [listed, settled]);
    }
    let (count, differ) = (cases.len(), t.differences - differences);
    say!(t, "{NAME}: {count} cases, {differ} differ");
}
