//! Sheets with M: its place and form, what it changes and what it leaves in ticks (RULES 6.24), and sides at the corners of
//! the conversion (RULES 6.25). Their lists are worked out by hand.

use super::{Case, case, in_columns};

/// Room for 640 by 640 from 0 0, no spacing.
const ROOM: &str = "H 0 0 0 0 0 0 0 0 640 640 0 0\n";

const GRID: &str = "G 0 0 _ _ _ 0\n";

/// Where M stands, and where others stand beside it.
fn places() -> Vec<Case> {
    vec![
        case("M and no step", &[ROOM, "M\n"], "P 0 0 0 0\n"),
        case("M, then G", &[ROOM, "M\n", GRID], "P 0 0 0 0\n"),
        case("M twice", &[ROOM, "M\nM\n"], "X 1 3\n"),
        case("M after G", &[ROOM, GRID, "M\n"], "X 1 3\n"),
        case("M after a W", &[ROOM, "W 1 1\nM\n"], "X 1 3\n"),
        case("M before H", &["M\n", ROOM], "X 1 1\n"),
        case("M alone", &["M\n"], "X 1 1\n"),
        case("G after M and a W", &[ROOM, "M\nW 1 1\n", GRID], "X 1 4\n"),
        case("H again after M", &[ROOM, "M\n", ROOM], "X 1 3\n"),
        case(
            "a malformed G after M",
            &[ROOM, "M\nG 0 0 _ _ 0 0\n"],
            "X 1 3\n",
        ),
    ]
}

/// M is its letter and an LF (RULES 8.6).
fn forms() -> Vec<Case> {
    let lines: [(&'static str, &[u8]); 9] = [
        ("M with a field", b"M       1\n"),
        ("M with a blank field", b"M        \n"),
        ("M and a space", b"M \n"),
        ("M and CR LF", b"M\r\n"),
        ("M without LF, last", b"M"),
        ("M without LF, then a W", b"MW       1       1\n"),
        ("M doubled in its line", b"MM\n"),
        ("m", b"m\n"),
        ("a space before M", b" M\n"),
    ];
    let malformed = |(name, line): (&'static str, &[u8])| Case {
        name,
        text: [&in_columns(ROOM), line].concat(),
        list: in_columns("X 1 2\n"),
    };
    lines.into_iter().map(malformed).collect()
}

/// M is one of the records, and gets no other number than 1.
fn numbered() -> Vec<Case> {
    let row_ends = |n: usize| "E\n".repeat(n);
    vec![
        case(
            "512 records with M",
            &[ROOM, "M\n", &row_ends(510)],
            "P 0 0 0 0\n",
        ),
        case(
            "513 records with M",
            &[ROOM, "M\n", &row_ends(511)],
            "X 2 513\n",
        ),
        case(
            "a grid on direction 3, after M",
            &["H 3 0 0 0 0 0 0 0 640 640 0 0\nM\n", GRID],
            "X 7 3\n",
        ),
        case(
            "an inside-out max_rect, before M",
            &["H 0 0 0 0 0 0 1 0 0 0 0 0\nM\n"],
            "X 6 1\n",
        ),
        case(
            "a negative minimum cell, after M",
            &[ROOM, "M\nG -1 0 _ _ _ 0\n"],
            "X 6 3\n",
        ),
    ]
}

/// The ends of the range, and the sign.
fn ranges() -> Vec<Case> {
    vec![
        case(
            "one hundredth too many",
            &[ROOM, "M\nW 2097153 1\n"],
            "X 1 3\n",
        ),
        case("a blank side with M", &[ROOM, "M\nW 1 _\n"], "X 1 3\n"),
        case(
            "the longest side in hundredths",
            &[ROOM, "M\nW 2097152 1\n"],
            "W 3 0 0 1902299 1 0 0 1902299 1\nP 0 0 1902299 1\n",
        ),
        case(
            "the longest side and a spacing to the limit",
            &["H 0 0 0 0 0 0 0 0 640 640 194853 0\nM\nW 2097152 1\n"],
            "W 3 0 0 1902299 1 0 0 1902299 1\nP 0 0 1902299 1\n",
        ),
        case(
            "the longest side and a tick more of spacing",
            &["H 0 0 0 0 0 0 0 0 640 640 194854 0\nM\nW 2097152 1\n"],
            "X 9 3\n",
        ),
        case(
            "the least side in hundredths",
            &[ROOM, "M\nW -2097152 0\n"],
            "X 6 3\n",
        ),
        case("-1 hundredth", &[ROOM, "M\nW -1 0\n"], "X 6 3\n"),
        case("-1 hundredth of height", &[ROOM, "M\nW 0 -1\n"], "X 6 3\n"),
    ]
}

/// What M does not change: all but the two fields of a W.
fn in_ticks() -> Vec<Case> {
    vec![
        case(
            "the cells of G stay in ticks",
            &[ROOM, "M\nG 635 635 _ _ _ 0\nW 635 1270\n"],
            "W 4 0 0 635 1152 0 0 576 1152\nP 0 0 635 1152\nC 0 635\nD 0 1152\n",
        ),
        case(
            "S stays in ticks",
            &[ROOM, "M\nS 635\nW 635 635\n"],
            "W 4 635 0 1211 576 635 0 1211 576\nP 635 0 1211 576\n",
        ),
        case(
            "the spacing and the edges stay in ticks",
            &["H 0 0 0 0 0 0 635 635 1270 1270 635 0\nM\nW 635 635\nW 635 635\n"],
            "W 3 635 635 1211 1211 635 635 1211 1211\nW 4 1846 635 2422 1211 1846 635 2422 1211\nP 635 635 2422 1211\n",
        ),
        case(
            "T stays in ticks",
            &["H 0 0 0 0 1 0 0 0 0 0 0 0\nM\nT 1270\nW 0 0\n"],
            "W 4 0 0 0 1270 0 635 0 635\nP 0 0 0 1270\n",
        ),
        case(
            "the room of a wrapped row stays in ticks",
            &["H 0 1 0 0 0 0 0 0 1152 640 0 0\nM\nW 635 635\nW 635 635\nW 1 1\n"],
            "W 3 0 0 576 576 0 0 576 576\nW 4 576 0 1152 576 576 0 1152 576\nW 5 0 576 1 577 0 576 1 577\nP 0 0 1152 577\n",
        ),
    ]
}

/// Sides about a tick, and as far from one as can be: 522 hundredths are 473 ticks and 317/635, 113 are 103 ticks less as much.
fn sides() -> Vec<Case> {
    vec![
        case(
            "one hundredth is one tick",
            &[ROOM, "M\nW 1 1\n"],
            "W 3 0 0 1 1 0 0 1 1\nP 0 0 1 1\n",
        ),
        case(
            "no hundredth is no tick",
            &[ROOM, "M\nW 0 0\n"],
            "W 3 0 0 0 0 0 0 0 0\nP 0 0 0 0\n",
        ),
        case(
            "five hundredths are five ticks, six are five too",
            &[ROOM, "M\nW 5 6\n"],
            "W 3 0 0 5 5 0 0 5 5\nP 0 0 5 5\n",
        ),
        case(
            "the farthest above a tick, and below one",
            &[ROOM, "M\nW 522 113\n"],
            "W 3 0 0 473 103 0 0 473 103\nP 0 0 473 103\n",
        ),
        case(
            "beside the farthest",
            &[ROOM, "M\nW 523 112\n"],
            "W 3 0 0 474 102 0 0 474 102\nP 0 0 474 102\n",
        ),
        case(
            "three W at the margin",
            &["H 0 0 0 0 0 0 0 0 640 640 10 0\nM\nW 522 1\nW 522 1\nE\nW 522 1\n"],
            "W 3 0 0 473 1 0 0 473 1\nW 4 483 0 956 1 483 0 956 1\nW 6 966 0 1439 1 966 0 1439 1\nP 0 0 1439 1\n",
        ),
        case(
            "negative spacing, beyond the margin",
            &["H 0 0 0 0 0 0 0 0 640 640 -1152 0\nM\nW 635 1\nW 635 1\n"],
            "W 3 0 0 576 1 0 0 576 1\nW 4 -576 0 0 1 -576 0 0 1\nP -576 0 576 1\n",
        ),
    ]
}

pub fn metric() -> Vec<Case> {
    [places(), forms(), numbered(), ranges(), in_ticks(), sides()]
        .into_iter()
        .flatten()
        .collect()
}
