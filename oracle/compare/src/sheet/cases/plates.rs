//! Sheets whose plate tells the frames' rectangle from others (RULES 6.19): min_rect, one that begins at 0 0, one of the
//! controls, or one of some of the frames. Their lists are worked out by hand.

use super::{Case, case};

/// Room for 640 by 640 from 0 0, no spacing.
const ROOM: &str = "H 0 0 0 0 0 0 0 0 640 640 0 0\n";

/// The same, cross align 1.
const CENTRED: &str = "H 0 0 0 0 1 0 0 0 640 640 0 0\n";

const GRID: &str = "G 0 0 _ _ _ 0\n";

/// What only min_rect has: its start, N, T, and a row that was ended.
fn not_min_rect() -> Vec<Case> {
    vec![
        case(
            "N wider than the controls",
            &[ROOM, "N 300\nW 10 10\n"],
            "W 3 0 0 10 10 0 0 10 10\nP 0 0 10 10\n",
        ),
        case(
            "T after the control",
            &[ROOM, "W 10 10\nT 300\n"],
            "W 2 0 0 10 10 0 0 10 10\nP 0 0 10 10\n",
        ),
        case(
            "a gap before the first control",
            &[ROOM, "S 20\nW 10 10\n"],
            "W 3 20 0 30 10 20 0 30 10\nP 20 0 30 10\n",
        ),
        case(
            "a centred grid",
            &[CENTRED, GRID, "W 10 10\n"],
            "W 3 0 0 10 10 0 0 10 10\nP 0 0 10 10\nC 0 10\nD 0 10\n",
        ),
        case(
            "a centred row, whose frame fills the height",
            &[CENTRED, "W 10 10\n"],
            "W 2 0 0 10 640 0 315 10 325\nP 0 0 10 640\n",
        ),
        case(
            "a wrapped row, ended before the first control",
            &["H 0 1 0 0 0 0 0 0 640 640 0 5\nE\nW 10 10\n"],
            "W 3 0 645 10 655 0 645 10 655\nP 0 645 10 655\n",
        ),
    ]
}

/// Where no frame is at 0 0, or there is none.
fn elsewhere() -> Vec<Case> {
    vec![
        case(
            "left of 0 and above it",
            &["H 0 0 0 0 0 0 -500 -300 640 640 0 0\nW 10 20\n"],
            "W 2 -500 -300 -490 -280 -500 -300 -490 -280\nP -500 -300 -490 -280\n",
        ),
        case(
            "right of 0 and below it",
            &["H 0 0 0 0 0 0 100 100 640 640 0 0\nW 10 20\n"],
            "W 2 100 100 110 120 100 100 110 120\nP 100 100 110 120\n",
        ),
        case(
            "no control, and room elsewhere",
            &["H 0 0 0 0 0 0 100 100 640 640 0 0\nE\n"],
            "P 0 0 0 0\n",
        ),
        case(
            "no control in a grid, and room elsewhere",
            &["H 0 0 0 0 0 0 100 100 640 640 0 0\n", GRID, "E\n"],
            "P 0 0 0 0\n",
        ),
        case(
            "min_rect is held to the limit",
            &["H 0 0 0 0 0 0 2097152 0 2097152 0 0 0\nN 1\n"],
            "X 9 2\n",
        ),
    ]
}

/// Every frame counts, and its edges, not the control's.
fn every_frame() -> Vec<Case> {
    vec![
        case(
            "a frame of no size, last",
            &["H 0 0 0 0 0 0 0 0 640 640 10 0\nW 5 5\nW 0 0\n"],
            "W 2 0 0 5 5 0 0 5 5\nW 3 15 0 15 0 15 0 15 0\nP 0 0 15 5\n",
        ),
        case(
            "a frame of no size, first",
            &["H 0 0 0 0 0 0 0 0 640 640 10 0\nW 0 0\nW 5 5\n"],
            "W 2 0 0 0 0 0 0 0 0\nW 3 10 0 15 5 10 0 15 5\nP 0 0 15 5\n",
        ),
        case(
            "a frame of no width in the first column",
            &[ROOM, GRID, "W 0 4\nW 5 5\n"],
            "W 3 0 0 0 5 0 1 0 5\nW 4 0 0 5 5 0 0 5 5\nP 0 0 5 5\nC 0 0\nC 1 5\nD 0 5\n",
        ),
        case(
            "leftward, where each frame is a new left edge",
            &["H 1 0 0 0 0 0 0 0 640 640 10 0\nW 20 30\nW 5 40\n"],
            "W 2 620 0 640 30 620 0 640 30\nW 3 605 0 610 40 605 0 610 40\nP 605 0 640 40\n",
        ),
        case(
            "a control smaller than its cell",
            &[ROOM, "G 50 60 _ _ _ 0\nW 10 10\n"],
            "W 3 0 0 50 60 0 25 10 35\nP 0 0 50 60\nC 0 50\nD 0 60\n",
        ),
    ]
}

pub fn plates() -> Vec<Case> {
    [not_min_rect(), elsewhere(), every_frame()]
        .into_iter()
        .flatten()
        .collect()
}
