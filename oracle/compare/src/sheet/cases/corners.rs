//! Sheets that tell a rule from one that is nearly it, by a corner that drawn sheets seldom meet. Their lists are those
//! that a program gives which was written from RULES alone.

use super::{Case, case};

/// Everything 0: no room, no spacing.
const ZEROS: &str = "H 0 0 0 0 0 0 0 0 0 0 0 0\n";

/// What is refused as a record's form (RULES 6.6 to 6.9, 8.6).
fn malformed() -> Vec<Case> {
    let h = |layout: &str| format!("H {layout} 0 0 0 0 0 0\n");
    let range = [
        ("direction 4", "4 0 0 0 0 0"),
        ("direction -1", "-1 0 0 0 0 0"),
        ("wrap 2", "0 2 0 0 0 0"),
        ("main align 3", "0 0 3 0 0 0"),
        ("main justify 2", "0 0 0 2 0 0"),
        ("cross align 3", "0 0 0 0 3 0"),
        ("cross justify 2", "0 0 0 0 0 2"),
    ];
    let mut cases: Vec<Case> = range
        .into_iter()
        .map(|(name, layout)| case(name, &[&h(layout)], "X 1 1\n"))
        .collect();
    cases.push(case(
        "a blank edge of max_rect",
        &["H 0 0 0 0 0 0 _ 0 0 0 0 0\n"],
        "X 1 1\n",
    ));
    for (name, grid) in [
        ("no columns, by name", "G 0 0 _ _ 0 0\n"),
        ("a start row of 128", "G 0 0 _ _ _ 128\n"),
        ("a start row of -1", "G 0 0 _ _ _ -1\n"),
    ] {
        cases.push(case(name, &[ZEROS, grid], "X 1 2\n"));
    }
    cases
}

/// Negative lengths, and their order (RULES 8.2, 8.10).
fn negative() -> Vec<Case> {
    vec![
        case("a negative K", &[ZEROS, "K -3\n"], "X 6 2\n"),
        case("a negative R", &[ZEROS, "R -300\n"], "P 0 0 0 0\n"),
        case(
            "a negative minimum cell",
            &[ZEROS, "G -1 0 _ _ _ 0\n"],
            "X 6 2\n",
        ),
        case(
            "6 before 7 at G",
            &["H 1 0 0 0 0 0 0 0 0 0 0 0\nG -1 0 _ _ _ 0\n"],
            "X 6 2\n",
        ),
    ]
}

/// 9 at each record that can get it (RULES 7.1, 8.13); W has it elsewhere.
fn outside() -> Vec<Case> {
    let low = "H 0 0 0 0 1 0 5 2097152 5 2097152 0 0\n";
    let right = "H 2 0 0 0 1 0 2097152 5 2097152 5 0 0\n";
    vec![
        case(
            "the second pass refused",
            &[ZEROS, "G 0 0 _ _ _ 0\nW 2000000 0\nW 200000 0\n"],
            "X 9 4\n",
        ),
        case(
            "9 at E",
            &["H 0 1 0 0 0 0 0 2097152 0 2097152 0 1\nE\n"],
            "X 9 2\n",
        ),
        case(
            "9 at E in a grid",
            &["H 0 0 0 0 0 0 0 2097152 0 2097152 0 0\nG 0 1 _ _ _ 0\nE\n"],
            "X 9 3\n",
        ),
        case(
            "9 at R",
            &["H 0 1 0 0 0 0 0 1 0 1 0 0\nR 2097152\n"],
            "X 9 2\n",
        ),
        case("9 at L", &[right, "L 2\n"], "X 9 2\n"),
        case("9 at K", &[low, "K 2\n"], "X 9 2\n"),
        case("9 at N", &[right, "N 2\n"], "X 9 2\n"),
        case("9 at T", &[low, "T 2\n"], "X 9 2\n"),
        case(
            "a new row is open to the left (RULES 2.14)",
            &["H 1 1 2 1 2 1 -33 5 -32 6 -32 -1\nS 32\nW 65 32\n"],
            "X 9 3\n",
        ),
    ]
}

/// What the records leave for the next one.
fn carried() -> Vec<Case> {
    vec![
        case(
            "T grows the cursor (RULES 2.8)",
            &["H 0 0 0 0 1 0 0 0 0 0 0 0\nT 700\nW 0 0\n"],
            "W 3 0 0 0 700 0 350 0 350\nP 0 0 0 700\n",
        ),
        case(
            "T grows max_rect (RULES 2.8)",
            &["H 0 0 0 0 2 0 0 5 0 69 0 0\nT 65\nW 0 0\n"],
            "W 3 0 70 0 70 0 70 0 70\nP 0 70 0 70\n",
        ),
        case(
            "rectangles that touch intersect (RULES 1.11)",
            &["H 2 1 0 0 0 0 0 0 0 0 0 0\nW 65 0\nW 32 64\nW 0 150\n"],
            "W 2 0 0 65 0 0 0 65 0\nW 3 0 0 32 64 0 0 32 64\nW 4 65 0 65 150 65 0 65 150\nP 0 0 65 150\n",
        ),
        case(
            "a NaN after an R (RULES 2.26)",
            &["H 1 1 2 1 1 0 0 0 0 0 0 0\nR 700\nL 0\n"],
            "P 0 0 0 0\n",
        ),
        case(
            "R in a grid (RULES 4.15)",
            &["H 0 1 0 0 1 0 0 0 0 135 0 0\nG 0 0 _ 0 2 0\nR 0\nT 33\nW 1 1\n"],
            "W 5 0 0 1 1 0 0 1 1\nP 0 0 1 1\nC 0 1\nD 0 1\n",
        ),
        case(
            "K in a grid (RULES 4.17)",
            &["H 2 0 1 1 0 0 0 0 0 639 0 0\nG 0 0 0 0 2 0\nK 0\nT 65\nW 1 1\n"],
            "W 5 0 320 1 321 0 320 1 321\nP 0 320 1 321\nC 0 1\nD 0 1\n",
        ),
        case(
            "a row that starts again is open (RULES 2.22)",
            &["H 1 1 2 0 1 0 0 0 33 64 32 8\nL 1\nW 300 64\nW 64 300\nW 2 32\n"],
            "W 3 -267 0 33 64 -267 0 33 64\nW 4 -31 72 33 372 -31 72 33 372\nW 5 -65 72 -63 372 -65 206 -63 238\nP -267 0 33 372\n",
        ),
    ]
}

pub fn corners() -> Vec<Case> {
    [malformed(), negative(), outside(), carried()]
        .into_iter()
        .flatten()
        .collect()
}
