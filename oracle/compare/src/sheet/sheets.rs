//! Whole sheets, well-formed and damaged: what the check makes of each, and every record in it.

use super::answers::{Checked, HeadingRead, RecordRead};
use super::counts::Counts;
use super::damage::damage;
use super::reference::{self, Heading, MOST_RECORDS, PLACES, Unit, lines};
use super::{probe, texts};
use crate::rng::Rng;
use crate::tally::{Shown, Tally, say};

const SHEETS: &str = "sheet_check";
const RECORDS: &str = "record_read";
const HEADINGS: &str = "heading_read";

const THOUSANDS: u64 = 1_200;

/// The kinds of step, as record_read numbers them.
const RECORD_KINDS: [&str; 9] = ["none", "W", "S", "R", "L", "K", "N", "T", "E"];

/// The units of a W, as heading_read numbers them.
const UNITS: [Unit; 2] = [Unit::Ticks, Unit::Hundredths];
const READ_IN: [&str; 2] = ["in ticks, at", "in hundredths, at"];

/// How often each kind was read, by unit.
type RecordKinds = [[u64; RECORD_KINDS.len()]; UNITS.len()];

/// The kinds of heading: the record at fault, or none.
const HEADING_KINDS: [&str; 8] = [
    "H alone",
    "H and G",
    "H and M",
    "H, M and G",
    "fault at H",
    "fault at M",
    "fault at G",
    "fault at G after M",
];

/// A text, and the places lent or where the record starts.
struct Case<'a>(&'a [u8], &'a str, usize);

impl Shown for Case<'_> {
    fn show(&self) -> String {
        let Self(text, words, n) = self;
        format!("\"{}\", {words} {n}", text.escape_ascii())
    }
}

/// As many places as the W need, most often; else too few, or more.
fn room(rng: &mut Rng, need: usize) -> usize {
    match rng.below(12) {
        0 => need.saturating_sub(1),
        1 => rng.below(need as u32 + 1) as usize,
        2 => 0,
        3 => need + 1 + rng.below(64) as usize,
        4 => PLACES * MOST_RECORDS,
        5 => usize::MAX - rng.below(2) as usize,
        _ => need,
    }
}

/// Anywhere in a text, right after it, or as far as numbers go.
fn offset(rng: &mut Rng, len: usize) -> usize {
    match rng.below(8) {
        0 => len + rng.below(3) as usize,
        1 => usize::MAX - rng.below(100) as usize,
        _ => rng.below(len as u32 + 1) as usize,
    }
}

/// Reads a record on both sides.
fn read(t: &mut Tally, text: &[u8], unit: Unit, at: usize, kinds: &mut RecordKinds) {
    let ours = probe::read_record(text, unit, at);
    let theirs = RecordRead::from(reference::record_at(text, unit, at));
    kinds[unit as usize][usize::from(theirs.kind)] += 1;
    let case = Case(text, READ_IN[unit as usize], at);
    t.agree(RECORDS, &case, &ours, &theirs);
}

/// Its place among the kinds.
fn heading_kind(heading: &Result<Heading, usize>, unit: Unit) -> usize {
    match (heading, unit) {
        (Ok(heading), _) => 2 * heading.unit as usize + usize::from(heading.grid),
        (Err(1), _) => 4,
        (Err(2), Unit::Hundredths) => 5,
        (Err(2), Unit::Ticks) => 6,
        (Err(_), _) => 7,
    }
}

/// Reads the heading on both sides.
fn read_heading(t: &mut Tally, text: &[u8], kinds: &mut [u64; HEADING_KINDS.len()]) {
    let ours = probe::read_heading(text);
    let heading = reference::heading(text);
    kinds[heading_kind(&heading, reference::unit(text))] += 1;
    let theirs = HeadingRead::from(heading);
    t.agree(HEADINGS, &Case(text, "from", 0), &ours, &theirs);
}

/// How many there were of each kind, of which none may be lacking.
fn show_kinds(t: &mut Tally, what: &str, kinds: &[&str], counts: &[u64]) {
    let shown = kinds.iter().zip(counts);
    let shown = shown.map(|(words, count)| format!("{words}: {count}"));
    say!(t, "  {what}: {}", shown.collect::<Vec<_>>().join(", "));
    for (words, &count) in kinds.iter().zip(counts) {
        if count == 0 {
            t.lacking(&format!("{what} read as {words}"));
        }
    }
}

pub fn compare(t: &mut Tally) {
    let mut rng = Rng::new(t.seed, SHEETS);
    let mut counts = Counts::new();
    let mut kinds = RecordKinds::default();
    let mut headings = [0; HEADING_KINDS.len()];
    let (mut sheets_differ, mut headings_differ, mut records_differ) = (0, 0, 0);
    let sheets = THOUSANDS * 1_000 * t.times;
    for _ in 0..sheets {
        let mut drawn = texts::sheet(&mut rng);
        let damaged = if rng.one_in(2) {
            damage(&mut rng, &mut drawn)
        } else {
            None
        };
        let text = drawn.concat();
        let widgets = lines(&text).filter(|line| line[0] == b'W').count();
        let room = room(&mut rng, PLACES * widgets);

        let before = t.differences;
        let ours = probe::check(&text, room);
        let theirs = Checked::from(reference::check(&text, room));
        counts.note_text(&damaged, theirs.number);
        counts.note_corners(&text, widgets, room, (theirs.number, theirs.counts[0]));
        t.agree(SHEETS, &Case(&text, "room", room), &ours, &theirs);
        sheets_differ += t.differences - before;

        let before = t.differences;
        read_heading(t, &text, &mut headings);
        headings_differ += t.differences - before;

        let before = t.differences;
        let (unit, mut at) = (reference::unit(&text), 0);
        for line in lines(&text) {
            read(t, &text, unit, at, &mut kinds);
            at += line.len();
        }
        for unit in UNITS {
            let at = offset(&mut rng, text.len());
            read(t, &text, unit, at, &mut kinds);
        }
        records_differ += t.differences - before;
    }
    say!(t, "{SHEETS}: {sheets} cases, {sheets_differ} differ");
    counts.show_numbers(t);
    say!(t, "{HEADINGS}: {sheets} cases, {headings_differ} differ");
    show_kinds(t, "headings", &HEADING_KINDS, &headings);
    let records = kinds.iter().flatten().sum::<u64>();
    say!(t, "{RECORDS}: {records} cases, {records_differ} differ");
    let [ticks, hundredths] = &kinds;
    show_kinds(t, "records in ticks", &RECORD_KINDS, ticks);
    show_kinds(t, "records in hundredths", &RECORD_KINDS, hundredths);
    counts.show_damage(t);
}
