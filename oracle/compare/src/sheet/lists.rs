//! Whole lists: every byte that the Rattle prints of a text beside the reference's, and every place
//! of what it prints into.

mod drawing;
mod long;
mod met;

use super::cases::cases;
use super::listing::list;
use super::probe::{self, LIST_ROOM};
use crate::rng::Rng;
use crate::tally::{Same, Shown, Tally, say};
use met::Met;

const NAME: &str = "listing_print";
const SHEETS: u64 = 300_000;

/// The marks are drawn anew after as many sheets.
const MARKED: u64 = 100;

type Room = Box<[u8; LIST_ROOM]>;

/// The length that was answered, all places afterwards, and the marks that they held before.
struct Printed<'a> {
    length: usize,
    out: Room,
    marks: &'a Room,
}

impl<'a> Printed<'a> {
    fn by_rattle(text: &[u8], marks: &'a Room) -> Self {
        let mut out = marks.clone();
        let length = probe::print(text, &mut out);
        Self { length, out, marks }
    }

    fn of(list: &[u8], marks: &'a Room) -> Self {
        let mut out = marks.clone();
        out[..list.len()].copy_from_slice(list);
        let length = list.len();
        Self { length, out, marks }
    }
}

impl Shown for Printed<'_> {
    fn show(&self) -> String {
        let (list, beyond) = self.out.split_at(self.length.min(LIST_ROOM));
        let marks = &self.marks[LIST_ROOM - beyond.len()..];
        let changed = beyond.iter().zip(marks).filter(|(a, b)| a != b).count();
        let length = self.length;
        format!(
            "length {length}, \"{}\", {changed} changed beyond",
            list.escape_ascii()
        )
    }
}

impl Same for Printed<'_> {
    fn same(&self, other: &Self) -> bool {
        self.length == other.length && self.out == other.out
    }
}

/// A text.
struct Sheet<'a>(&'a [u8]);

impl Shown for Sheet<'_> {
    fn show(&self) -> String {
        format!("\"{}\"", self.0.escape_ascii())
    }
}

fn marks(rng: &mut Rng) -> Room {
    let mut marks = Box::new([0; LIST_ROOM]);
    marks.fill_with(|| rng.bits() as u8);
    marks
}

fn compare_list(t: &mut Tally, text: &[u8], list: &[u8], marks: &Room) {
    let ours = Printed::by_rattle(text, marks);
    t.agree(NAME, &Sheet(text), &ours, &Printed::of(list, marks));
}

pub fn compare(t: &mut Tally) {
    let (cases_before, differences) = (t.cases, t.differences);
    let mut rng = Rng::new(t.seed, NAME);
    let mut places = marks(&mut rng);
    for case in cases() {
        compare_list(t, &case.text, &case.list, &places);
    }
    let mut met = Met::new();
    for n in 0..SHEETS * t.times {
        if n % MARKED == 0 {
            places = marks(&mut rng);
        }
        let text = drawing::text(&mut rng);
        let listed = list(&text);
        met.note(&text, &listed);
        compare_list(t, &text, &listed.bytes, &places);
    }
    let (lists, differ) = (t.cases - cases_before, t.differences - differences);
    say!(t, "{NAME}: {lists} cases, {differ} differ");
    if lists < SHEETS {
        t.lacking(&format!("lists: fewer than {SHEETS}"));
    }
    met.show(t);
}
