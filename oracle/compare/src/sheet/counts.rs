//! How often each number, each kind of damage and each corner was met.

use std::cell::Cell;

use super::damage::{Fate, Hit, KINDS, Kind};
use super::reference::{MOST_RECORDS, PLACES, Unit, grid_line, lines, record_at, unit};
use super::texts::FIELDS;
use crate::tally::{Tally, say};

/// Shows what was counted, and what is lacking.
pub fn show(t: &mut Tally, name: &str, words: &[&str], counts: &[Cell<u64>]) {
    let shown = words.iter().zip(counts);
    let shown = shown.map(|(words, count)| format!("{words} {}", count.get()));
    say!(t, "  {}", shown.collect::<Vec<_>>().join(", "));
    for (words, count) in words.iter().zip(counts) {
        if count.get() == 0 {
            t.lacking(&format!("{name}: {words}"));
        }
    }
}

pub fn note(count: &Cell<u64>, met: bool) {
    count.set(count.get() + u64::from(met));
}

/// The sheets of one kind of damage.
#[derive(Default)]
struct Damaged {
    /// By number, 0 for the accepted.
    numbers: [u64; 4],
    fields: [u64; FIELDS],
}

impl Damaged {
    /// A room too short is no matter of the text.
    fn survived(&self) -> u64 {
        self.numbers[0] + self.numbers[3]
    }

    fn judge(&self, kind: &Kind, t: &mut Tally) {
        let words = kind.words;
        let [_, malformed, too_long, _] = self.numbers;
        let survived = self.survived();
        let met = Vec::from_iter(self.fields.iter().filter(|&&n| n != 0));
        let fields = match met.iter().min() {
            Some(least) => format!("; in {} fields, {least} or more each", met.len()),
            None => String::new(),
        };
        say!(
            t,
            "damage: {words}: refused 1: {malformed}, 2: {too_long}; survived {survived}{fields}"
        );
        let (lacks, against) = match kind.fate {
            Fate::Refused => (malformed == 0, survived != 0),
            Fate::TooLong => (too_long == 0, survived + malformed != 0),
            Fate::Either => (malformed == 0 || survived == 0, false),
            Fate::Accepted => (survived == 0, malformed != 0),
        };
        if lacks {
            t.lacking(&format!("{words}: never refused, or never survived"));
        }
        if against {
            t.lacking(&format!(
                "{words}: not refused, or not accepted, as it has to be"
            ));
        }
        if met.len() != kind.fields {
            t.lacking(&format!("{words}: in other fields than it has to be"));
        }
    }
}

const CORNERS: [&str; 19] = [
    "512 records accepted",
    "513 records or more, all good",
    "a fault in record 512 and more after it: 1",
    "512 good records, then a faulty one: 2",
    "512 good records, then a missing LF: 2",
    "as many places as the W need",
    "one place fewer: 3",
    "no place and no W",
    "too few places, and a fault: 1",
    "too few places, and bytes after 512 records: 2",
    "a sheet with G accepted",
    "a sheet without G accepted",
    "a sheet with M and G accepted",
    "a sheet with M and without G accepted",
    "512 records, M among them, accepted",
    "512 good records, M among them, then more: 2",
    "a fault at M: 1",
    "a fault at the G after M: 1",
    "M after M: 1",
];

pub struct Counts {
    numbers: [u64; 4],
    whole: Damaged,
    kinds: Vec<Damaged>,
    corners: [u64; CORNERS.len()],
}

impl Counts {
    pub fn new() -> Self {
        Self {
            numbers: [0; 4],
            whole: Damaged::default(),
            kinds: KINDS.iter().map(|_| Damaged::default()).collect(),
            corners: [0; CORNERS.len()],
        }
    }

    pub fn note_text(&mut self, damage: &Option<(usize, Hit)>, number: u8) {
        let number = usize::from(number);
        self.numbers[number] += 1;
        let damaged = match damage {
            None => &mut self.whole,
            Some((kind, hit)) => {
                let damaged = &mut self.kinds[*kind];
                if let Hit::Field(field) = hit {
                    damaged.fields[*field] += 1;
                }
                damaged
            }
        };
        damaged.numbers[number] += 1;
    }

    /// `widgets` is how many lines start with W.
    pub fn note_corners(&mut self, text: &[u8], widgets: usize, room: usize, at: (u8, usize)) {
        let (number, place) = at;
        let need = PLACES * widgets;
        let (accepted, short) = (number == 0, room < need);
        let full = accepted && place == MOST_RECORDS;
        let at_last = (number, place) == (1, MOST_RECORDS);
        let after = number == 2 || at_last;
        let tail = after.then(|| &text[lines(text).take(MOST_RECORDS).map(<[u8]>::len).sum()..]);
        let tail = tail.unwrap_or_default();
        let is_record = |line| record_at(line, Unit::Ticks, 0).is_some();
        let good = number == 2 && lines(tail).all(is_record);
        let next = lines(tail).next().unwrap_or_default();
        let faulty = number == 2 && !is_record(next);
        let grid = grid_line(text).is_some();
        let metric = unit(text) == Unit::Hundredths;
        let third = lines(text).nth(2).unwrap_or_default();
        let met = [
            full,
            good,
            at_last && !tail.is_empty(),
            faulty,
            faulty && !next.ends_with(b"\n"),
            accepted && widgets != 0 && room == need,
            number == 3 && room + 1 == need,
            accepted && room == 0,
            number == 1 && short,
            number == 2 && short,
            accepted && grid,
            accepted && !grid,
            accepted && metric && grid,
            accepted && metric && !grid,
            metric && full,
            metric && number == 2,
            metric && at == (1, 2),
            metric && grid && at == (1, 3),
            metric && at == (1, 3) && third == b"M\n",
        ];
        for (count, met) in self.corners.iter_mut().zip(met) {
            *count += u64::from(met);
        }
    }

    pub fn show_numbers(&self, t: &mut Tally) {
        let [accepted, one, two, three] = self.numbers;
        say!(
            t,
            "  accepted {accepted}; refused 1: {one}, 2: {two}, 3: {three}"
        );
        if accepted * 3 < self.numbers.iter().sum() {
            t.lacking("sheets: fewer than a third were accepted");
        }
        for (n, count) in self.numbers.iter().enumerate() {
            if *count == 0 {
                t.lacking(&format!("sheets: none with number {n}"));
            }
        }
    }

    pub fn show_damage(&self, t: &mut Tally) {
        let (whole, malformed) = (self.whole.survived(), self.whole.numbers[1]);
        let too_long = self.whole.numbers[2];
        say!(
            t,
            "damage: none: refused 1: {malformed}, 2: {too_long}; survived {whole}"
        );
        if malformed != 0 {
            t.lacking("a well-formed sheet is not refused with 1");
        }
        for (damaged, kind) in self.kinds.iter().zip(&KINDS) {
            damaged.judge(kind, t);
        }
        for (words, count) in CORNERS.iter().zip(self.corners) {
            say!(t, "corner: {words}: {count}");
            if count == 0 {
                t.lacking(words);
            }
        }
    }
}
