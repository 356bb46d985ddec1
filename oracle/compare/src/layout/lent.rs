//! Sequences of the lent calls: a region is lent to `advance_cursor`, then to `end_row`, and so on.
//! Each side keeps its own region through a sequence. After every call the number and the whole
//! region are compared; a refused call leaves every bit as it was, and the sequence goes on.

use egui::layout::driver;
use packing::{Counts, Lengths, Packed};

use super::regions::moved;
use super::states::Draw;
use super::{layout, of_state, pair};
use crate::answers::{self, Expected, Operation};
use crate::faults::of_lengths;
use crate::rng::Rng;
use crate::tally::{Answer, Shown, Tally, say};
use crate::values::{Fields, State, Values};

const SEQUENCES: u64 = 100_000;
/// Each is one `advance_cursor` and one `end_row`.
const TURNS: u32 = 8;

// It takes whole arrays only, reads and writes no more than those, and ends: that is proved there, so
// the call is safe.
unsafe extern "C" {
    safe fn lent_edit(
        lengths: &Lengths,
        counts: &Counts,
        numbers: &mut [u8; 2],
        advanced: &mut Lengths,
        ended: &mut Lengths,
    );
}

fn edit(l: &Fields, region: &State, amount: f32, spacing: &[f32; 2]) -> [Answer<State>; 2] {
    let mut given = of_state(l, region);
    given.put_length(amount).put_item_spacing(spacing);
    let mut numbers = [u8::MAX; 2];
    let (mut advanced, mut ended) = (Packed::untouched(), Packed::untouched());
    lent_edit(
        &given.lengths,
        &given.counts,
        &mut numbers,
        &mut advanced.lengths,
        &mut ended.lengths,
    );
    let [first, second] = numbers;
    [(first, advanced), (second, ended)].map(|(number, out)| Answer {
        number,
        value: out.region(),
    })
}

/// One of the two calls: its name, and how often each number was expected of it.
struct Call {
    name: &'static str,
    counts: answers::Counts,
}

impl Call {
    fn new(name: &'static str) -> Self {
        let counts = answers::Counts::default();
        Self { name, counts }
    }

    fn judge(&self, t: &mut Tally) {
        let operation = Operation {
            name: self.name,
            thousands: 0,
            numbers: &[4, 5, 6, 9],
        };
        say!(t, "{}", self.name);
        t.judge(&operation, &self.counts);
    }
}

/// The two sides' regions, in the midst of a sequence.
struct Sequence<'a> {
    t: &'a mut Tally,
    ours: State,
    theirs: State,
    /// Calls after a refused one: there a region that was moved all the same would show.
    after_refusal: u64,
    refused: bool,
}

impl Sequence<'_> {
    /// One call's answers; false where they differ.
    fn step(
        &mut self,
        call: &Call,
        case: &impl Shown,
        ours: &Answer<State>,
        theirs: &Expected<State>,
    ) -> bool {
        call.counts.note(theirs);
        let mut expected = theirs.answer();
        self.theirs = expected.value;
        self.after_refusal += u64::from(self.refused);
        self.refused = expected.number != 0;
        if self.refused {
            // The sign of a zero is the port's own, and it may not change either.
            expected.value = self.ours;
        }
        self.ours = ours.value;
        self.t.agree(call.name, case, ours, &expected)
    }

    /// Both calls; false where one of them differs.
    fn turn(&mut self, calls: &[Call; 2], d: &mut Draw<'_>) -> bool {
        let (mut amount, mut spacing) = (amount(d), d.spacing());
        if d.v.rng.one_in(2) {
            d.spoil(&mut [std::slice::from_mut(&mut amount), &mut spacing]);
        }
        let (l, rust) = (d.l, layout(&d.l));
        let [advanced, ended] = edit(&l, &self.ours, amount, &spacing);
        let new = driver::advance_cursor(rust, &self.theirs, amount);
        let expected = moved(l[0], of_lengths(&[amount]), &self.theirs, new);
        let case = (l, self.ours, amount);
        if !self.step(&calls[0], &case, &advanced, &expected) {
            return false;
        }
        let new = driver::end_row(rust, &self.theirs, pair(&spacing));
        let expected = moved(l[0], of_lengths(&spacing), &self.theirs, new);
        let case = (l, self.ours, spacing);
        self.step(&calls[1], &case, &ended, &expected)
    }
}

fn amount(d: &mut Draw<'_>) -> f32 {
    match d.v.rng.below(6) {
        0 => 0.0,
        1..=3 => d.v.ticks(256),
        4 => d.length() / 8.0,
        _ => d.length(),
    }
}

fn first_region(d: &mut Draw<'_>) -> State {
    let mut state = d.state();
    if d.v.rng.one_in(8) {
        d.open_wrongly(&mut state[8..]);
        d.spoil(&mut [&mut state]);
    }
    state
}

pub fn compare(t: &mut Tally) {
    const NAME: &str = "lent calls, sequences";
    let (cases, differences) = (t.cases, t.differences);
    let calls = [
        Call::new("advance_cursor, lent"),
        Call::new("end_row, lent"),
    ];
    let mut values = Values::new(Rng::new(t.seed, NAME));
    let sequences = SEQUENCES * t.times;
    let mut after_refusal = 0;
    for _ in 0..sequences {
        let mut d = Draw::new(&mut values);
        let state = first_region(&mut d);
        let mut sequence = Sequence {
            t,
            ours: state,
            theirs: state,
            after_refusal: 0,
            refused: false,
        };
        let mut left = 1 + d.v.rng.below(TURNS);
        while left > 0 && sequence.turn(&calls, &mut d) {
            left -= 1;
        }
        after_refusal += sequence.after_refusal;
    }
    let (compared, differ) = (t.cases - cases, t.differences - differences);
    say!(
        t,
        "{NAME}: {compared} cases in {sequences} sequences, {differ} differ"
    );
    say!(t, "  after a refused call {after_refusal}");
    for call in &calls {
        call.judge(t);
    }
    if after_refusal == 0 {
        t.lacking("lent calls: none came after a refused one");
    }
}
