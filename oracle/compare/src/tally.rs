//! Runs cases, counts them, and shows where the two sides differ.

use crate::rng::Rng;
use crate::values::Values;

/// Like println, into what a part of the comparison has to say.
macro_rules! say {
    ($tally:expr, $($words:tt)+) => {
        $tally.say(&format!($($words)+))
    };
}
pub(crate) use say;

/// Differences of each part that are shown in full; the rest are counted.
const SHOWN: u64 = 10;

/// What goes into an operation or comes out of it.
pub trait Shown {
    /// Values, and the bits of floats.
    fn show(&self) -> String;
}

pub trait Same: Shown {
    /// RULES 1.1: the same bits, but a zero's sign is free; any NaN is any other.
    fn same(&self, other: &Self) -> bool;
}

impl Shown for f32 {
    fn show(&self) -> String {
        format!("{self:?} ({:#010x})", self.to_bits())
    }
}

impl Same for f32 {
    fn same(&self, other: &Self) -> bool {
        let zeros = *self == 0.0 && *other == 0.0;
        self.to_bits() == other.to_bits() || self.is_nan() && other.is_nan() || zeros
    }
}

impl Shown for u8 {
    fn show(&self) -> String {
        self.to_string()
    }
}

impl Same for u8 {
    fn same(&self, other: &Self) -> bool {
        self == other
    }
}

impl Shown for bool {
    fn show(&self) -> String {
        self.to_string()
    }
}

impl Shown for usize {
    fn show(&self) -> String {
        self.to_string()
    }
}

impl Shown for str {
    fn show(&self) -> String {
        self.into()
    }
}

impl Shown for () {
    fn show(&self) -> String {
        "nothing".into()
    }
}

/// Numbers, as a layout's fields.
impl<const N: usize> Shown for [u8; N] {
    fn show(&self) -> String {
        format!("{self:?}")
    }
}

impl<const N: usize> Same for [u8; N] {
    fn same(&self, other: &Self) -> bool {
        self == other
    }
}

impl<const N: usize> Shown for [f32; N] {
    fn show(&self) -> String {
        format!("[{}]", self.map(|x| x.show()).join(", "))
    }
}

impl<const N: usize> Same for [f32; N] {
    fn same(&self, other: &Self) -> bool {
        self.iter().zip(other).all(|(a, b)| a.same(b))
    }
}

impl<A: Shown, B: Shown> Shown for (A, B) {
    fn show(&self) -> String {
        format!("{}, {}", self.0.show(), self.1.show())
    }
}

impl<A: Shown, B: Shown, C: Shown> Shown for (A, B, C) {
    fn show(&self) -> String {
        format!("{}, {}, {}", self.0.show(), self.1.show(), self.2.show())
    }
}

/// What an answer carries.
pub trait Value: Same {
    /// The same, every bit.
    fn identical(&self, other: &Self) -> bool;
}

impl<const N: usize> Value for [f32; N] {
    fn identical(&self, other: &Self) -> bool {
        self.map(f32::to_bits) == other.map(f32::to_bits)
    }
}

/// The answer of a call that can be turned back: its number, and what it carries.
pub struct Answer<V> {
    pub number: u8,
    pub value: V,
}

impl<V> Answer<V> {
    pub fn map<W>(self, of: impl FnOnce(V) -> W) -> Answer<W> {
        Answer {
            number: self.number,
            value: of(self.value),
        }
    }
}

impl<V: Shown> Shown for Answer<V> {
    fn show(&self) -> String {
        format!("number {}, {}", self.number, self.value.show())
    }
}

/// After a refusal the state is the one that was given, so every bit counts.
impl<V: Value> Same for Answer<V> {
    fn same(&self, other: &Self) -> bool {
        let values = if self.number == 0 {
            self.value.same(&other.value)
        } else {
            self.value.identical(&other.value)
        };
        self.number == other.number && values
    }
}

pub struct Tally {
    pub cases: u64,
    pub differences: u64,
    /// What the run should have met and did not.
    pub lacks: u64,
    pub times: u64,
    pub seed: u64,
    /// What there is to show, in whole lines.
    pub said: String,
}

impl Tally {
    pub fn new(seed: u64, times: u64) -> Self {
        Self {
            cases: 0,
            differences: 0,
            lacks: 0,
            times,
            seed,
            said: String::new(),
        }
    }

    pub fn say(&mut self, line: &str) {
        self.said += line;
        self.said.push('\n');
    }

    /// Adds what another part counted.
    pub fn add(&mut self, other: &Self) {
        self.cases += other.cases;
        self.differences += other.differences;
        self.lacks += other.lacks;
    }

    pub fn lacking(&mut self, what: &str) {
        say!(self, "lacking: {what}");
        self.lacks += 1;
    }

    /// Compares on drawn arguments: `thousands` of them in a run of `--times 1`.
    pub fn drawn<I: Shown, T: Same>(
        &mut self,
        name: &str,
        thousands: u64,
        draw: impl Fn(&mut Values) -> I,
        rattle: impl Fn(&I) -> T,
        rust: impl Fn(&I) -> T,
    ) {
        let mut values = Values::new(Rng::new(self.seed, name));
        let cases = (0..thousands * 1_000 * self.times).map(|_| {
            values.begin();
            draw(&mut values)
        });
        self.each(name, cases, rattle, rust);
    }

    /// Compares on the arguments given.
    pub fn each<I: Shown, T: Same>(
        &mut self,
        name: &str,
        cases: impl Iterator<Item = I>,
        rattle: impl Fn(&I) -> T,
        rust: impl Fn(&I) -> T,
    ) {
        let (mut compared, mut differing) = (0_u64, 0_u64);
        for case in cases {
            compared += 1;
            let (ours, theirs) = (rattle(&case), rust(&case));
            differing += u64::from(!self.agree(name, &case, &ours, &theirs));
        }
        say!(self, "{name}: {compared} cases, {differing} differ");
    }

    /// Counts one case, and shows it where the two sides differ.
    pub fn agree<I: Shown + ?Sized, T: Same>(
        &mut self,
        name: &str,
        case: &I,
        ours: &T,
        theirs: &T,
    ) -> bool {
        self.agree_as(name, case, ["Rattle", "Rust"], [ours, theirs])
    }

    /// The same for other sides than the Rattle and the Rust.
    pub fn agree_as<I: Shown + ?Sized, T: Same>(
        &mut self,
        name: &str,
        case: &I,
        sides: [&str; 2],
        [one, other]: [&T; 2],
    ) -> bool {
        self.cases += 1;
        let same = one.same(other);
        self.differences += u64::from(!same);
        if !same && self.differences <= SHOWN {
            say!(self, "differs: {name} of {}", case.show());
            say!(self, "  {:6} {}", sides[0], one.show());
            say!(self, "  {:6} {}", sides[1], other.show());
        }
        same
    }
}
