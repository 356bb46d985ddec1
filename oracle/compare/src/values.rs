//! The arguments that are tried: numbers, pairs, ranges, rectangles, and values to round.

use crate::rng::Rng;

pub type Edges = [f32; 4];

/// A layout's six fields, in the order and with the numbers of RULES 2.2.
pub type Fields = [u8; 6];

/// A region's edges: those of min_rect, max_rect and the cursor.
pub type State = [f32; 12];

/// RULES 5.2.
pub const LIMIT: f32 = 65_536.0;
pub const LIMIT_TICKS: i32 = 2_097_152;
pub const TICKS_PER_POINT: f32 = 32.0;

const SPECIALS: [f32; 16] = [
    0.0,
    -0.0,
    f32::INFINITY,
    f32::NEG_INFINITY,
    f32::NAN,
    f32::from_bits(0xffc0_0000), // a NaN with the sign set
    f32::from_bits(0x7f80_0001), // a signalling NaN
    f32::MAX,
    f32::MIN,
    f32::MIN_POSITIVE,
    -f32::MIN_POSITIVE,
    f32::from_bits(1),           // the least subnormal
    f32::from_bits(0x807f_ffff), // the greatest subnormal, negative
    1.0,
    -1.0,
    f32::EPSILON,
];

/// Where an f32 is whole from here on, or even, for a point or for a tick; and the limit.
const TURNS: [f32; 9] = [
    8_388_608.0,
    16_777_216.0,
    4_194_304.0,
    262_144.0,
    524_288.0,
    131_072.0,
    LIMIT,
    32_768.0,
    0.5,
];

pub struct Values {
    pub rng: Rng,
    /// Only numbers in and about the domain: else nearly every case of many arguments has a NaN.
    tame: bool,
}

impl Values {
    pub fn new(rng: Rng) -> Self {
        Self { rng, tame: false }
    }

    /// To be called before each case.
    pub fn begin(&mut self) {
        self.tame = self.rng.one_in(2);
    }

    pub fn byte(&mut self, below: u32) -> u8 {
        self.rng.below(below) as u8
    }

    /// x, or a float right beside it.
    pub fn beside(&mut self, x: f32) -> f32 {
        match self.rng.below(4) {
            0 => x.next_up(),
            1 => x.next_down(),
            _ => x,
        }
    }

    pub fn either_sign(&mut self, x: f32) -> f32 {
        if self.rng.one_in(2) { x } else { -x }
    }

    pub fn ticks(&mut self, most: i32) -> f32 {
        self.rng.about_zero(most) as f32 / TICKS_PER_POINT
    }

    /// Half, quarter and eighth ticks, and the floats beside them.
    pub fn tick_part(&mut self) -> f32 {
        let most = self.rng.pick(&[64, 4_096, LIMIT_TICKS]);
        let parts = self.rng.pick(&[2.0, 4.0, 8.0]);
        let x = self.rng.about_zero(most) as f32 / (TICKS_PER_POINT * parts);
        self.beside(x)
    }

    /// A random significand, near the size of layouts.
    pub fn middling(&mut self) -> f32 {
        let exponent = 127 - 12 + self.rng.below(30);
        f32::from_bits(self.rng.bits() & 0x807f_ffff | exponent << 23)
    }

    fn huge(&mut self) -> f32 {
        let exponent = 127 + 100 + self.rng.below(28);
        f32::from_bits(self.rng.bits() & 0x807f_ffff | exponent << 23)
    }

    fn turn(&mut self) -> f32 {
        let x = self.rng.pick(&TURNS);
        let x = self.beside(x);
        let x = self.beside(x);
        self.either_sign(x)
    }

    pub fn number(&mut self) -> f32 {
        let kinds = if self.tame { 7 } else { 13 };
        match self.rng.below(kinds) {
            0 => self.ticks(1_024),
            1 => self.ticks(LIMIT_TICKS),
            2 => self.tick_part(),
            3 => self.ticks(8),
            4 => self.middling(),
            5 => {
                let x = self.beside(LIMIT);
                self.either_sign(x)
            }
            6 => self.rng.pick(&[0.0, -0.0]),
            7 => self.turn(),
            8 => f32::from_bits(self.rng.bits() & 0x807f_ffff), // a subnormal
            9 => self.huge(),
            10 | 11 => self.rng.pick(&SPECIALS),
            _ => f32::from_bits(self.rng.bits()),
        }
    }

    /// Two numbers: often equal, neighbours, or opposite, so that ties and cancelling matter.
    pub fn pair(&mut self) -> (f32, f32) {
        let a = self.number();
        let b = match self.rng.below(10) {
            0 | 1 => a,
            2 => -a,
            3 => self.beside(a),
            _ => self.number(),
        };
        if self.rng.one_in(24) {
            return (0.0, -0.0);
        }
        if self.rng.one_in(2) { (a, b) } else { (b, a) }
    }

    /// A low and a high: in order, inside out, equal, straddling zero, or open.
    pub fn range(&mut self) -> (f32, f32) {
        let (a, b) = self.pair();
        match self.rng.below(10) {
            0..=3 => (a.min(b), a.max(b)),
            4 => (a.max(b), a.min(b)),
            5 => (-a.abs(), b.abs()),
            6 => (a, a),
            7 => self.rng.pick(&[
                (a, f32::INFINITY),
                (f32::NEG_INFINITY, a),
                (f32::NEG_INFINITY, f32::INFINITY),
            ]),
            _ => (a, b),
        }
    }

    pub fn rect(&mut self) -> Edges {
        let (left, right) = self.range();
        let (top, bottom) = self.range();
        [left, top, right, bottom]
    }

    /// Two rectangles, the second often with edges of the first: they touch, or share an edge.
    pub fn rects(&mut self) -> (Edges, Edges) {
        let one = self.rect();
        let mut other = self.rect();
        if self.rng.one_in(12) {
            other = one;
        }
        for edge in &mut other {
            if self.rng.one_in(3) {
                *edge = self.rng.pick(&one);
            }
        }
        (one, other)
    }

    /// A size for a range: sometimes the range's own, or infinite.
    pub fn size_for(&mut self, low: f32, high: f32) -> f32 {
        match self.rng.below(8) {
            0 => high - low,
            1 => f32::INFINITY,
            2 | 3 => self.number(),
            _ => self.number().abs(),
        }
    }

    /// What is to be rounded to steps of 1 / per: the middles between two steps and what is beside
    /// them most often, then eighths of a step, 0.49999997 of one, and any number.
    pub fn to_round(&mut self, per: f32) -> f32 {
        let most = self.rng.pick(&[16, 1_024, LIMIT_TICKS, 16_777_216]);
        let steps = self.rng.about_zero(most);
        let x = match self.rng.below(8) {
            0..=2 => (steps as f32 + 0.5) / per,
            3 | 4 => (steps as f32 + self.rng.below(8) as f32 / 8.0) / per,
            5 => {
                let x = 0.499_999_97 / per;
                self.either_sign(x)
            }
            _ => self.number(),
        };
        self.beside(x)
    }
}

/// Every middle between two steps of 1 / per below `most` steps from zero, with both floats beside
/// it, of both signs.
pub fn ties(per: f32, most: u32) -> impl Iterator<Item = f32> {
    (0..most).flat_map(move |steps| {
        let x = (steps as f32 + 0.5) / per;
        [
            x,
            x.next_up(),
            x.next_down(),
            -x,
            -x.next_up(),
            -x.next_down(),
        ]
    })
}
