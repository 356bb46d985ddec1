//! A seeded generator, splitmix64: the same seed gives the same cases everywhere.

pub struct Rng(u64);

impl Rng {
    /// Each operation draws from its own sequence, so that a new one leaves the others' cases alone.
    pub fn new(seed: u64, name: &str) -> Self {
        let start = name.bytes().fold(seed, |state, byte| {
            (state ^ u64::from(byte)).wrapping_mul(0x100_0000_01b3)
        });
        Self(start)
    }

    pub fn next(&mut self) -> u64 {
        self.0 = self.0.wrapping_add(0x9e37_79b9_7f4a_7c15);
        let z = (self.0 ^ (self.0 >> 30)).wrapping_mul(0xbf58_476d_1ce4_e5b9);
        let z = (z ^ (z >> 27)).wrapping_mul(0x94d0_49bb_1331_11eb);
        z ^ (z >> 31)
    }

    pub fn bits(&mut self) -> u32 {
        (self.next() >> 32) as u32
    }

    /// From 0 up to and without n; n is small, so the remainder's bias doesn't matter.
    pub fn below(&mut self, n: u32) -> u32 {
        self.bits() % n
    }

    /// From -n to n.
    pub fn about_zero(&mut self, n: i32) -> i32 {
        self.below(2 * n as u32 + 1) as i32 - n
    }

    pub fn one_in(&mut self, n: u32) -> bool {
        self.below(n) == 0
    }

    pub fn pick<T: Copy>(&mut self, from: &[T]) -> T {
        from[self.below(from.len() as u32) as usize]
    }
}
