/// RULES 1.3.
pub trait NumExt: Sized {
    #[must_use]
    fn at_least(self, lower: Self) -> Self;

    #[must_use]
    fn at_most(self, upper: Self) -> Self;
}

/// RULES 1.3, by Rust's own, which leave open which zero comes out of +0 and -0.
impl NumExt for f32 {
    fn at_least(self, lower: Self) -> Self {
        self.max(lower)
    }

    fn at_most(self, upper: Self) -> Self {
        self.min(upper)
    }
}

/// For the counts of grid.rs.
impl NumExt for usize {
    fn at_least(self, lower: Self) -> Self {
        self.max(lower)
    }

    fn at_most(self, upper: Self) -> Self {
        self.min(upper)
    }
}

/// RULES 1.6.
pub fn fast_midpoint(a: f32, b: f32) -> f32 {
    0.5 * (a + b)
}
