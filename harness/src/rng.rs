//! The cases' draws: SplitMix64, so that a seed gives the same cases everywhere.

pub struct Rng(u64);

impl Rng {
    pub fn new(seed: u64) -> Self {
        Self(seed)
    }

    pub fn bits(&mut self) -> u64 {
        self.0 = self.0.wrapping_add(0x9E37_79B9_7F4A_7C15);
        let mut z = self.0;
        z = (z ^ (z >> 30)).wrapping_mul(0xBF58_476D_1CE4_E5B9);
        z = (z ^ (z >> 27)).wrapping_mul(0x94D0_49BB_1331_11EB);
        z ^ (z >> 31)
    }

    /// A whole number below `n`.
    pub fn below(&mut self, n: u64) -> u64 {
        (u128::from(self.bits()) * u128::from(n) >> 64) as u64
    }

    /// A whole number from `a` to `b`, both ends drawn.
    pub fn within(&mut self, a: u64, b: u64) -> u64 {
        a + self.below(b - a + 1)
    }

    /// Once in `n` draws.
    pub fn once_in(&mut self, n: u64) -> bool {
        self.below(n) == 0
    }

    pub fn flag(&mut self) -> bool {
        self.once_in(2)
    }

    /// From 0 up to 1.
    pub fn unit(&mut self) -> f64 {
        (self.bits() >> 11) as f64 / (1u64 << 53) as f64
    }

    /// From `a` up to `b`.
    pub fn between(&mut self, a: f64, b: f64) -> f64 {
        a + (b - a) * self.unit()
    }

    pub fn pick<T: Copy>(&mut self, of: &[T]) -> T {
        of[self.below(of.len() as u64) as usize]
    }

    /// Any pattern, the exponents evenly.
    pub fn any_f64(&mut self) -> f64 {
        f64::from_bits(self.bits())
    }

    pub fn any_f32(&mut self) -> f32 {
        f32::from_bits(self.bits() as u32)
    }

    /// From `a` to `b`, both above 0, the exponents evenly.
    pub fn scaled(&mut self, a: f64, b: f64) -> f64 {
        let (lo, hi) = (a.to_bits(), b.to_bits());
        f64::from_bits(self.within(lo, hi))
    }

    /// `v` or one of the floats within 3 places of it.
    pub fn near(&mut self, v: f64) -> f64 {
        let by = self.below(7);
        f64::from_bits(v.to_bits().wrapping_add(by).wrapping_sub(3))
    }
}
