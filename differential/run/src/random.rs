//! A stream of random numbers that depends on its seed alone.
pub struct Random(pub u64);

impl Random {
    pub fn next(&mut self) -> u64 {
        self.0 = self.0.wrapping_add(0x9e37_79b9_7f4a_7c15);
        let mut z = self.0;
        z = (z ^ (z >> 30)).wrapping_mul(0xbf58_476d_1ce4_e5b9);
        z = (z ^ (z >> 27)).wrapping_mul(0x94d0_49bb_1331_11eb);
        z ^ (z >> 31)
    }
    /// From 0 up to n, n not included.
    pub fn below(&mut self, n: usize) -> usize {
        (self.next() % n as u64) as usize
    }
    /// True once in n times.
    pub fn once_in(&mut self, n: usize) -> bool {
        self.below(n) == 0
    }
    pub fn unit(&mut self) -> f64 {
        (self.next() >> 11) as f64 / (1u64 << 53) as f64
    }
    pub fn within(&mut self, low: f64, high: f64) -> f64 {
        low + (high - low) * self.unit()
    }
    /// Evenly in the logarithm.
    pub fn spread(&mut self, low: f64, high: f64) -> f64 {
        (low * (high / low).powf(self.unit())).clamp(low, high)
    }
    pub fn one_of<T: Copy>(&mut self, list: &[T]) -> T {
        list[self.below(list.len())]
    }
    pub fn bits(&mut self) -> f64 {
        f64::from_bits(self.next())
    }
    /// The pattern of a NaN: either sign, any payload, quiet or signalling.
    pub fn nan(&mut self) -> u64 {
        let payload = self.next() >> 12;
        let payload = if self.once_in(2) { payload | 1 << 51 } else { payload & !(1 << 51) | 1 };
        self.next() & 1 << 63 | 0x7ff << 52 | payload
    }
    /// The pattern of a place that is lent to be written: arbitrary, every second one a NaN.
    pub fn pattern(&mut self) -> u64 {
        if self.once_in(2) { self.nan() } else { self.next() }
    }
    /// A float that formulas stumble over.
    pub fn odd(&mut self) -> f64 {
        const ODD: [f64; 16] = [
            0.0,
            -0.0,
            1.0,
            -1.0,
            5e-324,
            -5e-324,
            f64::MIN_POSITIVE,
            f64::MAX,
            f64::MIN,
            f64::INFINITY,
            f64::NEG_INFINITY,
            f64::NAN,
            3.0,
            4.0,
            32.0,
            1e-300,
        ];
        if self.once_in(4) { self.bits() } else { self.one_of(&ODD) }
    }
}
