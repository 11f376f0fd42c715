//! A small random source (splitmix64): the same seed gives the same inputs on every machine.

pub struct Random(u64);

impl Random {
    pub const fn new(seed: u64) -> Self {
        Self(seed)
    }

    /// 64 random bits.
    pub const fn bits(&mut self) -> u64 {
        self.0 = self.0.wrapping_add(0x9e37_79b9_7f4a_7c15);
        let mut z = self.0;
        z = (z ^ (z >> 30)).wrapping_mul(0xbf58_476d_1ce4_e5b9);
        z = (z ^ (z >> 27)).wrapping_mul(0x94d0_49bb_1331_11eb);
        z ^ (z >> 31)
    }

    /// A number under `count`, which is not 0.
    pub const fn below(&mut self, count: usize) -> usize {
        ((self.bits() as u128 * count as u128) >> 64) as usize
    }

    /// A value from `low` to under `high` (rounding may reach it), every part of the span alike.
    pub fn span(&mut self, low: f64, high: f64) -> f64 {
        let unit = (self.bits() >> 11) as f64 / (1_u64 << 53) as f64;
        low + (high - low) * unit
    }

    /// A value from `low` to `high`, both above 0, every bit pattern between them alike.
    pub const fn scale(&mut self, low: f64, high: f64) -> f64 {
        let apart = high.to_bits() - low.to_bits();
        f64::from_bits(low.to_bits() + self.below(apart as usize + 1) as u64)
    }

    /// Any bit pattern as a value.
    pub const fn pattern(&mut self) -> f64 {
        f64::from_bits(self.bits())
    }

    /// `x` up to `most` values further up or down.
    pub fn beside(&mut self, x: f64, most: usize) -> f64 {
        let down = self.below(2) == 0;
        (0..self.below(most + 1)).fold(x, |x, _| if down { x.next_down() } else { x.next_up() })
    }

    /// Yes in about `percent` of a hundred cases.
    pub const fn chance(&mut self, percent: usize) -> bool {
        self.below(100) < percent
    }

    /// A number from `low` to `high`, both included.
    pub const fn among(&mut self, low: usize, high: usize) -> usize {
        low + self.below(high - low + 1)
    }

    /// One of a list, which is not empty.
    pub fn one<T: Copy>(&mut self, list: &[T]) -> T {
        list[self.below(list.len())]
    }

    /// From one to `most` entries of a list, some perhaps more than once.
    pub fn few<T: Copy>(&mut self, list: &[T], most: usize) -> Vec<T> {
        (0..self.among(1, most)).map(|_| self.one(list)).collect()
    }

    /// Puts a list into any order.
    pub fn shuffle<T>(&mut self, list: &mut [T]) {
        for at in (1..list.len()).rev() {
            list.swap(at, self.below(at + 1));
        }
    }
}
