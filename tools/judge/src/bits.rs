//! Comparison of results: bit for bit, where any NaN equals any NaN, and in units in the last place.

/// Whether two results are the same bits, or both NaN.
pub const fn same(a: f64, b: f64) -> bool {
    a.to_bits() == b.to_bits() || (a.is_nan() && b.is_nan())
}

/// How many values lie from one to the other; both zeros are one value. None with a NaN.
pub const fn ulps(a: f64, b: f64) -> Option<u64> {
    if a.is_nan() || b.is_nan() {
        return None;
    }
    Some(ordered(a).abs_diff(ordered(b)))
}

/// The values in order, as whole numbers.
const fn ordered(x: f64) -> i64 {
    let size = (x.to_bits() & (u64::MAX >> 1)).cast_signed();
    if x.is_sign_negative() { -size } else { size }
}

/// What results came up: a comparison that saw only zeros would say little.
#[derive(Clone, Copy, Default)]
pub struct Tally {
    pub inputs: u64,
    pub zero: u64,
    pub one: u64,
    pub subnormal: u64,
    pub infinite: u64,
    pub nan: u64,
    pub refused: u64,
}

impl Tally {
    pub const HEADINGS: [&str; 7] = [
        "inputs",
        "0.0",
        "1.0",
        "subnormal",
        "infinite",
        "NaN",
        "refused",
    ];

    /// Counts one input and its result, or its refusal.
    pub fn count(&mut self, result: Result<f64, u32>) {
        self.inputs += 1;
        match result {
            Err(_) => self.refused += 1,
            Ok(x) => {
                self.zero += u64::from(x == 0.0);
                self.one += u64::from(x == 1.0);
                self.subnormal += u64::from(x.is_subnormal());
                self.infinite += u64::from(x.is_infinite());
                self.nan += u64::from(x.is_nan());
            }
        }
    }

    pub const fn columns(&self) -> [u64; 7] {
        [
            self.inputs,
            self.zero,
            self.one,
            self.subnormal,
            self.infinite,
            self.nan,
            self.refused,
        ]
    }
}

#[cfg(test)]
mod tests {
    use super::*;

    #[test]
    fn distances() {
        assert_eq!(ulps(0.0, -0.0), Some(0));
        assert_eq!(ulps(1.0, 1.0_f64.next_up()), Some(1));
        assert_eq!(ulps(0.0_f64.next_down(), 0.0_f64.next_up()), Some(2));
        assert_eq!(ulps(1.0, f64::NAN), None);
        assert!(same(f64::NAN, -f64::NAN) && !same(0.0, -0.0));
    }
}
