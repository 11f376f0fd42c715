//! Document 01's stand-ins for the library's `exp` and `powf`, and its `decode_probability`: written from the sentences
//! of "Half-power and logistic" and of the limits, and from no other code.

use crate::natural::Natural;
use std::sync::OnceLock;

/// The number given for an argument outside its limits.
const OUTSIDE_LIMITS: u32 = 8;

/// "half(t)": 2 to the power -t, with document 01's steps on whatever t is given.
#[allow(clippy::approx_constant)]
pub fn half(t: f64) -> f64 {
    if t >= 1022.0 {
        return 0.0;
    }
    let mut r = t;
    let mut n = 0;
    for whole in [512_u16, 256, 128, 64, 32, 16, 8, 4, 2, 1] {
        if r >= f64::from(whole) {
            r -= f64::from(whole);
            n += whole;
        }
    }
    let mut j = 0;
    for parts in [128_u16, 64, 32, 16, 8, 4, 2, 1] {
        let s = f64::from(parts) / 256.0;
        if r >= s {
            r -= s;
            j += parts;
        }
    }
    let u = r * 0.6931471805599453;
    let q = 1.0 - u * (1.0 - (u / 2.0) * (1.0 - (u / 3.0) * (1.0 - (u / 4.0) * (1.0 - u / 5.0))));
    (table()[usize::from(j)] * q) * power_of_half(n)
}

/// "exp(y) = half(-y × 1.4426950408889634) for y <= 0, else 1.0/half(y × 1.4426950408889634)".
#[allow(clippy::approx_constant)]
pub fn exp(y: f64) -> f64 {
    if y <= 0.0 {
        half(-y * 1.4426950408889634)
    } else {
        1.0 / half(y * 1.4426950408889634)
    }
}

/// "d = (SNR - threshold)/slope gives 0.0 if d < -40, else 1/(1 + exp(-d)/9)", on any arguments.
pub fn logistic(snr_db: f64, threshold_db: f64, slope_db: f64) -> f64 {
    let d = (snr_db - threshold_db) / slope_db;
    if d < -40.0 {
        0.0
    } else {
        1.0 / (1.0 + exp(-d) / 9.0)
    }
}

/// The logistic, or number 8 for an argument outside its limits: "dB values -200 to 200; slope 0.125 to 16".
pub fn decode_probability(snr_db: f64, threshold_db: f64, slope_db: f64) -> Result<f64, u32> {
    let within = |low: f64, x: f64, high: f64| low <= x && x <= high;
    let db = |x: f64| within(-200.0, x, 200.0);
    if db(snr_db) && db(threshold_db) && within(0.125, slope_db, 16.0) {
        Ok(logistic(snr_db, threshold_db, slope_db))
    } else {
        Err(OUTSIDE_LIMITS)
    }
}

/// 2^-n, exact for n up to 1023, where it is subnormal.
fn power_of_half(n: u16) -> f64 {
    let n = u64::from(n);
    f64::from_bits(if n < 1023 { (1023 - n) << 52 } else { 1 << 51 })
}

/// "The table H has 256 entries", made once.
pub fn table() -> &'static [f64; 256] {
    static TABLE: OnceLock<[f64; 256]> = OnceLock::new();
    TABLE.get_or_init(|| std::array::from_fn(entry))
}

/// "H[0] = 1.0, else H[j] = m/2^53 with (2m-1)^256 < 2^(13824-j) < (2m+1)^256".
fn entry(j: usize) -> f64 {
    if j == 0 {
        return 1.0;
    }
    let bound = Natural::power_of_two(13824 - j);
    let m = greatest_under(&bound);
    assert!(
        power(2 * m - 1) < bound && bound < power(2 * m + 1),
        "entry {j}"
    );
    m as f64 / (1_u64 << 53) as f64
}

/// The greatest m from 1 to 2^53 with (2m-1)^256 under the bound.
fn greatest_under(bound: &Natural) -> u64 {
    let (mut low, mut over) = (1, (1_u64 << 53) + 1);
    while over - low > 1 {
        let middle = low + (over - low) / 2;
        if power(2 * middle - 1) < *bound {
            low = middle;
        } else {
            over = middle;
        }
    }
    low
}

fn power(x: u64) -> Natural {
    Natural::from(x).to_the_256th()
}

#[cfg(test)]
mod tests {
    use super::*;

    /// Rows P1 to P4 and P9 of document 01.
    #[test]
    fn checked_examples() {
        assert_eq!(half(0.0), 1.0);
        assert_eq!(half(1.0), 0.5);
        assert_eq!(half(1021.0), power_of_half(1021));
        assert_eq!(half(1022.0), 0.0);
        assert!(decode_probability(-20.0, 0.0, 0.5).unwrap() > 0.0);
        assert_eq!(decode_probability(-20.25, 0.0, 0.5), Ok(0.0));
    }

    #[test]
    fn powers_are_exact() {
        for n in 0..=1023 {
            assert_eq!(power_of_half(n), 0.5_f64.powi(i32::from(n)), "n = {n}");
        }
    }

    #[test]
    fn total_outside_its_use() {
        assert!(half(f64::NAN).is_nan());
        assert_eq!(half(f64::INFINITY), 0.0);
        assert_eq!(half(f64::NEG_INFINITY), f64::INFINITY);
        assert!(exp(f64::NAN).is_nan());
        assert_eq!(exp(f64::INFINITY), f64::INFINITY);
        assert_eq!(exp(f64::NEG_INFINITY), 0.0);
        assert_eq!(decode_probability(f64::NAN, 0.0, 0.5), Err(8));
    }
}
