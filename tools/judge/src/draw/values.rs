//! Single values on, beside and outside the limits.

use crate::limits::Limits;
use crate::random::Random;

/// What no limits hold, as far as f64 has it: NaNs of several patterns, infinities, the greatest values.
const NEVER: [u64; 8] = [
    0x7ff8_0000_0000_0000,
    0xfff8_0000_0000_0000,
    0x7ff0_0000_0000_0001,
    0xffff_ffff_ffff_ffff,
    0x7ff0_0000_0000_0000,
    0xfff0_0000_0000_0000,
    0x7fef_ffff_ffff_ffff,
    0xffef_ffff_ffff_ffff,
];

/// The ends of limits with the values one step outside and inside, zeros, and what no limits hold.
pub fn edges(limits: Limits) -> Vec<f64> {
    let mut all = vec![0.0, -0.0, -limits.high];
    for end in [limits.low, limits.high] {
        all.extend([end.next_down(), end, end.next_up()]);
    }
    all.extend(NEVER.map(f64::from_bits));
    all
}

/// The same for whole numbers from 0 to `most`.
pub const fn whole_edges(most: u32) -> [u32; 7] {
    [0, 1, most - 1, most, most + 1, 1 << 31, u32::MAX]
}

/// A value that the limits do not hold.
pub fn outside(random: &mut Random, limits: Limits) -> f64 {
    loop {
        let x = random.one(&edges(limits));
        if !limits.hold(x) {
            return x;
        }
    }
}

/// A value on an end of the limits or one step inside.
pub fn just_inside(random: &mut Random, limits: Limits) -> f64 {
    loop {
        let x = random.one(&edges(limits));
        if limits.hold(x) {
            return x;
        }
    }
}
