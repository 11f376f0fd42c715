//! Which branches of document 01's "Half-power and logistic" arguments take, told from the arguments.

use crate::counts::{Count, named};
use crate::limits::{DB, SLOPE};

/// The steps of `half`, whole ones and 256ths, least first.
const WHOLE: usize = 10;
const PARTS: usize = 8;

const HALF: [&str; 3] = [
    "half: t < 0 or NaN",
    "half: t below 1022",
    "half: t >= 1022",
];
const EXP: [&str; 2] = ["exp: y <= 0", "exp: y > 0 or NaN"];
const PROBABILITY: [&str; 6] = [
    "refused for the SNR",
    "refused for the threshold",
    "refused for the slope",
    "d < -40",
    "d = -40",
    "d > -40",
];

/// How often each branch was taken.
pub struct Branches {
    half: [u64; HALF.len()],
    /// How often each step was subtracted.
    whole: [u64; WHOLE],
    parts: [u64; PARTS],
    /// How often each entry of the table H was read.
    entries: [u64; 256],
    exp: [u64; EXP.len()],
    probability: [u64; PROBABILITY.len()],
}

impl Default for Branches {
    fn default() -> Self {
        Self {
            half: [0; HALF.len()],
            whole: [0; WHOLE],
            parts: [0; PARTS],
            entries: [0; 256],
            exp: [0; EXP.len()],
            probability: [0; PROBABILITY.len()],
        }
    }
}

impl Branches {
    pub fn half(&mut self, t: f64) {
        let inner = (0.0..1022.0).contains(&t);
        self.half[if inner {
            1
        } else {
            usize::from(t >= 1022.0) * 2
        }] += 1;
        if inner {
            let entry = (t.fract() * 256.0) as usize;
            self.entries[entry] += 1;
            count_bits(&mut self.whole, t as usize);
            count_bits(&mut self.parts, entry);
        }
    }

    pub fn exp(&mut self, y: f64) {
        self.exp[if y <= 0.0 { 0 } else { 1 }] += 1;
    }

    pub fn probability(&mut self, [snr_db, threshold_db, slope_db]: [f64; 3]) {
        let held = [DB.hold(snr_db), DB.hold(threshold_db), SLOPE.hold(slope_db)];
        for (count, held) in self.probability.iter_mut().zip(held) {
            *count += u64::from(!held);
        }
        if held == [true; 3] {
            let d = (snr_db - threshold_db) / slope_db;
            let at = 3 + usize::from(d >= -40.0) + usize::from(d > -40.0);
            self.probability[at] += 1;
        }
    }

    pub fn counts(&self) -> Vec<Count> {
        let mut all = named(&HALF, &self.half);
        let steps = self.whole.iter().chain(&self.parts).zip(steps());
        all.extend(steps.map(|(count, step)| (format!("half: step {step} taken"), *count)));
        let entries = self.entries.iter().enumerate();
        let least = entries.min_by_key(|(_, count)| **count);
        let (entry, count) = least.expect("the table has entries");
        all.push((format!("half: H[{entry}], the least read"), *count));
        all.extend(named(&EXP, &self.exp));
        all.extend(named(&PROBABILITY, &self.probability));
        all
    }
}

/// The steps' names, least first in each group.
fn steps() -> impl Iterator<Item = String> {
    let whole = (0..WHOLE).map(|at| (1 << at).to_string());
    let parts = (0..PARTS).map(|at| format!("1/{}", 256 >> at));
    whole.chain(parts)
}

fn count_bits(counts: &mut [u64], bits: usize) {
    for (at, count) in counts.iter_mut().enumerate() {
        *count += (bits >> at & 1) as u64;
    }
}

#[cfg(test)]
mod tests {
    use super::*;

    #[test]
    fn branches_of_arguments() {
        let mut branches = Branches::default();
        for t in [f64::NAN, -1.0, 1022.0, 513.5, 0.0] {
            branches.half(t);
        }
        assert_eq!(branches.half, [2, 2, 1]);
        assert_eq!(branches.whole, [1, 0, 0, 0, 0, 0, 0, 0, 0, 1]);
        assert_eq!(branches.parts, [0, 0, 0, 0, 0, 0, 0, 1]);
        assert_eq!((branches.entries[0], branches.entries[128]), (1, 1));
        for y in [f64::NAN, -0.0, 1.0] {
            branches.exp(y);
        }
        assert_eq!(branches.exp, [1, 2]);
        let triples = [
            [-20.0, 0.0, 0.5],
            [-20.25, 0.0, 0.5],
            [0.0, 0.0, 0.5],
            [f64::NAN, 0.0, 0.1],
        ];
        for triple in triples {
            branches.probability(triple);
        }
        assert_eq!(branches.probability, [1, 0, 1, 1, 1, 1]);
        let names: Vec<String> = steps().collect();
        assert_eq!((names[9].as_str(), names[17].as_str()), ("512", "1/2"));
    }
}
