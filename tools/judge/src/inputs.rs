//! The inputs that the numbers are compared on, in named classes: lists that are run in full, and rules to draw by.
//! The ends of every range stand in a list with their neighbours; what lies between is drawn.

use crate::random::Random;

/// A class of inputs for one function.
pub struct Class<T> {
    pub name: &'static str,
    source: Source<T>,
}

enum Source<T> {
    Listed(Vec<T>),
    Drawn(fn(&mut Random) -> T),
}

/// SNR, threshold and slope of `decode_probability`.
pub type Triple = [f64; 3];

impl<T: Copy> Class<T> {
    const fn listed(name: &'static str, list: Vec<T>) -> Self {
        let source = Source::Listed(list);
        Self { name, source }
    }

    const fn drawn(name: &'static str, rule: fn(&mut Random) -> T) -> Self {
        let source = Source::Drawn(rule);
        Self { name, source }
    }

    /// The whole list, or `count` drawn inputs, one after the other.
    pub fn each(&self, count: usize, random: &mut Random, mut visit: impl FnMut(T)) {
        match &self.source {
            Source::Listed(list) => list.iter().copied().for_each(visit),
            Source::Drawn(rule) => (0..count).for_each(|_| visit(rule(random))),
        }
    }

    /// `count` inputs of the class: drawn, or taken out of the list in random order while it lasts.
    pub fn some(&self, count: usize, random: &mut Random) -> Vec<T> {
        match &self.source {
            Source::Listed(list) => {
                let mut left = list.clone();
                let taken = (0..count.min(list.len())).map(|_| {
                    let at = random.below(left.len());
                    left.swap_remove(at)
                });
                taken.collect()
            }
            Source::Drawn(rule) => (0..count).map(|_| rule(random)).collect(),
        }
    }

    const fn length(&self) -> Option<usize> {
        match &self.source {
            Source::Listed(list) => Some(list.len()),
            Source::Drawn(_) => None,
        }
    }
}

/// The least that a drawn class gets, however much of the size the lists take.
const LEAST: usize = 1000;

/// How many inputs each drawn class gets, for about `size` inputs in all, the lists included.
pub fn share<T: Copy>(classes: &[Class<T>], size: usize) -> usize {
    let listed: usize = classes.iter().filter_map(Class::length).sum();
    let drawn = classes.iter().filter(|c| c.length().is_none()).count();
    size.saturating_sub(listed)
        .div_ceil(drawn.max(1))
        .max(LEAST)
}

/// The arguments t of `half`.
pub fn halves() -> Vec<Class<f64>> {
    vec![
        Class::listed("special", specials()),
        Class::listed("step", around(&steps(), 1)),
        Class::drawn("pattern", Random::pattern),
        Class::drawn("0 to 1100", |r| r.span(0.0, 1100.0)),
        Class::drawn("0 to 1/256", |r| r.span(0.0, 1.0 / 256.0)),
        Class::drawn("controller", |r| {
            // a rung's account ages by air/(12 × frame time)
            r.scale(0.001, 60.0) / (12.0 * r.scale(0.001, 60.0))
        }),
        Class::drawn("last step", |r| r.span(1021.0, 1022.0)),
    ]
}

/// The arguments y of `exp`.
pub fn powers() -> Vec<Class<f64>> {
    vec![
        Class::listed("special", specials()),
        Class::listed("step", around(&steps_of_exp(), 2)),
        Class::drawn("pattern", Random::pattern),
        Class::drawn("-760 to 760", |r| r.span(-760.0, 760.0)),
        Class::drawn("near 0", |r| {
            let size = r.scale(f64::MIN_POSITIVE, 0.01);
            r.one(&[size, -size])
        }),
        Class::drawn("controller", |r| r.span(-808.0, 40.0)),
    ]
}

/// The arguments of `decode_probability`.
pub fn probabilities() -> Vec<Class<Triple>> {
    vec![
        Class::listed("ends", ends()),
        Class::listed("d near -40", forties()),
        Class::drawn("pattern", |r| std::array::from_fn(|_| r.pattern())),
        Class::drawn("one pattern", |r| {
            let mut triple = within(r);
            triple[r.below(3)] = r.pattern();
            triple
        }),
        Class::drawn("within", within),
        Class::drawn("d to +-45", |r| {
            let slope = r.scale(0.125, 16.0);
            let d = r.span(-45.0, 45.0);
            apart(r, slope * d, slope)
        }),
        Class::drawn("d by -40", |r| {
            let slope = r.scale(0.125, 10.0);
            let [snr, threshold, slope] = apart(r, -40.0 * slope, slope);
            [r.beside(snr, 3), threshold, slope]
        }),
        Class::drawn("tables", |r| {
            [r.span(-30.0, 40.0), r.span(-20.0, 17.0), 0.5]
        }),
        Class::drawn("prior", |r| {
            // "The prior's own use may pass the dB limits."
            [r.span(-225.0, 205.0), r.span(-200.0, 200.0), 0.5]
        }),
    ]
}

/// Any arguments within the limits.
fn within(random: &mut Random) -> Triple {
    [
        random.span(-200.0, 200.0),
        random.span(-200.0, 200.0),
        random.scale(0.125, 16.0),
    ]
}

/// An SNR and a threshold within the limits, about `difference` apart where the limits allow it.
fn apart(random: &mut Random, difference: f64, slope: f64) -> Triple {
    let difference = difference.clamp(-400.0, 400.0);
    let low = (-200.0 - difference).max(-200.0);
    let high = (200.0 - difference).min(200.0);
    let threshold = random.span(low, high).clamp(-200.0, 200.0);
    let snr = (threshold + difference).clamp(-200.0, 200.0);
    [snr, threshold, slope]
}

/// Each value, and as many as `most` to each side of it.
fn around(values: &[f64], most: usize) -> Vec<f64> {
    let mut all = Vec::new();
    for &x in values {
        all.push(x);
        let (mut up, mut down) = (x, x);
        for _ in 0..most {
            (up, down) = (up.next_up(), down.next_down());
            all.extend([up, down]);
        }
    }
    all
}

/// Zeros, subnormals, the ends that `half` tests, ordinary values, huge ones, infinities and NaNs, of both signs.
fn specials() -> Vec<f64> {
    let least = f64::from_bits(1);
    let sizes = [
        0.0,
        least,
        f64::MIN_POSITIVE.next_down(),
        f64::MIN_POSITIVE,
        f64::EPSILON,
        1.0 / 12.0,
        0.1,
        0.5,
        1.0,
        10.0,
        27.725887222397812,
        40.0,
        708.3964185322641,
        709.782712893384,
        745.1332191019412,
        1021.0,
        1021.5,
        1022.0,
        1022.5,
        1023.0,
        1024.0,
        1074.0,
        1075.0,
        4503599627370496.5,
        1e100,
        f64::MAX,
    ];
    let mut all = around(&sizes, 1);
    all.extend([f64::INFINITY, f64::NAN]);
    // a signalling NaN, and one with every bit of its payload
    all.extend([0x7ff0_0000_0000_0001, 0x7fff_ffff_ffff_ffff].map(f64::from_bits));
    let negative: Vec<f64> = all.iter().map(|x| -x).collect();
    all.extend(negative);
    all
}

/// The table's boundaries, at a few whole parts of t from the least to the greatest.
fn steps() -> Vec<f64> {
    let wholes = [0, 1, 2, 3, 63, 64, 255, 256, 511, 512, 513, 1020, 1021];
    let parts = |n: i32| (0..256).map(move |k| f64::from(n) + f64::from(k) / 256.0);
    wholes.into_iter().flat_map(parts).collect()
}

/// The arguments of `exp`, of both signs, whose product with 1.4426950408889634 is beside such a boundary.
#[allow(clippy::approx_constant)]
fn steps_of_exp() -> Vec<f64> {
    let ends = [1022.0, 1022.0_f64.next_down()];
    let targets = steps().into_iter().chain(ends);
    let sizes = targets.map(|t| t / 1.4426950408889634);
    sizes.flat_map(|y| [y, -y]).collect()
}

/// Every mix of limits, the values just outside and inside them, and values that are no limit of anything.
fn ends() -> Vec<Triple> {
    let other = [
        0.0,
        -0.0,
        0.5,
        -19.0,
        1e300,
        f64::from_bits(1),
        f64::INFINITY,
        f64::NEG_INFINITY,
        f64::NAN,
        -f64::NAN,
    ];
    let dbs = [around(&[-200.0, 200.0], 1), other.to_vec()].concat();
    let slopes = [around(&[0.125, 16.0, -0.125], 1), other.to_vec()].concat();
    let mut all = Vec::new();
    for &snr in &dbs {
        for &threshold in &dbs {
            all.extend(slopes.iter().map(|&slope| [snr, threshold, slope]));
        }
    }
    all
}

/// Differences of exactly -40 slopes, and the values beside them.
fn forties() -> Vec<Triple> {
    let mut all = Vec::new();
    for slope in [0.125, 0.25, 0.5, 1.0, 2.0, 4.0, 5.0] {
        for threshold in [0.0, -0.0, 1.0, -19.0, 16.9, 200.0] {
            let snrs = around(&[threshold - 40.0 * slope, threshold - 40.5 * slope], 3);
            all.extend(snrs.into_iter().map(|snr| [snr, threshold, slope]));
        }
    }
    all
}
