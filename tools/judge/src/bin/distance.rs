//! How far the library's own `exp` and `powf` are from document 01's stand-ins, in units in the last place, on drawn
//! inputs: `distance [SEED] [COUNT]`, COUNT inputs a row. The library is the one of the machine that runs this.

use judge::bits::{same, ulps};
use judge::random::Random;
use judge::{arguments, rate, rate_library, standin};
use std::hint::black_box;

/// Both answers to one input, the library's first.
type Pair<T> = fn(T) -> (f64, f64);

fn main() {
    let [seed, count] = arguments([1, 1_000_000]);
    println!("distance: seed {seed}, {count} inputs a row; the most that was seen, not a bound");
    println!(
        "{:<9}{:<42}{:>9}  most ulps",
        "function", "inputs", "differ"
    );
    let mut random = Random::new(seed);
    exp_rows(&mut random, count);
    powf_rows(&mut random, count);
    probability_rows(&mut random, count);
}

/// From -708.39 down the stand-in is 0.0 and the library still has values, all under 2^-1021.
fn exp_rows(random: &mut Random, count: u64) {
    let pair = |[y]: [f64; 1]| (y.exp(), standin::exp(y));
    let mut row = |inputs, draw| row("exp", inputs, random, count, draw, pair);
    row("y from -40 to 40, where it moves a p", |r| {
        [r.span(-40.0, 40.0)]
    });
    row("controller: y from -708.39 to 40", |r| {
        [r.span(-708.39, 40.0)]
    });
    row("wide: y from -708.39 to 708.39", |r| {
        [r.span(-708.39, 708.39)]
    });
    row("small: |y| from 2^-60 to 1", |r| [either_sign(r)]);
    row("y from -746 to -708.4, stand-in 0.0", |r| {
        [r.span(-746.0, -708.4)]
    });
}

/// The same for t from 1022 up.
fn powf_rows(random: &mut Random, count: u64) {
    let pair = |[t]: [f64; 1]| (0.5_f64.powf(t), standin::half(t));
    let mut row = |inputs, draw| row("powf", inputs, random, count, draw, pair);
    row("controller: t = air/(12 x frame), < 1022", |r| [ageing(r)]);
    row("controller: t = 1/12", |_| [1.0 / 12.0]);
    row("wide: t from 0 to 1022", |r| [r.span(0.0, 1022.0)]);
    row("t from 1022 to 1076, stand-in 0.0", |r| {
        [r.span(1022.0, 1076.0)]
    });
    let called = |[t]: [f64; 1]| (black_box(0.5_f64).powf(t), 0.5_f64.powf(t));
    let draw = |r: &mut Random| [r.span(0.0, 1022.0)];
    self::row(
        "powf",
        "its call against itself, base known",
        random,
        count,
        draw,
        called,
    );
}

/// The two variants of the source's own function.
fn probability_rows(random: &mut Random, count: u64) {
    let pair = |[snr, threshold, slope]: [f64; 3]| {
        let library = rate_library::decode_probability(snr, threshold, slope);
        (library, rate::decode_probability(snr, threshold, slope))
    };
    let mut row = |inputs, draw| row("decode_p", inputs, random, count, draw, pair);
    row("tables' thresholds, SNR -40 to 40", |r| {
        [r.span(-40.0, 40.0), r.span(-20.0, 17.0), 0.5]
    });
    row("within the limits", |r| {
        let [snr, threshold] = [0; 2].map(|_| r.span(-200.0, 200.0));
        [snr, threshold, r.scale(0.125, 16.0)]
    });
}

/// Draws the inputs of a row and prints how many differ, the most, and where.
fn row<const N: usize>(
    function: &str,
    inputs: &str,
    random: &mut Random,
    count: u64,
    draw: fn(&mut Random) -> [f64; N],
    pair: Pair<[f64; N]>,
) {
    let mut differ = 0;
    let mut most = (0, None);
    for _ in 0..count {
        let at = draw(random);
        let (library, standin) = pair(at);
        differ += u64::from(!same(library, standin));
        let apart = ulps(library, standin).unwrap_or(u64::MAX);
        if apart > most.0 {
            most = (apart, Some((at, library, standin)));
        }
    }
    print!("{function:<9}{inputs:<42}{differ:>9}  {}", most.0);
    if let Some((at, library, standin)) = most.1 {
        let bits = at.map(|x| format!("{:016x}", x.to_bits())).join(" ");
        print!(" at {at:?} ({bits}): {library:e} and {standin:e}");
    }
    println!();
}

fn either_sign(random: &mut Random) -> f64 {
    let size = random.scale(f64::EPSILON / 256.0, 1.0);
    random.one(&[size, -size])
}

/// How old an account gets by another rung's frame, while that is under 1022.
fn ageing(random: &mut Random) -> f64 {
    loop {
        let t = random.scale(0.001, 60.0) / (12.0 * random.scale(0.001, 60.0));
        if t < 1022.0 {
            return t;
        }
    }
}
