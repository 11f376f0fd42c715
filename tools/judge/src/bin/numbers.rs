//! Compares the proved `half`, `exp` and `decode_probability` bit for bit with the stand-ins, and the patched Rust's own
//! `decode_probability` too: `numbers [SEED] [SIZE]`, SIZE inputs in all. Ends with status 1 if any differ.

use judge::bits::{Tally, same};
use judge::branches::Branches;
use judge::counts::{self, Refusals};
use judge::inputs::{self, Class, Triple};
use judge::random::Random;
use judge::{arguments, ended, rate, standin};
use std::fmt::Display;

#[link(name = "probe", kind = "static")]
unsafe extern "C" {
    safe fn rate_half(t: f64) -> f64;
    safe fn rate_exp(y: f64) -> f64;
}

#[link(name = "exports", kind = "static")]
unsafe extern "C" {
    fn rate_decode_probability(snr_db: f64, threshold_db: f64, slope_db: f64, p: *mut f64) -> i64;
}

/// What `*p` holds before a call: a refusal leaves it.
const UNTOUCHED: f64 = f64::from_bits(0x5eed_c0de_5eed_c0de);
/// How many differing inputs are printed.
const SHOWN: u64 = 10;

fn main() {
    let [seed, size] = arguments([1, 10_000_000]);
    println!("numbers: seed {seed}, size {size}");
    heading();
    let mut run = Run::new(seed, size as usize);
    let mut seen = Branches::default();
    run.values("half", &inputs::halves(), rate_half, standin::half, |t| {
        seen.half(t);
    });
    run.values("exp", &inputs::powers(), rate_exp, standin::exp, |y| {
        seen.exp(y);
    });
    run.probabilities(|triple| seen.probability(triple));
    println!("the Rust's own decode_probability: {} compared", run.rust);
    let covered = seen.counts();
    counts::print(&covered);
    counts::covered("numbers", &covered, &run.refusals);
    ended("numbers", run.compared, run.differences);
}

/// A run over every class: where it is, and what it found.
struct Run {
    random: Random,
    /// Inputs for each function.
    part: usize,
    compared: u64,
    rust: u64,
    differences: u64,
    refusals: Refusals,
}

impl Run {
    fn new(seed: u64, size: usize) -> Self {
        Self {
            random: Random::new(seed),
            part: size.div_ceil(3),
            compared: 0,
            rust: 0,
            differences: 0,
            refusals: [0; 15],
        }
    }

    /// Compares a function of one value on its classes.
    fn values(
        &mut self,
        name: &str,
        classes: &[Class<f64>],
        ours: extern "C" fn(f64) -> f64,
        theirs: fn(f64) -> f64,
        mut seen: impl FnMut(f64),
    ) {
        self.classes(name, classes, |x, wrong| {
            seen(x);
            let (our, their) = (ours(x), theirs(x));
            if !same(our, their) {
                let [at, our, their] = [x, our, their].map(hex);
                wrong(format!("{name}({at}): {our} not {their}"));
            }
            Ok(their)
        });
    }

    /// Compares `decode_probability`, the proved one and the Rust's.
    fn probabilities(&mut self, mut seen: impl FnMut(Triple)) {
        let classes = inputs::probabilities();
        let before = self.compared;
        self.classes("decode_probability", &classes, |triple, wrong| {
            seen(triple);
            let their = standin::decode_probability(triple[0], triple[1], triple[2]);
            if let Some(answer) = wrong_answer(triple, their) {
                wrong(answer);
            }
            if let Some(answer) = wrong_rust(triple) {
                wrong(answer);
            }
            their
        });
        self.rust = self.compared - before;
    }

    /// Runs a comparison over every class and prints a line of what each covered.
    fn classes<T: Copy>(
        &mut self,
        name: &str,
        classes: &[Class<T>],
        mut compare: impl FnMut(T, &mut dyn FnMut(String)) -> Result<f64, u32>,
    ) {
        let count = inputs::share(classes, self.part);
        let differences = &mut self.differences;
        let mut wrong = |answer: String| {
            *differences += 1;
            if *differences <= SHOWN {
                println!("differs: {answer}");
            }
        };
        for class in classes {
            let mut tally = Tally::default();
            class.each(count, &mut self.random, |input| {
                let result = compare(input, &mut wrong);
                self.refusals[result.err().map_or(0, |number| number as usize)] += 1;
                tally.count(result);
            });
            self.compared += tally.inputs;
            line(name, class.name, &tally);
        }
    }
}

/// What is wrong with the proved answer, if anything: the result, its number, or a touched `*p` after a refusal.
fn wrong_answer(triple: Triple, their: Result<f64, u32>) -> Option<String> {
    let [snr, threshold, slope] = triple;
    let mut p = UNTOUCHED;
    // SAFETY: `p` is a valid place for the call's one result.
    let status = unsafe { rate_decode_probability(snr, threshold, slope, &raw mut p) };
    let right = match their {
        Ok(value) => status == 0 && same(p, value),
        Err(number) => status == -i64::from(number) && p.to_bits() == UNTOUCHED.to_bits(),
    };
    if right {
        return None;
    }
    let (at, wanted) = (list(triple), their.map(hex));
    Some(format!(
        "decode_probability({at}): {status} {} not {wanted:?}",
        hex(p)
    ))
}

/// What is wrong with the patched Rust's own answer, which refuses nothing, if anything.
fn wrong_rust(triple: Triple) -> Option<String> {
    let [snr, threshold, slope] = triple;
    let rust = rate::decode_probability(snr, threshold, slope);
    let formula = standin::logistic(snr, threshold, slope);
    if same(rust, formula) {
        return None;
    }
    let (at, wrong, right) = (list(triple), hex(rust), hex(formula));
    Some(format!(
        "the Rust's decode_probability({at}): {wrong} not {right}"
    ))
}

fn hex(x: f64) -> String {
    format!("{:016x}", x.to_bits())
}

fn list(triple: Triple) -> String {
    triple.map(hex).join(" ")
}

fn heading() {
    print_row("function", "class", &Tally::HEADINGS);
}

fn line(name: &str, class: &str, tally: &Tally) {
    print_row(name, class, &tally.columns());
}

fn print_row(name: &str, class: &str, columns: &[impl Display]) {
    let columns: String = columns.iter().map(|c| format!("{c:>10}")).collect();
    println!("{name:<19}{class:<12}{columns}");
}
