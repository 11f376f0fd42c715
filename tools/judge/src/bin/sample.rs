//! Writes a sample of the stand-ins' answers for replay by a proved program: `sample [SEED]`, about 900 lines of 70 bytes,
//! `K A B C R`: h half and e exp (A), d and r decode_probability accepted and refused (A B C); R result or number.

use judge::inputs::{self, Class, Triple};
use judge::random::Random;
use judge::{arguments, standin};
use std::io::{self, BufWriter, Write};

/// How every NaN result is written.
const NAN: u64 = 0x7ff8_0000_0000_0000;

fn main() -> io::Result<()> {
    let [seed] = arguments([1]);
    let mut random = Random::new(seed);
    let mut out = BufWriter::new(io::stdout().lock());
    values(&mut out, 'h', &inputs::halves(), standin::half, &mut random)?;
    values(&mut out, 'e', &inputs::powers(), standin::exp, &mut random)?;
    for class in inputs::probabilities() {
        for triple in class.some(40, &mut random) {
            probability(&mut out, triple)?;
        }
    }
    out.flush()
}

/// Lines of a function of one value: every special one, and twenty of each other class.
fn values(
    out: &mut impl Write,
    kind: char,
    classes: &[Class<f64>],
    answer: fn(f64) -> f64,
    random: &mut Random,
) -> io::Result<()> {
    for class in classes {
        let count = if class.name == "special" {
            usize::MAX
        } else {
            20
        };
        for x in class.some(count, random) {
            line(out, kind, [x, 0.0, 0.0], result(answer(x)))?;
        }
    }
    Ok(())
}

fn probability(out: &mut impl Write, triple: Triple) -> io::Result<()> {
    match standin::decode_probability(triple[0], triple[1], triple[2]) {
        Ok(p) => line(out, 'd', triple, result(p)),
        Err(number) => line(out, 'r', triple, number.into()),
    }
}

const fn result(x: f64) -> u64 {
    if x.is_nan() { NAN } else { x.to_bits() }
}

fn line(out: &mut impl Write, kind: char, arguments: Triple, result: u64) -> io::Result<()> {
    let [a, b, c] = arguments.map(f64::to_bits);
    writeln!(out, "{kind} {a:016x} {b:016x} {c:016x} {result:016x}")
}
