//! Records a sample of tables for replay without Rust: `record-fronts SEED INPUT EXPECTED` writes what the program
//! `tables` reads to INPUT, and what it must answer to EXPECTED. The seed only draws the last tables of the sample.

use judge::draw::tables;
use judge::limits::{AIR_S, MOST_BYTES, MOST_ENTRIES, SHARE};
use judge::random::Random;
use judge::record::{self, MOST_COLUMN};
use judge::seed_and_paths;
use judge::table::Table;
use std::fs;
use std::io;

/// The most bytes of the sample.
const MOST_INPUT: usize = 65_536;
/// How many tables of each class are drawn.
const DRAWN: usize = 2;

/// Rows of threshold, payload and frame time.
type Rows = &'static [(f64, u32, f64)];

/// Tables that the front's rule decides, by worth, threshold and ties.
const RANKED: [Rows; 15] = [
    // one rung, and one of no worth
    &[(0.0, 75, 5.36)],
    &[(0.0, 3, 1.0)],
    // two equal rungs: alike, with zeros of both signs, and with one worth of two payloads
    &[(1.4, 45, 1.054), (1.4, 45, 1.054)],
    &[(0.0, 45, 1.054), (-0.0, 45, 1.054)],
    &[(1.4, 13, 1.0), (1.4, 23, 2.0)],
    // two equal rungs and a third: under them, over them and worth more, and over them and worth less
    &[(1.0, 20, 1.0), (1.0, 20, 1.0), (0.0, 20, 1.0)],
    &[(1.0, 20, 1.0), (2.0, 30, 1.0), (1.0, 20, 1.0)],
    &[(1.0, 20, 1.0), (1.0, 20, 1.0), (2.0, 10, 1.0)],
    // equal worth, or equal threshold
    &[(1.0, 20, 1.0), (0.0, 20, 1.0)],
    &[(0.0, 20, 1.0), (0.0, 30, 1.0)],
    // one step apart in threshold, and in frame time
    &[(0.0, 20, 1.0), (5e-324, 20, 1.0)],
    &[(0.0, 20, 1.000_000_000_000_000_2), (0.0, 20, 1.0)],
    // no data in either, and one byte in one
    &[(0.0, 2, 1.0), (-1.0, 3, 60.0)],
    &[(-200.0, 4, 60.0), (200.0, 0, 0.001)],
    // from the highest to the lowest
    &[(3.0, 40, 1.0), (2.0, 30, 1.0), (1.0, 20, 1.0)],
];

/// A fault for each refusal from 1 to 5, any of which may stand beside the others.
const FAULTS: [fn(&mut Table); 5] = [
    |table| table.capacity.clear(),
    |table| table.payload.push(40),
    |table| table.frame_s.fill(AIR_S.low / 2.0),
    |table| table.floor_modes = 3,
    tables::all_equal,
];

fn main() -> io::Result<()> {
    let (seed, [input, expected]) = seed_and_paths(["path for the input", "path for the answers"]);
    let sample = sample(&mut Random::new(seed));
    let records: Vec<u8> = sample.iter().flat_map(record::record).collect();
    let lines = record::first_line() + &sample.iter().map(record::line).collect::<String>();
    let (bytes_in, bytes_out) = (records.len(), lines.len());
    assert!(bytes_in <= MOST_INPUT, "the sample has {bytes_in} bytes");
    fs::write(input, records)?;
    fs::write(expected, lines)?;
    covered(&sample);
    let count = sample.len();
    println!("record-fronts: {count} tables, {bytes_in} bytes in, {bytes_out} bytes out");
    Ok(())
}

/// The tables: every listed one, and a few of each class to draw.
fn sample(random: &mut Random) -> Vec<Table> {
    let mut all = vec![Table::wide(), Table::narrow(), Table::header()];
    all.extend(RANKED.map(tables::of_rows));
    all.extend(tables::ends_at(2, 1));
    all.extend(long());
    all.extend(lengths());
    all.extend(echo_columns());
    all.extend(several_faults());
    for (_, draw) in tables::CLASSES {
        all.extend((0..DRAWN).map(|_| drawn(random, draw)));
    }
    all
}

/// A table of a class that a record can hold.
fn drawn(random: &mut Random, draw: fn(&mut Random) -> Table) -> Table {
    loop {
        let table = draw(random);
        if record::fits(&table) {
            return table;
        }
    }
}

/// Tables of 32 rungs, with as many floor rungs and one more, and with a fault in the last entry of a column.
fn long() -> [Table; 7] {
    let last = MOST_ENTRIES - 1;
    let changes: [&dyn Fn(&mut Table); 7] = [
        &|table| table.floor_modes = MOST_ENTRIES as u32,
        &|table| table.floor_modes = MOST_ENTRIES as u32 + 1,
        &|table| table.thresholds[last] = f64::NAN,
        &|table| table.payload[last] = MOST_BYTES + 1,
        &|table| table.capacity[last] = MOST_BYTES + 1,
        &|table| table.frame_s[last] = AIR_S.low.next_down(),
        &|table| table.echo[last] = Some(SHARE.high.next_up()),
    ];
    changes.map(|change| changed(MOST_ENTRIES, change))
}

/// Columns of one length, with echo limits and without, and one column longer or shorter than the others.
fn lengths() -> Vec<Table> {
    let mut all = Vec::new();
    for length in [0, 1, MOST_ENTRIES, MOST_ENTRIES + 1, MOST_COLUMN] {
        all.push(tables::rising(length));
        all.push(changed(length, |table| table.echo.clear()));
    }
    for column in 0..4 {
        let uneven =
            |rungs, length| changed(rungs, |table| tables::set_length(column, length, table));
        all.extend([0, 1, 3, MOST_ENTRIES + 1, MOST_COLUMN].map(|length| uneven(2, length)));
        all.push(uneven(MOST_ENTRIES, MOST_ENTRIES - 1));
    }
    all
}

/// Echo columns shorter than the table, as long and longer, with a last limit that may be and one that may not.
fn echo_columns() -> Vec<Table> {
    let mut all = Vec::new();
    for length in [1, 2, 3, MOST_ENTRIES, MOST_ENTRIES + 1, MOST_COLUMN] {
        for last in [SHARE.high, SHARE.high.next_up()] {
            let mut echo = vec![None; length];
            echo[length - 1] = Some(last);
            all.push(changed(2, |table| table.echo = echo));
        }
    }
    all
}

/// Every set of two faults or more: the lowest number is given.
fn several_faults() -> impl Iterator<Item = Table> {
    let sets = (0_u32..1 << FAULTS.len()).filter(|set| set.count_ones() > 1);
    sets.map(|set| {
        changed(2, |table| {
            let faults = FAULTS.iter().enumerate();
            let chosen = faults.filter(|(at, _)| set >> at & 1 == 1);
            chosen.for_each(|(_, fault)| fault(table));
        })
    })
}

/// A table of so many rungs, all on the front, with a change.
fn changed(rungs: usize, change: impl FnOnce(&mut Table)) -> Table {
    let mut table = tables::rising(rungs);
    change(&mut table);
    table
}

/// Prints how many tables are accepted, and refused with each number, whole, by the front alone, and by payload.
fn covered(sample: &[Table]) {
    let (mut whole, mut front, mut payload) = ([0; 6], [0; 4], [0; 4]);
    for table in sample {
        whole[table.refusal() as usize] += 1;
        front[table.front_refusal() as usize] += 1;
        payload[table.payload_refusal() as usize] += 1;
    }
    println!("tables accepted, and refused with 1 to 5: {whole:?}");
    println!("fronts answered, and refused with 1 to 3: {front:?}");
    println!("fronts by payload, and refused with 1 to 3: {payload:?}");
}

#[cfg(test)]
mod tests {
    use super::*;

    #[test]
    fn a_fault_for_each_number() {
        for (at, fault) in FAULTS.iter().enumerate() {
            assert_eq!(changed(2, fault).refusal() as usize, at + 1);
        }
    }
}
