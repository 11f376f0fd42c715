//! Compares the proved front with the Rust's, and the proved refusals of tables with document 01's causes 1 to 5:
//! `fronts [SEED] [SIZE]`, about SIZE tables, each given to both calls of the library, and in batches to the proved
//! program `tables` (TABLES: its path), which answers the fronts of all its calls. Ends with status 1 if any differ, 2
//! if there is no `tables`.

use judge::counts::{self, Count, Refusals, named, refused};
use judge::draw::tables;
use judge::program::{self, Answered};
use judge::random::Random;
use judge::record;
use judge::table::Table;
use judge::{arguments, ended};
use std::fmt::Display;
use std::path::PathBuf;

#[link(name = "exports", kind = "static")]
unsafe extern "C" {
    fn rate_usable_modes(
        thresholds: *const f64,
        thresholds_len: usize,
        payload: *const u32,
        payload_len: usize,
        frame_s: *const f64,
        frame_s_len: usize,
        out: *mut [u32; 32],
    ) -> i64;
    fn rate_table_refusal(
        thresholds: *const f64,
        thresholds_len: usize,
        payload: *const u32,
        payload_len: usize,
        capacity: *const u32,
        capacity_len: usize,
        frame_s: *const f64,
        frame_s_len: usize,
        floor_modes: u32,
        known: *const u8,
        known_len: usize,
        limits: *const f64,
        limits_len: usize,
    ) -> i64;
}

/// What the entries of `out` hold before a call: a refusal leaves them.
const UNTOUCHED: u32 = 0x5eed_c0de;
/// How many differing tables are printed.
const SHOWN: u64 = 10;
/// What a table, and a front alone, can be answered: 0 and refusals.
const TABLES: [usize; 6] = [0, 1, 2, 3, 4, 5];
const FRONTS: [usize; 4] = [0, 1, 2, 3];
const BY_PAYLOAD: [&str; 2] = ["by payload: as by rate", "by payload: another front"];
const TIES: [&str; 3] = ["rungs of equal worth", "of equal threshold", "of both"];

fn main() {
    let [seed, size] = arguments([1, 1_000_000]);
    println!("fronts: seed {seed}, size {size}");
    let mut run = Run::new(seed);
    run.all(size as usize);
    run.batch();
    run.print();
    ended("fronts", run.compared, run.differences);
}

/// A run over every class: where it is, and what it found.
struct Run {
    program: PathBuf,
    random: Random,
    compared: u64,
    differences: u64,
    /// What all classes covered.
    covered: Tally,
    /// How many fronts had each size.
    sizes: [u64; 33],
    /// The batch that is being filled for `tables`.
    batch: Batch,
    /// Tables that went to it, and those that no record holds.
    recorded: u64,
    too_long: u64,
}

/// What is given to the program `tables` at once.
#[derive(Default)]
struct Batch {
    input: Vec<u8>,
    tables: Vec<Table>,
}

/// What a class covered.
#[derive(Default)]
struct Tally {
    tables: u64,
    verdicts: Refusals,
    /// The verdicts on the front alone.
    fronts: Refusals,
    /// The verdicts on the front by payload, and whether it is the same as by rate or another one.
    payloads: Refusals,
    by_payload: [u64; 2],
    /// Tables not refused with rungs of equal worth, equal threshold, and both at once.
    ties: [u64; 3],
}

impl Run {
    fn new(seed: u64) -> Self {
        Self {
            program: program::find("tables"),
            random: Random::new(seed),
            compared: 0,
            differences: 0,
            covered: Tally::default(),
            sizes: [0; 33],
            batch: Batch::default(),
            recorded: 0,
            too_long: 0,
        }
    }

    /// The listed tables in full, and as many drawn ones as are left of the size.
    fn all(&mut self, size: usize) {
        heading();
        let own = vec![Table::wide(), Table::narrow(), Table::header()];
        let listed = [
            ("own", own),
            ("ends", tables::ends()),
            ("lengths", tables::lengths()),
        ];
        let taken: usize = listed.iter().map(|(_, list)| list.len()).sum();
        for (name, list) in listed {
            self.class(name, list.into_iter());
        }
        let each = size.saturating_sub(taken).div_ceil(tables::CLASSES.len());
        for (name, draw) in tables::CLASSES {
            let mut random = Random::new(self.random.bits());
            self.class(name, (0..each).map(|_| draw(&mut random)));
        }
    }

    fn class(&mut self, name: &str, tables: impl Iterator<Item = Table>) {
        let mut tally = Tally::default();
        for table in tables {
            self.front(&table, &mut tally);
            self.refusal(&table, &mut tally);
            count_payload(&table, &mut tally);
            self.record(table);
            tally.tables += 1;
        }
        line(name, &tally);
        counts::add(&mut self.covered.verdicts, &tally.verdicts);
        counts::add(&mut self.covered.fronts, &tally.fronts);
        counts::add(&mut self.covered.payloads, &tally.payloads);
        counts::add(&mut self.covered.by_payload, &tally.by_payload);
        counts::add(&mut self.covered.ties, &tally.ties);
    }

    /// Compares the front: the proved one, the document's words, and the Rust.
    fn front(&mut self, table: &Table, tally: &mut Tally) {
        let (status, out) = proved_front(table);
        let refusal = table.front_refusal();
        tally.fronts[refusal as usize] += 1;
        let right = if refusal == 0 {
            let rust = table.rust_front();
            self.sizes[rust.len()] += 1;
            count_ties(table, &mut tally.ties);
            rust == table.front() && stands(&rust, status, &out)
        } else {
            status == -i64::from(refusal) && out == [UNTOUCHED; 32]
        };
        let wrong = || {
            let wanted = match refusal {
                0 => format!("{:?}", table.rust_front()),
                number => format!("refusal {number}"),
            };
            let written = out.iter().rposition(|&entry| entry != UNTOUCHED);
            let out = &out[..written.map_or(0, |at| at + 1)];
            format!("usable_modes: {status} {out:?}, wanted {wanted}")
        };
        self.count(right, wrong, Some(table));
    }

    /// Compares the refusal of the whole table.
    fn refusal(&mut self, table: &Table, tally: &mut Tally) {
        let (known, limits) = echo_column(&mut self.random, &table.echo);
        let status = proved_refusal(table, &known, &limits);
        let refusal = table.refusal();
        tally.verdicts[refusal as usize] += 1;
        let right = status == -i64::from(refusal);
        let wrong = || {
            let limits = hex(&limits);
            format!("table_refusal: {status}, wanted {refusal}; known {known:?} limits {limits}")
        };
        self.count(right, wrong, Some(table));
    }

    /// Puts a table into the batch, after running a batch that has no more room. A few have more entries in a column
    /// than a record holds.
    fn record(&mut self, table: Table) {
        if !record::fits(&table) {
            self.too_long += 1;
            return;
        }
        let bytes = record::record(&table);
        if self.batch.input.len() + bytes.len() > record::MOST_INPUT {
            self.batch();
        }
        self.recorded += 1;
        self.batch.input.extend(bytes);
        self.batch.tables.push(table);
    }

    /// Runs the batch: `tables` answers a first line that is of no table, and a line for each.
    fn batch(&mut self) {
        let Batch { input, tables } = std::mem::take(&mut self.batch);
        let Answered { output, failure } = program::answered(&self.program, &input);
        let text = String::from_utf8_lossy(&output);
        let mut given = text.split_inclusive('\n');
        self.answer(&record::first_line(), given.next(), None);
        for table in &tables {
            self.answer(&record::line(table), given.next(), Some(table));
        }
        let more = given.count();
        if failure.is_some() || more > 0 {
            self.differences += 1;
            println!("differs: tables ended with {failure:?}, and {more} more lines");
        }
    }

    /// Compares a line of the program `tables`.
    fn answer(&mut self, wanted: &str, given: Option<&str>, table: Option<&Table>) {
        let given = given.unwrap_or("(no line)\n");
        let wrong = || format!("tables: {}, wanted {}", given.trim_end(), wanted.trim_end());
        self.count(wanted == given, wrong, table);
    }

    fn count(&mut self, right: bool, wrong: impl Fn() -> String, table: Option<&Table>) {
        self.compared += 1;
        if !right {
            self.differences += 1;
            if self.differences <= SHOWN {
                let table = table.map_or_else(|| "(no table)".to_owned(), written);
                println!("differs: {}\n  {table}", wrong());
            }
        }
    }

    fn print(&self) {
        let covered = &self.covered;
        let mut all = refused("table", &TABLES, &covered.verdicts);
        all.extend(refused("front", &FRONTS, &covered.fronts));
        all.extend(named(&TIES, &covered.ties));
        all.extend(refused("by payload", &FRONTS, &covered.payloads));
        all.extend(named(&BY_PAYLOAD, &covered.by_payload));
        all.extend(named(&["put to tables"], &[self.recorded]));
        let sizes = self.sizes.iter().enumerate();
        all.extend(sizes.map(|(n, count)| -> Count { (format!("front of {n}"), *count) }));
        counts::print(&all);
        println!("not put to tables, columns too long: {}", self.too_long);
        let mut refusals = covered.verdicts;
        counts::add(&mut refusals, &covered.fronts);
        counts::covered("fronts", &all, &refusals);
    }
}

/// The proved front: its status, and what `out` holds after it.
fn proved_front(table: &Table) -> (i64, [u32; 32]) {
    let (thresholds, payload, frame_s) = (&table.thresholds, &table.payload, &table.frame_s);
    let mut out = [UNTOUCHED; 32];
    // SAFETY: each pointer goes with its column's length, and `out` has the 32 entries that the call may write.
    let status = unsafe {
        rate_usable_modes(
            thresholds.as_ptr(),
            thresholds.len(),
            payload.as_ptr(),
            payload.len(),
            frame_s.as_ptr(),
            frame_s.len(),
            &raw mut out,
        )
    };
    (status, out)
}

fn proved_refusal(table: &Table, known: &[u8], limits: &[f64]) -> i64 {
    // SAFETY: each pointer goes with its column's length; the call writes nothing.
    unsafe {
        rate_table_refusal(
            table.thresholds.as_ptr(),
            table.thresholds.len(),
            table.payload.as_ptr(),
            table.payload.len(),
            table.capacity.as_ptr(),
            table.capacity.len(),
            table.frame_s.as_ptr(),
            table.frame_s.len(),
            table.floor_modes,
            known.as_ptr(),
            known.len(),
            limits.as_ptr(),
            limits.len(),
        )
    }
}

/// Whether the front stands in the first entries of `out`; what the others hold is open.
fn stands(front: &[usize], status: i64, out: &[u32; 32]) -> bool {
    let same = |(&rung, &entry): (&usize, &u32)| rung == entry as usize;
    status == front.len() as i64 && front.iter().zip(out).all(same)
}

/// A column of echo limits as the call takes it. A missing limit's value is anything, the values may end before a
/// missing limit, or go on behind the column.
fn echo_column(random: &mut Random, echo: &[Option<f64>]) -> (Vec<u8>, Vec<f64>) {
    let mark = |limit: &Option<f64>| match limit {
        Some(_) => random.one(&[1, 1, 2, 255]),
        None => 0,
    };
    let mut known: Vec<u8> = echo.iter().map(mark).collect();
    let nothing = random.one(&[0.0, 7.0, f64::NAN]);
    let mut limits: Vec<f64> = echo.iter().map(|limit| limit.unwrap_or(nothing)).collect();
    match random.below(4) {
        0 => {
            let last = echo.iter().rposition(Option::is_some);
            limits.truncate(last.map_or(0, |at| at + 1));
            // where the values have ended, any mark stands for a missing limit
            let ended = limits.len();
            known[ended..].fill(random.one(&[0, 1]));
        }
        1 => limits.extend([f64::NAN, 2.0]),
        _ => {}
    }
    (known, limits)
}

/// Counts what the front by payload is.
fn count_payload(table: &Table, tally: &mut Tally) {
    let refusal = table.payload_refusal();
    tally.payloads[refusal as usize] += 1;
    if (refusal, table.front_refusal()) == (0, 0) {
        let other = table.rust_payload_front() != table.rust_front();
        tally.by_payload[usize::from(other)] += 1;
    }
}

/// Counts a table with rungs of equal worth, of equal threshold, and of both.
fn count_ties(table: &Table, ties: &mut [u64; 3]) {
    let mut found = [false; 3];
    for a in 0..table.rungs() {
        for b in 0..a {
            let worth = table.worth(a) == table.worth(b);
            let threshold = table.thresholds[a] == table.thresholds[b];
            found[0] |= worth;
            found[1] |= threshold;
            found[2] |= worth && threshold;
        }
    }
    for (count, found) in ties.iter_mut().zip(found) {
        *count += u64::from(found);
    }
}

/// A table to be given to the call again.
fn written(table: &Table) -> String {
    let echo = table.echo.iter().map(|limit| limit.map(|x| hex(&[x])));
    format!(
        "thresholds {} payload {:?} capacity {:?} frame_s {} floor_modes {} echo {:?}",
        hex(&table.thresholds),
        table.payload,
        table.capacity,
        hex(&table.frame_s),
        table.floor_modes,
        echo.collect::<Vec<Option<String>>>()
    )
}

fn hex(values: &[f64]) -> String {
    let each: Vec<String> = values
        .iter()
        .map(|x| format!("{:016x}", x.to_bits()))
        .collect();
    format!("[{}]", each.join(" "))
}

fn heading() {
    let verdicts = ["taken", "1", "2", "3", "4", "5"];
    let fronts = ["front", "1", "2", "3"];
    let ties = ["worth =", "thr. =", "both ="];
    row("class", &"tables", &verdicts, &fronts, &ties);
}

fn line(name: &str, tally: &Tally) {
    let verdicts = TABLES.map(|at| tally.verdicts[at]);
    let fronts = FRONTS.map(|at| tally.fronts[at]);
    row(name, &tally.tables, &verdicts, &fronts, &tally.ties);
}

/// A row: tables, for_table's verdicts, the front's, ties.
fn row(
    name: &str,
    tables: &impl Display,
    verdicts: &[impl Display],
    fronts: &[impl Display],
    ties: &[impl Display],
) {
    let (verdicts, fronts, ties) = (columns(verdicts), columns(fronts), columns(ties));
    println!("{name:<12}{tables:>8} |{verdicts} |{fronts} |{ties}");
}

fn columns(cells: &[impl Display]) -> String {
    cells.iter().map(|cell| format!("{cell:>8}")).collect()
}
