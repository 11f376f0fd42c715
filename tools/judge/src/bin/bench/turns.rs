//! Turns by the clock, and the tables that they give.

use std::time::Instant;

/// How long a turn takes at least, in nanoseconds.
const TURN: u128 = 20_000_000;

/// What is timed on a paper: ours, the Rust with the stand-ins, the Rust with the library.
pub struct Row<'a> {
    name: &'a str,
    events: usize,
    works: [Box<dyn FnMut() + 'a>; 3],
    least: [f64; 3],
}

impl<'a> Row<'a> {
    pub fn new(
        name: &'a str,
        events: usize,
        ours: impl FnMut() + 'a,
        standin: impl FnMut() + 'a,
        library: impl FnMut() + 'a,
    ) -> Self {
        Self {
            name,
            events,
            works: [Box::new(ours), Box::new(standin), Box::new(library)],
            least: [f64::INFINITY; 3],
        }
    }

    /// Each has its turn.
    fn round(&mut self) {
        for (work, least) in self.works.iter_mut().zip(&mut self.least) {
            *least = least.min(turn(work) / self.events as f64);
        }
    }

    /// Nanoseconds an event, the least of all rounds, and what part of the Rust's ours are.
    fn print(&self) {
        let (name, events) = (self.name, self.events);
        let [ours, standin, library] = self.least;
        let (to_standin, to_library) = (ours / standin, ours / library);
        let [ours, standin, library] = self.least.map(shown);
        println!(
            "| {name} | {events} | {ours} | {standin} | {library} | {to_standin:.2} | {to_library:.2} |"
        );
    }
}

/// Prints a table. All rows have a turn before any has the next, so that a busy moment is not one row's alone.
pub fn table<'a>(title: &str, rounds: u64, rows: impl Iterator<Item = Row<'a>>) {
    let mut rows: Vec<Row> = rows.collect();
    for _ in 0..rounds {
        rows.iter_mut().for_each(Row::round);
    }
    println!("\n{title}\n");
    println!(
        "| paper | events | ours | Rust, stand-ins | Rust, library | ours / stand-ins | ours / library |"
    );
    println!("|---|---|---|---|---|---|---|");
    rows.iter().for_each(Row::print);
}

/// A time to three digits or more.
fn shown(nanoseconds: f64) -> String {
    if nanoseconds < 100.0 {
        format!("{nanoseconds:.1}")
    } else {
        format!("{nanoseconds:.0}")
    }
}

/// Nanoseconds of a work, done as often as a turn takes.
fn turn(mut work: impl FnMut()) -> f64 {
    let start = Instant::now();
    let mut times = 0_u32;
    while start.elapsed().as_nanos() < TURN {
        work();
        times += 1;
    }
    start.elapsed().as_nanos() as f64 / f64::from(times)
}
