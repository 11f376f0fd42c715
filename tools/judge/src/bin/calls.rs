//! Compares lists of calls, state by state, with the Rust: `calls [SEED] [LISTS] [FIRST]`, a call on each listed table
//! and LISTS drawn lists of up to 200 calls, the first of them list FIRST (0). Runs the proved program `trace` (TRACE:
//! its path) on batches of lists and compares its output byte by byte. Ends with status 1 if any line differs, 2 if
//! there is no `trace`.

use judge::counts;
use judge::coverage::Coverage;
use judge::draw::lists;
use judge::program::{self, Answered};
use judge::random::Random;
use judge::trace::{List, MOST_INPUT, named_words};
use judge::{arguments, ended};
use std::path::PathBuf;

/// The most calls of a list.
const MOST_CALLS: usize = 200;
/// How many differing lists are printed.
const SHOWN: u64 = 3;

fn main() {
    let [seed, lists, first] = arguments([1, 100_000, 0]);
    println!("calls: seed {seed}, {lists} lists from {first}");
    let mut run = Run::new();
    for list in lists::listed() {
        run.list(list, "listed".to_owned());
    }
    for number in first..first + lists {
        let replay = format!("replay: calls {seed} 1 {number}");
        run.list(drawn(seed, number), replay);
    }
    run.batch();
    println!("{} lists differ", run.lists_differing);
    let covered = run.coverage.counts();
    counts::print(&covered);
    counts::covered("calls", &covered, &run.coverage.refusals());
    ended("calls", run.compared, run.differences);
}

/// A run over all lists: the batch being filled, and what was found so far.
struct Run {
    program: PathBuf,
    input: Vec<u8>,
    wanted: Vec<Wanted>,
    coverage: Coverage,
    compared: u64,
    differences: u64,
    lists_differing: u64,
}

/// A list of the batch: how to have it again, and the lines wanted.
struct Wanted {
    replay: String,
    list: List,
    lines: String,
}

impl Run {
    fn new() -> Self {
        Self {
            program: program::find("trace"),
            input: Vec::new(),
            wanted: Vec::new(),
            coverage: Coverage::default(),
            compared: 0,
            differences: 0,
            lists_differing: 0,
        }
    }

    /// Puts a list into the batch, after running a batch that has no more room.
    fn list(&mut self, list: List, replay: String) {
        let input = list.input();
        if self.input.len() + input.len() > MOST_INPUT {
            self.batch();
        }
        self.input.extend(input);
        let lines = list.lines(&mut self.coverage);
        self.wanted.push(Wanted {
            replay,
            list,
            lines,
        });
    }

    /// Runs the batch and compares the output.
    fn batch(&mut self) {
        let input = std::mem::take(&mut self.input);
        let wanted = std::mem::take(&mut self.wanted);
        if wanted.is_empty() {
            return;
        }
        let Answered { output, failure } = program::answered(&self.program, &input);
        let text = String::from_utf8_lossy(&output);
        let given = parts(&text);
        for (at, wanted) in wanted.iter().enumerate() {
            self.compare(wanted, given.get(at).copied().unwrap_or(""));
        }
        let more = given.len().saturating_sub(wanted.len());
        if let Some(failure) = failure {
            self.fault(&format!("trace ended with {failure}"), &wanted[0]);
        } else if more > 0 {
            self.fault(&format!("trace answered {more} more lists"), &wanted[0]);
        }
    }

    /// A fault of a whole batch.
    fn fault(&mut self, what: &str, first: &Wanted) {
        self.differences += 1;
        println!("differs: {what}, batch from the list ({})", first.replay);
    }

    fn compare(&mut self, wanted: &Wanted, given: &str) {
        let lines = &wanted.lines;
        self.compared += lines.lines().count() as u64;
        if lines == given {
            return;
        }
        self.differences += differing(lines, given).max(1);
        self.lists_differing += 1;
        if self.lists_differing <= SHOWN {
            self.show(wanted, given);
        }
    }

    /// Prints where the list differs, and the shortest one like it that differs too.
    fn show(&self, wanted: &Wanted, given: &str) {
        let at = first_difference(&wanted.lines, given);
        println!("differs: line {at} of the list ({})", wanted.replay);
        show_line(&wanted.lines, given, at);
        let mut list = wanted.list.clone();
        list.events.truncate(at);
        if !self.differs(&list) {
            println!("  alone and cut off after that line, the list does not differ");
            return;
        }
        self.shorten(&mut list);
        self.show_short(&list);
    }

    fn show_short(&self, list: &List) {
        let (wanted, given) = self.both(list);
        let at = first_difference(&wanted, &given);
        println!("  shortest: {list:?}");
        show_line(&wanted, &given, at);
        println!("  wanted state:{}", named_words(list));
        let hex: String = list
            .input()
            .iter()
            .map(|byte| format!("{byte:02x}"))
            .collect();
        println!("  input: {hex}");
    }

    /// Takes out calls that the difference does not need: halves, quarters and so on down to single ones.
    fn shorten(&self, list: &mut List) {
        let mut part = list.events.len().div_ceil(2);
        while part > 0 {
            let mut end = list.events.len();
            while end > 0 {
                let start = end.saturating_sub(part);
                let mut shorter = list.clone();
                shorter.events.drain(start..end);
                if self.differs(&shorter) {
                    *list = shorter;
                }
                end = start;
            }
            part /= 2;
        }
    }

    fn differs(&self, list: &List) -> bool {
        let (wanted, given) = self.both(list);
        wanted != given
    }

    /// The lines wanted and given for one list.
    fn both(&self, list: &List) -> (String, String) {
        let given = program::answered(&self.program, &list.input());
        let text = String::from_utf8_lossy(&given.output);
        (list.lines(&mut Coverage::default()), text.into_owned())
    }
}

/// A list by its number.
fn drawn(seed: u64, number: u64) -> List {
    let start = Random::new(seed).bits().wrapping_add(number);
    lists::list(&mut Random::new(start), MOST_CALLS)
}

/// The output in parts, one a list: each begins with a table's line.
fn parts(text: &str) -> Vec<&str> {
    let starts = |line: &str| line.starts_with("table") || line.starts_with("refused");
    let mut parts = Vec::new();
    let (mut from, mut at) = (0, 0);
    for line in text.split_inclusive('\n') {
        if starts(line) && at > from {
            parts.push(&text[from..at]);
            from = at;
        }
        at += line.len();
    }
    if at > from {
        parts.push(&text[from..at]);
    }
    parts
}

/// How many lines differ, or are in one of the two only.
fn differing(wanted: &str, given: &str) -> u64 {
    let longest = wanted.lines().count().max(given.lines().count());
    let (mut wanted, mut given) = (wanted.lines(), given.lines());
    let differ = (0..longest).filter(|_| wanted.next() != given.next());
    differ.count() as u64
}

/// The first line that differs; line 0 is the table's.
fn first_difference(wanted: &str, given: &str) -> usize {
    let same = wanted
        .lines()
        .zip(given.lines())
        .take_while(|(a, b)| a == b);
    same.count()
}

fn show_line(wanted: &str, given: &str, at: usize) {
    let line = |text: &str| text.lines().nth(at).unwrap_or("(no line)").to_owned();
    println!("  line {at} given:  {}", line(given));
    println!("  line {at} wanted: {}", line(wanted));
}
