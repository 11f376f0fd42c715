//! Records a small sample of lists of calls for replay without Rust: `record-calls INPUT LINES [SEED] [LISTS]` writes
//! what `trace` reads to INPUT, and what it must answer to LINES. Lists that show something new are taken first.

use judge::counts;
use judge::coverage::Coverage;
use judge::draw::lists;
use judge::random::Random;
use judge::trace::List;
use judge::{arguments_after, path_arguments};
use std::fs;
use std::io;

/// The most calls of a list.
const MOST_CALLS: usize = 60;
/// The most bytes of the sample, and of one list that is in it only to fill it up.
const MOST_INPUT: usize = 120_000;
const MOST_FILLER: usize = 2500;
/// How many lists are drawn in search of what the sample lacks.
const DRAWN: u64 = 200_000;

fn main() -> io::Result<()> {
    let [input, lines] = path_arguments(["path for the input", "path for the lines"]);
    let [seed, count] = arguments_after(2, [1, 60]);
    let mut sample = Sample::default();
    sample.search(&mut Random::new(seed), count as usize);
    sample.fill(&mut Random::new(!seed), count as usize);
    fs::write(&input, &sample.input)?;
    fs::write(&lines, &sample.lines)?;
    let covered = sample.coverage.counts();
    counts::print(&covered);
    println!("never: {:?}", counts::never(&covered));
    println!(
        "record-calls: {} lists, {} bytes in, {} bytes out",
        sample.lists,
        sample.input.len(),
        sample.lines.len()
    );
    Ok(())
}

#[derive(Default)]
struct Sample {
    lists: usize,
    input: Vec<u8>,
    lines: String,
    coverage: Coverage,
}

impl Sample {
    /// Takes lists that show what no list before them did, the shortest first.
    fn search(&mut self, random: &mut Random, count: usize) {
        for most in [1000, 2000, 4000, 8000] {
            for _ in 0..DRAWN / 4 {
                if self.lists < count && !counts::never(&self.coverage.counts()).is_empty() {
                    let list = lists::list(random, MOST_CALLS);
                    self.take(&list, most, true);
                }
            }
        }
    }

    /// Fills the sample up with short lists of any kind.
    fn fill(&mut self, random: &mut Random, count: usize) {
        for _ in 0..DRAWN {
            if self.lists < count {
                self.take(&lists::list(random, MOST_CALLS), MOST_FILLER, false);
            }
        }
    }

    /// Takes a list of at most so many bytes, if there is room, or, if only news counts, if it shows any.
    fn take(&mut self, list: &List, most: usize, news: bool) {
        let input = list.input();
        if input.len() > most || self.input.len() + input.len() > MOST_INPUT {
            return;
        }
        let mut coverage = Coverage::default();
        let lines = list.lines(&mut coverage);
        if news && !self.coverage.lacks(&coverage) {
            return;
        }
        self.coverage.add(&coverage);
        self.input.extend(input);
        self.lines.push_str(&lines);
        self.lists += 1;
    }
}
