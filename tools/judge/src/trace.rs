//! Lists of calls in the form that the program `trace` reads, and the lines that it must answer: choice, try, refusal
//! of OFDM, marks and verdict in full, and a hash of what the call by value says and leaves, of the state after the call,
//! and of what is read of it.

use crate::coverage::Coverage;
use crate::event::{Event, reading};
use crate::oracle::{Answer, Oracle};
use crate::table::Table;
use crate::words::Words;
use std::fmt::Write;

/// The most that `trace` reads.
pub const MOST_INPUT: usize = 1_048_576;

/// A table and the calls on its fresh controller.
#[derive(Clone, Debug)]
pub struct List {
    pub table: Table,
    pub wide: bool,
    pub events: Vec<Event>,
}

impl List {
    pub fn input(&self) -> Vec<u8> {
        let table = &self.table;
        let (rungs, limited) = (table.rungs() as u32, table.echo.len() as u32);
        let header = [rungs, table.floor_modes, u32::from(self.wide), limited];
        let mut bytes: Vec<u8> = header.iter().flat_map(|n| n.to_le_bytes()).collect();
        for rung in 0..table.rungs() {
            bytes.extend(table.thresholds[rung].to_le_bytes());
            bytes.extend(table.payload[rung].to_le_bytes());
            bytes.extend(table.capacity[rung].to_le_bytes());
            bytes.extend(table.frame_s[rung].to_le_bytes());
        }
        bytes.extend(table.echo.iter().flat_map(|&limit| reading(limit)));
        bytes.extend((self.events.len() as u32).to_le_bytes());
        for event in &self.events {
            let body = event.body();
            bytes.extend((body.len() as u32).to_le_bytes());
            bytes.extend(body);
        }
        bytes
    }

    /// The lines that `trace` must answer, and what they cover.
    pub fn lines(&self, coverage: &mut Coverage) -> String {
        let mut oracle = match Oracle::new(&self.table, self.wide) {
            Ok(oracle) => oracle,
            Err(number) => {
                coverage.table(number);
                return format!("refused {number}\n");
            }
        };
        coverage.table(0);
        let mut lines = format!("table places {}\n", oracle.rate.modes().len());
        for event in &self.events {
            let observed = Words::observed(&oracle, event);
            coverage.asked.by_value(&oracle, event);
            let answer = coverage.take(&mut oracle, event);
            coverage.asked.reads(&oracle);
            let mut words = observed.unwrap_or_else(|| Words::left(answer, &oracle));
            words.controller(&oracle);
            line(&mut lines, &oracle, answer, &words);
        }
        lines
    }
}

fn line(lines: &mut String, oracle: &Oracle, answer: Answer, words: &Words) {
    let tried = oracle.rate.probing();
    let tried = tried.map_or_else(|| "-".to_owned(), |rung| rung.to_string());
    writeln!(
        lines,
        "{} {tried} {} {} {} {} {:016x}",
        oracle.rate.choice(),
        u8::from(oracle.ofdm_refused()),
        u8::from(answer.ended),
        u8::from(answer.begun),
        answer.verdict,
        words.hash()
    )
    .expect("a string takes any line");
}

/// What is hashed after the last call of a list, word by word with names, to find what differs.
pub fn named_words(list: &List) -> String {
    let Ok(mut oracle) = Oracle::new(&list.table, list.wide) else {
        return String::new();
    };
    let mut words = Words::default();
    for event in &list.events {
        let observed = Words::observed(&oracle, event);
        let answer = oracle.take(event);
        words = observed.unwrap_or_else(|| Words::left(answer, &oracle));
        words.controller(&oracle);
    }
    words.named()
}
