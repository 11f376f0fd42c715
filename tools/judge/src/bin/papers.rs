//! Compares whole papers with the Rust and document 01: `papers [SEED] [PAPERS] [FIRST]`, a list of short question files
//! and PAPERS drawn ones, sound and damaged, the first of them paper FIRST (0). Each is given to the proved sheet with
//! output slices of several lengths, and to the proved marking with answers of several counts. Ends with status 1 if any
//! differ.

use judge::counts::{self, Count, Refusals, named, refused};
use judge::coverage::Coverage;
use judge::draw::papers::{self, Question};
use judge::forms::Forms;
use judge::paper::{BUFFER, Paper, fitted};
use judge::random::Random;
use judge::{arguments, ended};
use std::fmt::Display;

#[link(name = "exports", kind = "static")]
unsafe extern "C" {
    fn paper_sheet(question: *const u8, len: usize, out: *mut u8, out_len: usize) -> i64;
    fn paper_mark(
        question: *const u8,
        len: usize,
        answers: *const u8,
        answers_len: usize,
        right: *mut u32,
        counted: *mut u32,
    ) -> i64;
}

/// What the counts of marking hold before a call: a refusal leaves them.
const UNTOUCHED: [u32; 2] = [0x5eed_c0de, 0xc0de_5eed];
/// How many bytes are watched behind an output slice.
const BEHIND: usize = 64;
/// How many differing papers are printed, and up to which length in full.
const SHOWN: u64 = 10;
const SHOWN_BYTES: usize = 4096;
/// What a sheet, and marking, can answer: 0 and refusals.
const SHEETS: [usize; 5] = [0, 10, 11, 12, 13];
const MARKS: [usize; 5] = [0, 10, 11, 12, 14];
const ANSWERS: [&str; 6] = [
    "answer right",
    "answer wrong",
    "answer that doesn't count",
    "all that count right",
    "none that counts right",
    "none counts",
];
/// What no paper can show: each air has a place, and an OFDM rung, that no echo rules out.
const CANNOT: [&str; 4] = [
    "no place allowed",
    "echo: none allowed under",
    "silence: none allowed",
    "OFDM refused, all out",
];
const ROOMS: [&str; 5] = [
    "slice exactly long enough",
    "slice a byte short",
    "slice empty",
    "slice otherwise short",
    "slice longer",
];

fn main() {
    let [seed, papers, first] = arguments([1, 50_000, 0]);
    println!("papers: seed {seed}, {papers} papers from {first}");
    let mut run = Run::new(seed);
    run.listed();
    for number in first..first + papers {
        run.drawn(number);
    }
    run.print();
    ended("papers", run.compared, run.differences);
}

/// A run over all papers, and what it found.
struct Run {
    seed: u64,
    compared: u64,
    differences: u64,
    rows: Vec<Row>,
    /// What the events of sound papers did, and the lines that they gave.
    coverage: Coverage,
    forms: Forms,
    answers: [u64; ANSWERS.len()],
    rooms: [u64; ROOMS.len()],
}

/// What the papers of a name came to.
struct Row {
    name: &'static str,
    papers: u64,
    sheets: Refusals,
    marks: Refusals,
}

impl Run {
    fn new(seed: u64) -> Self {
        let row = |name| Row {
            name,
            papers: 0,
            sheets: [0; 15],
            marks: [0; 15],
        };
        Self {
            seed,
            compared: 0,
            differences: 0,
            rows: papers::names().into_iter().map(row).collect(),
            coverage: Coverage::default(),
            forms: Forms::default(),
            answers: [0; ANSWERS.len()],
            rooms: [0; ROOMS.len()],
        }
    }

    fn listed(&mut self) {
        let mut random = Random::new(self.seed);
        for question in papers::listed() {
            self.paper(&question, &mut random, "listed");
        }
    }

    /// Draws a paper by its number.
    fn drawn(&mut self, number: u64) {
        let start = Random::new(self.seed).bits().wrapping_add(number);
        let mut random = Random::new(start);
        let question = papers::question(&mut random);
        let replay = format!("replay: papers {} 1 {number}", self.seed);
        self.paper(&question, &mut random, &replay);
    }

    /// Compares a paper in every way.
    fn paper(&mut self, question: &Question, random: &mut Random, replay: &str) {
        let at = self.row(question.name);
        self.rows[at].papers += 1;
        let paper = Paper::read(&question.file);
        let sheet = paper.as_ref().map(Paper::sheet).map_err(|number| *number);
        let whole = sheet.as_deref().map_err(|number| *number);
        for room in rooms(random, whole) {
            let wanted = fitted(whole, room);
            self.rows[at].sheets[verdict(&wanted)] += 1;
            self.count_room(whole, room);
            let wrong = wrong_sheet(&question.file, room, wanted);
            self.count(wrong, question, replay);
        }
        for answers in answers(random, &paper) {
            let wanted = match &paper {
                Ok(paper) => paper.marks(&answers),
                Err(number) => Err(*number),
            };
            self.rows[at].marks[verdict(&wanted)] += 1;
            self.count_answers(answers.len(), wanted);
            let wrong = wrong_marks(&question.file, &answers, wanted);
            self.count(wrong, question, replay);
        }
        if let Ok(paper) = &paper {
            self.count_events(paper);
            self.forms.sheet(whole.unwrap_or(""));
        }
    }

    fn row(&self, name: &str) -> usize {
        let found = self.rows.iter().position(|row| row.name == name);
        found.expect("every name has a row")
    }

    fn count(&mut self, wrong: Option<String>, question: &Question, replay: &str) {
        self.compared += 1;
        let Some(wrong) = wrong else {
            return;
        };
        self.differences += 1;
        if self.differences <= SHOWN {
            println!("differs: {} ({replay}): {wrong}", question.name);
            let file = &question.file;
            if file.len() <= SHOWN_BYTES {
                println!("  question: {}", hex(file));
            }
        }
    }

    fn count_room(&mut self, sheet: Result<&str, u32>, room: usize) {
        let Ok(sheet) = sheet else {
            return;
        };
        let length = sheet.len();
        let column = if room == length {
            0
        } else if room + 1 == length {
            1
        } else if room == 0 {
            2
        } else {
            3 + usize::from(room > length)
        };
        self.rooms[column] += 1;
    }

    fn count_answers(&mut self, given: usize, marks: Result<(u32, u32), u32>) {
        let Ok((right, counted)) = marks else {
            return;
        };
        let seen = [
            right.into(),
            (counted - right).into(),
            given as u64 - u64::from(counted),
            u64::from(counted > 0 && right == counted),
            u64::from(counted > 0 && right == 0),
            u64::from(counted == 0),
        ];
        counts::add(&mut self.answers, &seen);
    }

    fn count_events(&mut self, paper: &Paper) {
        let mut oracle = paper.controller();
        for event in &paper.events {
            self.coverage.take(&mut oracle, event);
        }
    }

    fn print(&self) {
        let sheets = ["sheet", "10", "11", "12", "13"];
        let marks = ["marked", "10", "11", "12", "14"];
        print_row("papers", &"papers", &[sheets, marks]);
        let mut all: Vec<Count> = Vec::new();
        let (mut sheets, mut marks) = ([0; 15], [0; 15]);
        for row in &self.rows {
            let cells = [
                SHEETS.map(|at| row.sheets[at]),
                MARKS.map(|at| row.marks[at]),
            ];
            print_row(row.name, &row.papers, &cells);
            all.push((row.name.to_owned(), row.papers));
            counts::add(&mut sheets, &row.sheets);
            counts::add(&mut marks, &row.marks);
        }
        let mut covered = refused("sheet", &SHEETS, &sheets);
        covered.extend(refused("marking", &MARKS, &marks));
        covered.extend(named(&ROOMS, &self.rooms));
        covered.extend(named(&ANSWERS, &self.answers));
        covered.extend(self.forms.counts());
        let calls = self.coverage.calls().into_iter();
        covered.extend(calls.filter(|(name, _)| !CANNOT.contains(&name.as_str())));
        counts::print(&covered);
        all.extend(covered);
        let mut refusals = self.coverage.refusals();
        counts::add(&mut refusals, &sheets);
        counts::add(&mut refusals, &marks);
        counts::covered("papers", &all, &refusals);
    }
}

/// 0, or the refusal's number.
fn verdict<T>(answer: &Result<T, u32>) -> usize {
    answer.as_ref().err().map_or(0, |number| *number as usize)
}

/// The lengths of output slices that a paper is tried with.
fn rooms(random: &mut Random, sheet: Result<&str, u32>) -> Vec<usize> {
    let any = random.one(&[0, 1, 100, BUFFER]);
    match sheet.map(str::len) {
        Ok(length) => {
            let longer = length + random.among(1, 100);
            let short = length.saturating_sub(1);
            vec![
                length,
                random.one(&[short, short, 0, length / 2, longer, any]),
            ]
        }
        Err(_) => vec![any],
    }
}

/// The answers that a paper is marked with: right count, most of them right, and another count.
fn answers(random: &mut Random, paper: &Result<Paper, u32>) -> Vec<Vec<u8>> {
    let Ok(paper) = paper else {
        return vec![vec![0; random.one(&[0, 1, 7, 1000])]];
    };
    let answer = |choice: &Option<usize>| {
        let right = choice.unwrap_or(0) as u8;
        let wrong = random.one(&[right.wrapping_add(1), 0, 255]);
        if random.chance(80) { right } else { wrong }
    };
    let right: Vec<u8> = paper.choices().iter().map(answer).collect();
    let count = right.len();
    let other = random.one(&[count + 1, count.saturating_sub(1), 0, 2 * count, 1001]);
    let mut wrong = right.clone();
    wrong.resize(other, 0);
    vec![right, wrong]
}

/// What is wrong with the proved sheet, if anything: status, text, or a byte that was not to be touched.
fn wrong_sheet(file: &[u8], room: usize, wanted: Result<&str, u32>) -> Option<String> {
    let before: Vec<u8> = (0..room + BEHIND).map(|at| (37 * at + 11) as u8).collect();
    let mut out = before.clone();
    // SAFETY: the pointers go with the lengths of the file and of the slice, which `out` is longer than.
    let status = unsafe { paper_sheet(file.as_ptr(), file.len(), out.as_mut_ptr(), room) };
    let text = wanted.unwrap_or("").as_bytes();
    let right = match wanted {
        Ok(text) => status == text.len() as i64,
        Err(number) => status == -i64::from(number),
    };
    let (start, rest) = out.split_at(text.len());
    if right && start == text && *rest == before[text.len()..] {
        return None;
    }
    let touched = out.iter().zip(&before).rposition(|(a, b)| a != b);
    let touched = touched.map_or(0, |at| at + 1);
    let given = String::from_utf8_lossy(&out[..touched]);
    Some(format!(
        "sheet in {room} bytes: {status} {given:?}, wanted {wanted:?}"
    ))
}

/// What is wrong with the proved marks, if anything.
fn wrong_marks(file: &[u8], answers: &[u8], wanted: Result<(u32, u32), u32>) -> Option<String> {
    let [mut right, mut counted] = UNTOUCHED;
    // SAFETY: the pointers go with the lengths of the file and of the answers, and to two whole numbers.
    let status = unsafe {
        paper_mark(
            file.as_ptr(),
            file.len(),
            answers.as_ptr(),
            answers.len(),
            &raw mut right,
            &raw mut counted,
        )
    };
    let same = match wanted {
        Ok(marks) => status == 0 && (right, counted) == marks,
        Err(number) => status == -i64::from(number) && [right, counted] == UNTOUCHED,
    };
    if same {
        return None;
    }
    let answers = hex(answers);
    Some(format!(
        "marks of {answers}: {status} {right} of {counted}, wanted {wanted:?}"
    ))
}

fn hex(bytes: &[u8]) -> String {
    bytes.iter().map(|byte| format!("{byte:02x}")).collect()
}

/// A row of the tables: a name, a first column, and groups of five.
fn print_row<T: Display>(name: &str, first: &impl Display, groups: &[[T; 5]]) {
    let cells = |group: &[T; 5]| -> String { group.iter().map(|c| format!("{c:>9}")).collect() };
    let groups: String = groups.iter().map(|g| format!(" |{}", cells(g))).collect();
    println!("{name:<24}{first:>8}{groups}");
}
