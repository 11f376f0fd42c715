//! Records question files and their sheets for replay without Rust: `record-papers FOLDER [SEED] [PAPERS]` writes
//! document 01's examples, and PAPERS drawn papers, half of them sound, as pairs of files NAME.question and NAME.sheet.
//! The sheet is what the program `sheet` prints.

use judge::draw::papers::{self, Question};
use judge::draw::samples::{printed_example, sample_frame, sent};
use judge::event::Event;
use judge::paper::{self, Paper};
use judge::random::Random;
use judge::{arguments_after, path_arguments};
use std::path::Path;
use std::{fs, io};

/// The most bytes of a recorded question file.
const MOST_BYTES: usize = 3000;
/// The fewest events of a sound one.
const LEAST_EVENTS: usize = 20;

fn main() -> io::Result<()> {
    let [folder] = path_arguments(["folder"]);
    let [seed, papers] = arguments_after(1, [1, 24]);
    fs::create_dir_all(&folder)?;
    let mut questions = examples();
    questions.extend(drawn(&mut Random::new(seed), papers as usize));
    for (number, question) in questions.iter().enumerate() {
        write(&folder, number + 1, question)?;
    }
    println!("record-papers: {} papers", questions.len());
    Ok(())
}

fn write(folder: &Path, number: usize, question: &Question) -> io::Result<()> {
    let plain = |c: char| if c.is_ascii_alphanumeric() { c } else { '-' };
    let name: String = question.name.chars().map(plain).collect();
    let path = folder.join(format!("{number:02}-{name}"));
    fs::write(path.with_extension("question"), &question.file)?;
    let sheet = paper::printed(&question.file);
    println!("{number:02} {}: {}", question.name, summary(&sheet));
    fs::write(path.with_extension("sheet"), sheet)
}

fn summary(sheet: &str) -> String {
    match sheet.strip_prefix("refused ") {
        Some(number) => format!("refused {}", number.trim_end()),
        None => format!("{} lines", sheet.lines().count()),
    }
}

/// Drawn papers: half of them sound, the rest refused with 10, 11 and 12 in turn, each damaged in another way.
fn drawn(random: &mut Random, count: usize) -> Vec<Question> {
    let mut all: Vec<Question> = Vec::new();
    while all.len() < count {
        let wanted = match all.len() {
            at if at < count.div_ceil(2) => 0,
            at => 10 + at as u32 % 3,
        };
        let question = papers::question(random);
        let new = wanted == 0 || all.iter().all(|taken| taken.name != question.name);
        if new && fits(&question, wanted) {
            all.push(question);
        }
    }
    all
}

/// Whether a question is short and comes to the refusal wanted, or, for 0, to a sheet that is not.
fn fits(question: &Question, wanted: u32) -> bool {
    let found = match Paper::read(&question.file) {
        Ok(paper) if paper.events.len() < LEAST_EVENTS => return false,
        Ok(_) => 0,
        Err(number) => number,
    };
    found == wanted && question.file.len() <= MOST_BYTES
}

/// Document 01's own examples, on the wide air.
fn examples() -> Vec<Question> {
    let tried = [vec![one(0, true); 6], vec![lost_try()]].concat();
    let frame = sample_frame(0, true);
    let lists = [256, 257].map(|count| sent(vec![frame; count]));
    vec![
        example("printed example", &printed_example()),
        example("a try begins and ends", &tried),
        example("OFDM refused", &[one(7, false)]),
        example("256 and 257 frames", &lists),
        example("no events", &[]),
        example("fresh, silence 9", &[Event::Silence(9)]),
    ]
}

fn example(name: &'static str, events: &[Event]) -> Question {
    let bodies: Vec<Vec<u8>> = events.iter().map(Event::body).collect();
    let file = paper::file(1, &bodies);
    Question { name, file }
}

fn one(rung: u8, decoded: bool) -> Event {
    sent(vec![sample_frame(rung, decoded)])
}

fn lost_try() -> Event {
    sent(vec![sample_frame(1, false); 3])
}
