//! Measures nanoseconds an event: `bench [ROUNDS]`. The proved code, the Rust with the stand-ins and the Rust with the
//! library's own `exp` and `powf` take turns in one process, and the least of ROUNDS (15) turns counts. The first two
//! must give the same. There is a table of each measure:
//! - the sheet, from a question file in memory to memory that is lent, with room for the longest lines and with room of
//!   exactly the sheet's length; the Rust's sheet is a string of its own;
//! - the marking of a paper's answers;
//! - the calls by value: ours reads each call from its body and tests it; the Rust's methods are given what was made
//!   ready for them before. A frame call alone has its frame read before in ours too.

use judge::{arguments, event, limits};

mod ours;
mod questions;
mod turns;

/// The same reading of the document over the Rust as it is: these files name `crate::rate`, which is the library's here.
mod rate {
    pub use judge::rate_library::*;
}
#[allow(dead_code)]
#[path = "../../list.rs"]
mod list;
#[allow(dead_code)]
#[path = "../../oracle.rs"]
mod oracle;
#[allow(dead_code)]
#[path = "../../paper.rs"]
mod paper;
#[allow(dead_code)]
#[path = "../../table.rs"]
mod table;

use list::List;
use questions::Question;
use std::hint::black_box;
use turns::{Row, table};

/// Room for the longest lines of the longest paper, 66 bytes an event: where the sheet's length need not be known.
const AMPLE: usize = 66 * 1000;

fn main() {
    let [rounds] = arguments([15]);
    let papers = questions::papers();
    let frames = questions::frames_alone();
    table(
        "The sheet into ample room",
        rounds,
        papers.iter().map(|paper| sheet(paper, Some(AMPLE))),
    );
    table(
        "The sheet into room of exactly its length",
        rounds,
        papers.iter().map(|paper| sheet(paper, None)),
    );
    table("Marking", rounds, papers.iter().map(mark));
    let longest = papers.iter().filter(|paper| paper.longest);
    table(
        "Calls by value",
        rounds,
        longest.map(events).chain(frames.iter().map(frame_calls)),
    );
}

/// The sheet into so much room, or just enough.
fn sheet(Question { name, file, .. }: &Question, room: Option<usize>) -> Row<'_> {
    let wanted = judge::paper::sheet(file).expect("a sound paper");
    let mut out = vec![0; room.unwrap_or(wanted.len())];
    let len = ours::sheet(file, &mut out);
    assert_eq!(&out[..len], wanted.as_bytes(), "{name}: the sheets differ");
    Row::new(
        name,
        wanted.lines().count(),
        move || _ = black_box(ours::sheet(black_box(file), &mut out)),
        || drop(black_box(judge::paper::sheet(black_box(file)))),
        || drop(black_box(paper::sheet(black_box(file)))),
    )
}

/// The marks of answers of which every third is wrong.
fn mark(Question { name, file, .. }: &Question) -> Row<'_> {
    let paper = judge::paper::Paper::read(file).expect("a sound paper");
    let answer = |(at, choice): (usize, Option<usize>)| {
        let right = choice.expect("an accepted event");
        right as u8 + u8::from(at % 3 == 2)
    };
    let answers: Vec<u8> = paper
        .choices()
        .into_iter()
        .enumerate()
        .map(answer)
        .collect();
    let (for_standin, for_library) = (answers.clone(), answers.clone());
    let standin = move || judge::paper::Paper::read(black_box(file))?.marks(&for_standin);
    let library = move || paper::Paper::read(black_box(file))?.marks(&for_library);
    let marks = ours::mark(file, &answers);
    assert_eq!(Ok(marks), standin(), "{name}: the marks differ");
    Row::new(
        name,
        answers.len(),
        move || _ = black_box(ours::mark(black_box(file), &answers)),
        move || _ = black_box(standin()),
        move || _ = black_box(library()),
    )
}

/// The calls of a paper's events.
fn events(Question { name, file, .. }: &Question) -> Row<'_> {
    let standin = judge::list::List::events(file);
    calls(name, || ours::events(file), standin, List::events(file))
}

/// The calls of the frames of a paper's one event.
fn frame_calls(Question { name, file, .. }: &Question) -> Row<'_> {
    let standin = judge::list::List::frames(file);
    calls(name, || ours::frames(file), standin, List::frames(file))
}

fn calls<'a>(
    name: &'a str,
    ours: impl Fn() -> u32 + 'a,
    standin: judge::list::List,
    library: List,
) -> Row<'a> {
    assert_eq!(ours(), standin.choices(), "{name}: the choices differ");
    Row::new(
        name,
        standin.count(),
        move || _ = black_box(ours()),
        move || _ = black_box(black_box(&standin).choices()),
        move || _ = black_box(black_box(&library).choices()),
    )
}
