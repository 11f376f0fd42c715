//! The sample papers, each cause that turns a paper away, and the chance that a frame decodes.

use std::fs;
use std::path::{Path, PathBuf};
use turmexol::{BUFFER, Refusal, Score, decode_probability, mark, sheet};

/// The sample papers' folder, from this one.
const PAPERS: &str = "../../papers";
/// The wide air's number.
const WIDE: u32 = 1;
/// A file without events, on the wide air.
const NO_EVENTS: [u8; 8] = [0, 0, 0, 0, 1, 0, 0, 0];

/// A question file and the sheet that it gives.
struct Paper {
    name: String,
    question: Vec<u8>,
    sheet: Vec<u8>,
}

impl Paper {
    fn at(path: &Path) -> Paper {
        Paper {
            name: path.display().to_string(),
            question: read(path),
            sheet: read(&path.with_extension("sheet")),
        }
    }

    fn named(name: &str) -> Paper {
        Paper::at(&folder().join(name))
    }

    /// The choices that the sheet has, an entry an event: none where the event is refused.
    fn choices(&self) -> Vec<Option<u8>> {
        let text = str::from_utf8(&self.sheet).expect("a sheet is text");
        let choice = |line: &str| match line.split(' ').nth(1) {
            Some("refused") => None,
            Some(rung) => Some(rung.parse().expect("a choice is a rung")),
            None => panic!("{}: no choice in {line:?}", self.name),
        };
        text.lines().map(choice).collect()
    }

    /// An answer an event: the sheet's choice, or 0 where there is none.
    fn answers(&self) -> Vec<u8> {
        let choices = self.choices();
        choices.iter().map(|c| c.unwrap_or(0)).collect()
    }
}

fn folder() -> PathBuf {
    Path::new(env!("CARGO_MANIFEST_DIR")).join(PAPERS)
}

fn read(path: &Path) -> Vec<u8> {
    fs::read(path).unwrap_or_else(|e| panic!("cannot read {}: {e}", path.display()))
}

/// Every sample paper; there are at least the five that the folder's README names.
fn papers() -> Vec<Paper> {
    let entries = fs::read_dir(folder()).expect("the sample papers are there");
    let paths = entries.map(|entry| entry.expect("a readable folder").path());
    let questions = paths.filter(|path| path.extension().is_some_and(|e| e == "q"));
    let papers: Vec<Paper> = questions.map(|path| Paper::at(&path)).collect();
    assert!(papers.len() >= 5, "only {} sample papers", papers.len());
    papers
}

/// Bytes that no sheet has in this order.
fn pattern(length: usize) -> Vec<u8> {
    (0..length).map(|at| (37 * at + 11) as u8).collect()
}

/// Both calls turn the file away with the number, and a slice that has room for any sheet stays as it was.
fn refused(question: &[u8], number: u32) {
    let before = pattern(BUFFER);
    let mut out = before.clone();
    let given = sheet(question, &mut out).map_err(Refusal::number);
    assert_eq!(given, Err(number), "sheet");
    assert!(out == before, "refused with {number}, and yet written");
    let given = mark(question, &[]).map_err(Refusal::number);
    assert_eq!(given, Err(number), "mark");
}

/// The file with the byte at a place made another.
fn with(question: &[u8], at: usize, byte: u8) -> Vec<u8> {
    let mut changed = question.to_vec();
    assert_ne!(changed[at], byte, "nothing would change at {at}");
    changed[at] = byte;
    changed
}

/// A question file of these bodies, on the wide air.
fn file_of(bodies: &[Vec<u8>]) -> Vec<u8> {
    let count = bodies.len() as u32;
    let mut file = [count.to_le_bytes(), WIDE.to_le_bytes()].concat();
    let mut at = 8 + 8 * count;
    for body in bodies {
        let length = body.len() as u32;
        file.extend([at.to_le_bytes(), length.to_le_bytes()].concat());
        at += length;
    }
    file.extend(bodies.concat());
    file
}

/// A body of this kind and length, whose other bytes are zero.
fn body(kind: u8, length: usize) -> Vec<u8> {
    let mut bytes = vec![0; length];
    bytes[0] = kind;
    bytes
}

/// The body of prices with so many burst counts.
fn prices(counts: usize) -> Vec<u8> {
    body(6, 25 + 2 * counts)
}

/// The file of one event is accepted, and its line is this.
fn line_is(body: Vec<u8>, line: &str) {
    let mut out = [0; BUFFER];
    let question = file_of(&[body]);
    assert_eq!(sheet(&question, &mut out), Ok(line.len()));
    assert_eq!(str::from_utf8(&out[..line.len()]), Ok(line));
    assert!(mark(&question, &[0]).is_ok());
}

#[test]
fn sheets_are_the_samples() {
    for paper in papers() {
        let length = paper.sheet.len();
        for room in [length, length + 1, BUFFER] {
            let before = pattern(room);
            let mut out = before.clone();
            assert_eq!(
                sheet(&paper.question, &mut out),
                Ok(length),
                "{}",
                paper.name
            );
            assert!(
                out[..length] == paper.sheet,
                "{}: another sheet",
                paper.name
            );
            assert!(
                out[length..] == before[length..],
                "{}: written past the sheet",
                paper.name
            );
        }
    }
}

#[test]
fn own_choices_are_all_right() {
    for paper in papers() {
        let counted = paper.choices().iter().flatten().count() as u32;
        assert!(counted > 0, "{}: nothing counts", paper.name);
        let all = Score {
            right: counted,
            counted,
        };
        assert_eq!(
            mark(&paper.question, &paper.answers()),
            Ok(all),
            "{}",
            paper.name
        );
    }
}

#[test]
fn a_wrong_answer_costs_one_unless_its_event_is_refused() {
    for paper in papers() {
        let choices = paper.choices();
        let counted = choices.iter().flatten().count() as u32;
        for (event, choice) in choices.iter().enumerate() {
            let mut answers = paper.answers();
            answers[event] ^= 0x80;
            let right = counted - u32::from(choice.is_some());
            let score = Score { right, counted };
            assert_eq!(
                mark(&paper.question, &answers),
                Ok(score),
                "{}: {event}",
                paper.name
            );
        }
    }
}

#[test]
fn no_events_no_bytes() {
    let none = Score {
        right: 0,
        counted: 0,
    };
    assert_eq!(sheet(&NO_EVENTS, &mut []), Ok(0));
    assert_eq!(mark(&NO_EVENTS, &[]), Ok(none));
}

#[test]
fn an_empty_slice_may_point_nowhere() {
    // an empty vector has no memory of its own: its pointer is not null, and nothing may be read or written there
    let (nothing, mut room) = (Vec::new(), Vec::new());
    let four = Paper::named("four-lines.q").question;
    assert_eq!(sheet(&NO_EVENTS, &mut room), Ok(0));
    assert_eq!(sheet(&four, &mut room), Err(Refusal::SheetRoom));
    assert_eq!(sheet(&nothing, &mut room), Err(Refusal::FileHeader));
    assert_eq!(mark(&NO_EVENTS, &nothing).map(|s| s.counted), Ok(0));
    assert_eq!(mark(&four, &nothing), Err(Refusal::AnswerCount));
    assert_eq!(mark(&nothing, &nothing), Err(Refusal::FileHeader));
}

#[test]
fn header_is_10() {
    refused(&[], 10);
    refused(&NO_EVENTS[..7], 10);
    let long = file_of(&[prices(32_748)]);
    assert_eq!(long.len(), 65_537);
    refused(&long, 10);
    for air in [0, 3] {
        refused(&with(&NO_EVENTS, 4, air), 10);
    }
    refused(&file_of(&vec![body(3, 5); 1_001]), 10);
    assert_eq!(sheet(&[], &mut []), Err(Refusal::FileHeader));
}

#[test]
fn a_file_of_65_536_bytes_is_accepted() {
    // burst counts of 0 are within their limit, and over 32 of them are turned away with 9
    let question = file_of(&[prices(16_359), prices(16_372)]);
    assert_eq!(question.len(), 65_536);
    let wanted = b"1 refused 9\n2 refused 9\n";
    let mut out = [0; BUFFER];
    assert_eq!(sheet(&question, &mut out), Ok(wanted.len()));
    assert!(out.starts_with(wanted));
    let none = Score {
        right: 0,
        counted: 0,
    };
    assert_eq!(mark(&question, &[0, 0]), Ok(none));
}

#[test]
fn a_thousand_events_are_accepted() {
    // silences at the lowest place: the choice stays at rung 0
    let question = file_of(&vec![body(3, 5); 1_000]);
    let wanted: String = (1..=1_000).map(|n| format!("{n} 0 - 0 0 0\n")).collect();
    let mut out = [0; BUFFER];
    assert_eq!(sheet(&question, &mut out), Ok(wanted.len()));
    assert!(&out[..wanted.len()] == wanted.as_bytes());
    let all = Score {
        right: 1_000,
        counted: 1_000,
    };
    assert_eq!(mark(&question, &[0; 1_000]), Ok(all));
}

#[test]
fn pairs_are_11() {
    let question = Paper::named("four-lines.q").question;
    // the first offset and the first length, either one more or less
    for (at, byte) in [(8, 39), (8, 41), (12, 8), (12, 10)] {
        refused(&with(&question, at, byte), 11);
    }
    refused(&question[..question.len() - 1], 11);
    refused(&[&question[..], &[0]].concat(), 11);
    refused(&[&NO_EVENTS[..], &[0]].concat(), 11);
}

#[test]
fn bodies_are_12() {
    let question = Paper::named("four-lines.q").question;
    // the first body is at 40: no such kind; a kind of another length
    for kind in [0, 8, 3] {
        refused(&with(&question, 40, kind), 12);
    }
    // the last body is an SNR reading: its mark byte is neither 0 nor 1
    refused(&with(&question, 60, 2), 12);
}

/// The body of a frame at rung 0, 1 s long, with these flags; no SNR is known.
fn frame(flags: u8) -> Vec<u8> {
    let mut bytes = body(1, 14);
    bytes[11] = flags;
    bytes.extend(1.0_f64.to_le_bytes());
    bytes
}

#[test]
fn flags_are_0_to_7() {
    for flags in 0..8 {
        line_is(frame(flags), "1 0 - 0 0 0\n");
    }
    for flags in [8, 15, 255] {
        refused(&file_of(&[frame(flags)]), 12);
    }
}

#[test]
fn families_are_0_or_1() {
    for [own, other] in [[0, 0], [0, 1], [1, 0], [1, 1]] {
        line_is(vec![5, own, other], "1 0 - 0 0 0\n");
    }
    for [own, other] in [[2, 0], [0, 2], [255, 1], [1, 255]] {
        refused(&file_of(&[vec![5, own, other]]), 12);
    }
}

#[test]
fn a_missing_reading_has_no_bits() {
    let minus_zero = (-0.0_f64).to_le_bytes();
    for (kind, length) in [(1, 10), (2, 18), (4, 10)] {
        line_is(body(kind, length), "1 0 - 0 0 0\n");
        for (at, byte) in [(2, 1), (9, minus_zero[7])] {
            let mut bytes = body(kind, length);
            bytes[at] = byte;
            refused(&file_of(&[bytes.clone()]), 12);
            // the same bits of a reading that is not missing: a tiny number and -0.0
            bytes[1] = 1;
            line_is(bytes, "1 0 - 0 0 0\n");
        }
    }
}

#[test]
fn a_slice_too_short_is_13() {
    for paper in papers() {
        for room in [0, 1, paper.sheet.len() - 1] {
            let before = pattern(room);
            let mut out = before.clone();
            let given = sheet(&paper.question, &mut out);
            assert_eq!(given, Err(Refusal::SheetRoom), "{}: {room}", paper.name);
            assert!(out == before, "{}: {room}: written", paper.name);
        }
    }
}

#[test]
fn a_part_of_a_slice_is_all_that_is_written() {
    let paper = Paper::named("four-lines.q");
    let length = paper.sheet.len();
    let before = pattern(3 * length);
    let mut out = before.clone();
    let part = length..2 * length;
    assert_eq!(sheet(&paper.question, &mut out[part.clone()]), Ok(length));
    assert!(out[part] == paper.sheet);
    assert!(out[..length] == before[..length], "written before the part");
    assert!(
        out[2 * length..] == before[2 * length..],
        "written behind the part"
    );
}

#[test]
fn another_count_of_answers_is_14() {
    for paper in papers() {
        let right = paper.answers();
        for count in [0, right.len() - 1, right.len() + 1] {
            let mut answers = right.clone();
            answers.resize(count, 0);
            let given = mark(&paper.question, &answers);
            assert_eq!(given, Err(Refusal::AnswerCount), "{}: {count}", paper.name);
        }
    }
    assert_eq!(mark(&NO_EVENTS, &[0]), Err(Refusal::AnswerCount));
}

#[test]
fn chances() {
    assert_eq!(
        decode_probability(3.0, 3.0, 0.5),
        Ok(1.0 / (1.0 + 1.0 / 9.0))
    );
    assert!(decode_probability(-20.0, 0.0, 0.5).is_ok_and(|p| p > 0.0 && p < 1e-10));
    assert_eq!(decode_probability(-20.25, 0.0, 0.5), Ok(0.0));
    assert_eq!(decode_probability(200.0, -200.0, 0.125), Ok(1.0));
    assert_eq!(
        decode_probability(-200.0, 200.0, 16.0).map(|p| p > 0.0),
        Ok(true)
    );
}

#[test]
fn arguments_outside_their_limits_are_8() {
    let over = 200.0_f64.next_up();
    for db in [over, -over, f64::NAN, f64::INFINITY, f64::NEG_INFINITY] {
        assert_eq!(
            decode_probability(db, 0.0, 0.5),
            Err(Refusal::OutsideLimits),
            "SNR {db}"
        );
        assert_eq!(
            decode_probability(0.0, db, 0.5),
            Err(Refusal::OutsideLimits),
            "threshold {db}"
        );
    }
    for slope in [
        0.125_f64.next_down(),
        16.0_f64.next_up(),
        0.0,
        -0.5,
        f64::NAN,
    ] {
        assert_eq!(
            decode_probability(0.0, 0.0, slope),
            Err(Refusal::OutsideLimits),
            "slope {slope}"
        );
    }
}

#[test]
fn causes_have_their_numbers_and_words() {
    let numbers: Vec<u32> = Refusal::ALL.iter().map(|cause| cause.number()).collect();
    assert_eq!(numbers, (1..=14).collect::<Vec<u32>>());
    assert_eq!(Refusal::OutsideLimits.number(), 8);
    assert_eq!(Refusal::AnswerCount.number(), 14);
    let mut words: Vec<String> = Refusal::ALL.iter().map(Refusal::to_string).collect();
    assert_eq!(words[12], "the whole sheet is longer than the output slice");
    words.sort();
    words.dedup();
    assert_eq!(words.len(), 14, "two causes in the same words");
}
