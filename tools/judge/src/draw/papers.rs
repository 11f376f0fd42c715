//! Question files to draw: sound ones of every length and count that matters, and damaged ones, each under a name that
//! says what was done to it.

use super::damage::{BODIES, Bodies, FILES, set};
use super::lists;
use super::samples::{bursts, sample_event, sample_frame, short_event};
use crate::event::Event;
use crate::limits::{MOST_ENTRIES, MOST_EVENTS, MOST_FILE};
use crate::paper;
use crate::random::Random;

/// A drawn question file.
pub struct Question {
    pub name: &'static str,
    pub file: Vec<u8>,
}

/// A question file of any sort.
pub fn question(random: &mut Random) -> Question {
    let (name, file) = match random.below(100) {
        0..30 => ("sound", sound(random)),
        30..33 => {
            let (name, size) = random.one(&SIZES);
            (name, sized(random, size))
        }
        33..36 => {
            let (name, count) = random.one(&COUNTS);
            (name, counted(random, count))
        }
        36..60 => {
            let (name, damage) = random.one(&BODIES);
            (name, with_bodies(random, damage))
        }
        60..88 => {
            let (name, damage) = random.one(&FILES);
            (name, with_file(random, damage))
        }
        88..95 => ("several damages", several(random)),
        95..98 => ("some bytes changed", changed(random)),
        _ => ("any bytes", noise(random)),
    };
    Question { name, file }
}

/// Short question files, one after the other: bodies of each kind at each length and with each byte changed, and the
/// header and pairs of a file of two events with each byte changed; and papers where every rung is worth 0.
pub fn listed() -> Vec<Question> {
    let mut all = Vec::new();
    for kind in 1..=7 {
        let body = sample_event(kind).body();
        for length in 0..body.len() + 30 {
            let mut body = body.clone();
            body.resize(length, 0);
            all.push(single(EACH_LENGTH, body));
        }
        for (at, byte) in changes(body.len()) {
            let mut body = body.clone();
            body[at] = byte;
            all.push(single(EACH_BYTE, body));
        }
    }
    let file = paper::file(1, &[Event::Silence(2).body(), Event::Seed(3.0).body()]);
    for (at, byte) in changes(24) {
        let mut file = file.clone();
        file[at] = byte;
        let name = EACH_HEADER;
        all.push(Question { name, file });
    }
    all.extend([1, 2].into_iter().flat_map(ties));
    all
}

/// Papers of an air whose readings are so low that every rung is worth 0: at the seed, and at an echo that may rule the
/// choice out, from each place.
fn ties(air: u32) -> Vec<Question> {
    let fallen = |steps| {
        let (share, snr_db) = (Some(1.0), 20.0);
        let low = Event::Snr(Some(-200.0));
        let echo = Event::Echo { share, snr_db };
        vec![Event::Seed(20.0), Event::Silence(steps), low, echo]
    };
    let mut lists: Vec<Vec<Event>> = (0..MOST_ENTRIES as u32).map(fallen).collect();
    lists.push(vec![Event::Seed(-200.0)]);
    let question = |events: Vec<Event>| {
        let bodies: Bodies = events.iter().map(Event::body).collect();
        let file = paper::file(air, &bodies);
        Question { name: TIES, file }
    };
    lists.into_iter().map(question).collect()
}

const EACH_LENGTH: &str = "each length of a body";
const EACH_BYTE: &str = "each byte of a body";
const EACH_HEADER: &str = "each byte before bodies";
const TIES: &str = "every rung worth 0";

fn single(name: &'static str, body: Vec<u8>) -> Question {
    let file = paper::file(1, &[body]);
    Question { name, file }
}

/// Each of the first so many bytes, with each of the values that it gets.
fn changes(length: usize) -> impl Iterator<Item = (usize, u8)> {
    let values = [0, 1, 2, 3, 7, 8, 9, 15, 16, 24, 25, 127, 128, 254, 255];
    (0..length).flat_map(move |at| values.map(|byte| (at, byte)))
}

/// Every name that a question may have.
pub fn names() -> Vec<&'static str> {
    let mut names = vec![EACH_LENGTH, EACH_BYTE, EACH_HEADER, TIES, "sound"];
    names.extend(SIZES.map(|entry| entry.0));
    names.extend(COUNTS.map(|entry| entry.0));
    names.extend(BODIES.map(|entry| entry.0));
    names.extend(FILES.map(|entry| entry.0));
    names.extend(["several damages", "some bytes changed", "any bytes"]);
    names
}

const SIZES: [(&str, usize); 3] = [
    ("65,535 bytes", MOST_FILE - 1),
    ("65,536 bytes", MOST_FILE),
    ("65,537 bytes", MOST_FILE + 1),
];
const COUNTS: [(&str, usize); 5] = [
    ("no events", 0),
    ("one event", 1),
    ("999 events", MOST_EVENTS as usize - 1),
    ("1,000 events", MOST_EVENTS as usize),
    ("1,001 events", MOST_EVENTS as usize + 1),
];

/// A file that is not refused.
fn sound(random: &mut Random) -> Vec<u8> {
    let (air, bodies) = drawn(random);
    paper::file(air, &bodies)
}

/// An air and bodies that fit into a file.
fn drawn(random: &mut Random) -> (u32, Bodies) {
    let wide = random.chance(50);
    let most = random.one(&[2, 10, 40, 40, 150]);
    let count = random.among(0, most);
    let events = lists::events(random, wide, count);
    let mut bodies: Bodies = events.iter().map(Event::body).collect();
    while length(&bodies) > MOST_FILE {
        bodies.pop();
    }
    (if wide { 1 } else { 2 }, bodies)
}

/// How long a file of these bodies is.
fn length(bodies: &[Vec<u8>]) -> usize {
    8 + bodies.iter().map(|body| 8 + body.len()).sum::<usize>()
}

/// A file of exactly this many bytes, filled up with long lists of frames and of burst counts.
fn sized(random: &mut Random, size: usize) -> Vec<u8> {
    let (air, mut bodies) = drawn(random);
    while length(&bodies) + 1000 > size {
        bodies.pop();
    }
    while length(&bodies) + 8000 < size {
        let frames = vec![sample_frame(0, true); random.among(1, 500)];
        let snr_db = None;
        bodies.push(Event::Frames { snr_db, frames }.body());
    }
    // a list of burst counts takes an odd number of bytes with its pair: one, or two
    if (size - length(&bodies)).is_multiple_of(2) {
        bodies.push(bursts(5));
    }
    let left = size - length(&bodies);
    bodies.push(bursts((left - 33) / 2));
    let file = paper::file(air, &bodies);
    assert_eq!(file.len(), size, "the filled file has the size wanted");
    file
}

/// A file of exactly this many events, most of them short.
fn counted(random: &mut Random, count: usize) -> Vec<u8> {
    let (air, mut bodies) = drawn(random);
    bodies.truncate(count.min(100));
    while length(&bodies) > MOST_FILE / 2 {
        bodies.pop();
    }
    while bodies.len() < count {
        bodies.push(short_event(random).body());
    }
    paper::file(air, &bodies)
}

fn with_bodies(random: &mut Random, damage: fn(&mut Random, &mut Bodies)) -> Vec<u8> {
    let (air, mut bodies) = drawn(random);
    damage(random, &mut bodies);
    paper::file(air, &bodies)
}

/// A file of two events or more, damaged.
fn with_file(random: &mut Random, damage: fn(&mut Random, &mut Vec<u8>)) -> Vec<u8> {
    let (air, mut bodies) = drawn(random);
    while bodies.len() < 2 {
        bodies.push(short_event(random).body());
    }
    let mut file = paper::file(air, &bodies);
    damage(random, &mut file);
    file
}

/// Damage to bodies and file together.
fn several(random: &mut Random) -> Vec<u8> {
    let (air, mut bodies) = drawn(random);
    for _ in 0..random.below(3) {
        random.one(&BODIES).1(random, &mut bodies);
    }
    let mut file = paper::file(air, &bodies);
    for _ in 0..random.among(1, 3) {
        if file.len() >= 16 {
            random.one(&FILES).1(random, &mut file);
        }
    }
    file
}

fn changed(random: &mut Random) -> Vec<u8> {
    let mut file = sound(random);
    for _ in 0..random.among(1, 4) {
        let at = random.below(file.len());
        let any = random.bits() as u8;
        file[at] = random.one(&[0, 1, 2, 255, any]);
    }
    file
}

/// Any bytes, often behind a header that could be one.
fn noise(random: &mut Random) -> Vec<u8> {
    let most = random.one(&[9, 20, 200]);
    let length = random.below(most);
    let mut file: Vec<u8> = (0..length).map(|_| random.bits() as u8).collect();
    if random.chance(70) && file.len() >= 8 {
        set(&mut file, 0, random.below(3) as u32);
        set(&mut file, 4, random.among(1, 2) as u32);
    }
    file
}
