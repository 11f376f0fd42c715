//! The papers that are measured.

use judge::event::{Event, Frame};
use judge::oracle::Oracle;
use judge::paper;
use judge::random::Random;
use judge::table::Table;

/// A question file by a name.
pub struct Question {
    pub name: String,
    pub file: Vec<u8>,
    /// Whether no paper of its kind is longer.
    pub longest: bool,
}

/// An air's usual traffic, long transmissions, echo and silence, and how each grows.
pub fn papers() -> Vec<Question> {
    let mut list = Vec::new();
    let mut add = |name, longest, file| {
        list.push(Question {
            name,
            file,
            longest,
        });
    };
    for (air, name) in AIRS {
        for events in [10, 100, 1000] {
            let file = usual(air, events, 1);
            add(format!("{name}, usual"), events == 1000, file);
        }
        for (events, frames) in [(1000, 1), (300, 16), (20, 256)] {
            let s = if frames == 1 { "" } else { "s" };
            let name = format!("{name}, {frames} frame{s} an event");
            add(name, true, frames_only(air, events, frames));
        }
        for events in [10, 100, 1000] {
            let name = format!("{name}, echo and silence");
            add(name, events == 1000, echo_and_silence(air, events));
        }
    }
    list
}

/// Of each air a paper of one event, whose frames are 256 calls.
pub fn frames_alone() -> [Question; 2] {
    AIRS.map(|(air, name)| Question {
        name: format!("{name}, a frame call alone"),
        file: one_by_one(air),
        longest: true,
    })
}

const AIRS: [(u32, &str); 2] = [(1, "wide"), (2, "narrow")];

/// A transmission of frames at the recommended rung, of which one in five is lost.
fn sent(air: u32, oracle: &Oracle, random: &mut Random, frames: usize) -> Event {
    let table = if air == 1 {
        Table::wide()
    } else {
        Table::narrow()
    };
    let rung = oracle.rate.recommend();
    let frame = |decoded| Frame {
        rung: rung as u8,
        detected: true,
        decoded,
        combined: false,
        capacity: table.capacity[rung] as u16,
        air_s: table.frame_s[rung],
    };
    let frames = (0..frames).map(|_| frame(random.span(0.0, 1.0) > 0.2));
    Event::Frames {
        frames: frames.collect(),
        snr_db: Some(random.span(5.0, 15.0)),
    }
}

/// The events that are drawn one by one, each taken by the controller before the next.
fn drawn(
    air: u32,
    count: usize,
    draw: impl Fn(usize, &Oracle, &mut Random) -> Event,
) -> Vec<Event> {
    let mut random = Random::new(1);
    let mut oracle = Oracle::for_air(air == 1);
    let mut events = Vec::new();
    for number in 0..count {
        let event = draw(number, &oracle, &mut random);
        oracle.take(&event);
        events.push(event);
    }
    events
}

fn file(air: u32, events: &[Event]) -> Vec<u8> {
    let bodies: Vec<Vec<u8>> = events.iter().map(Event::body).collect();
    paper::file(air, &bodies)
}

/// A seed, then transmissions with an echo reading after every fifth and a silence after every fiftieth.
fn usual(air: u32, count: usize, frames: usize) -> Vec<u8> {
    let events = drawn(air, count, |number, oracle, random| match number {
        0 => Event::Seed(10.0),
        _ if number % 50 == 49 => Event::Silence(1),
        _ if number % 5 == 4 => echo(random),
        _ => sent(air, oracle, random, frames),
    });
    file(air, &events)
}

fn frames_only(air: u32, count: usize, frames: usize) -> Vec<u8> {
    let events = drawn(air, count, |_, oracle, random| {
        sent(air, oracle, random, frames)
    });
    file(air, &events)
}

fn echo_and_silence(air: u32, count: usize) -> Vec<u8> {
    let events = drawn(air, count, |number, _, random| match number % 2 {
        0 => echo(random),
        _ => Event::Silence(1),
    });
    file(air, &events)
}

fn echo(random: &mut Random) -> Event {
    Event::Echo {
        share: Some(random.span(0.0, 0.6)),
        snr_db: 10.0,
    }
}

/// One event with the frames of 256 transmissions of one frame, each at the rung recommended after the last.
fn one_by_one(air: u32) -> Vec<u8> {
    const SNR_DB: Option<f64> = Some(10.0);
    let alone = drawn(air, 256, |_, oracle, random| {
        let event = sent(air, oracle, random, 1);
        let frames = event.frames().to_vec();
        Event::Frames {
            frames,
            snr_db: SNR_DB,
        }
    });
    let frames = alone.iter().flat_map(Event::frames).copied().collect();
    let all = Event::Frames {
        frames,
        snr_db: SNR_DB,
    };
    file(air, &[all])
}
