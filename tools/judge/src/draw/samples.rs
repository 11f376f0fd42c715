//! Events of each kind to make question files of.

use crate::event::{Event, Frame};
use crate::random::Random;

/// An event of a kind that is accepted.
pub fn sample_event(kind: u8) -> Event {
    match kind {
        1 => Event::Frames {
            snr_db: Some(3.0),
            frames: vec![sample_frame(0, true); 2],
        },
        2 => Event::Echo {
            share: Some(0.5),
            snr_db: 3.0,
        },
        3 => Event::Silence(1),
        4 => Event::Snr(Some(3.0)),
        5 => Event::Families {
            own_floor: true,
            other_floor: false,
        },
        6 => Event::Prices {
            floor_s: 2.88,
            ordinary_s: 0.527,
            gap_s: 0.2,
            bursts: vec![4; 3],
        },
        _ => Event::Seed(3.0),
    }
}

/// The events of the sheet that document 01 prints.
pub fn printed_example() -> [Event; 4] {
    [
        Event::Seed(20.0),
        Event::Silence(2),
        Event::Silence(100),
        Event::Snr(Some(300.0)),
    ]
}

/// A transmission without an SNR reading, as in document 01's checked examples.
pub const fn sent(frames: Vec<Frame>) -> Event {
    let snr_db = None;
    Event::Frames { snr_db, frames }
}

/// A frame of document 01's checked examples: "air 5.36, capacity 21", heard if it decodes.
pub const fn sample_frame(rung: u8, decoded: bool) -> Frame {
    Frame {
        rung,
        detected: decoded,
        decoded,
        combined: false,
        capacity: 21,
        air_s: 5.36,
    }
}

/// A short event that is accepted.
pub fn short_event(random: &mut Random) -> Event {
    match random.below(5) {
        0 => Event::Silence(random.below(3) as u32),
        1 => Event::Snr(Some(random.span(-20.0, 20.0))),
        2 => Event::Seed(random.span(-20.0, 20.0)),
        3 => sent(vec![sample_frame(0, true)]),
        _ => Event::Families {
            own_floor: random.chance(50),
            other_floor: random.chance(50),
        },
    }
}

/// The body of prices with so many burst counts.
pub fn bursts(count: usize) -> Vec<u8> {
    let event = Event::Prices {
        floor_s: 2.88,
        ordinary_s: 0.527,
        gap_s: 0.2,
        bursts: vec![4; count],
    };
    event.body()
}
