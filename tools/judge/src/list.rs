//! Lists of calls for the Rust's own methods, to be timed: nothing is left to read when they are made, and nothing is
//! tested.

use crate::event::Event;
use crate::oracle::{Oracle, outcome};
use crate::paper::Paper;
use crate::rate::FrameOutcome;

/// Calls on a fresh controller of an air.
pub struct List {
    wide: bool,
    calls: Vec<Call>,
}

enum Call {
    /// `observe_frames`, with its frames as it takes them.
    Frames {
        frames: Vec<FrameOutcome>,
        snr_db: Option<f64>,
    },
    Other(Event),
}

impl Call {
    fn of(event: Event) -> Self {
        match event {
            Event::Frames { snr_db, frames } => Self::Frames {
                frames: frames.iter().map(outcome).collect(),
                snr_db,
            },
            other => Self::Other(other),
        }
    }

    fn make(&self, oracle: &mut Oracle) {
        match self {
            Self::Frames { frames, snr_db } => oracle.rate.observe_frames(frames, *snr_db),
            Self::Other(event) => oracle.apply(event),
        }
    }
}

impl List {
    /// The events of a paper of which none is refused.
    pub fn events(file: &[u8]) -> Self {
        let Paper { wide, events } = Paper::read(file).expect("a sound paper");
        let calls = events.into_iter().map(Call::of).collect();
        Self { wide, calls }
    }

    /// The frames of a paper's first event, each a call with the event's reading.
    pub fn frames(file: &[u8]) -> Self {
        let Self { wide, calls } = Self::events(file);
        let Some(Call::Frames { frames, snr_db }) = calls.first() else {
            panic!("the first event has no frames");
        };
        let call = |&frame| Call::Frames {
            frames: vec![frame],
            snr_db: *snr_db,
        };
        let calls = frames.iter().map(call).collect();
        Self { wide, calls }
    }

    pub const fn count(&self) -> usize {
        self.calls.len()
    }

    /// Makes the calls. Of each the sum of the choices so far, all added up: a choice counts by its place.
    pub fn choices(&self) -> u32 {
        let mut oracle = Oracle::for_air(self.wide);
        let (mut plain, mut placed) = (0_u32, 0_u32);
        for call in &self.calls {
            call.make(&mut oracle);
            plain = plain.wrapping_add(oracle.rate.choice() as u32);
            placed = placed.wrapping_add(plain);
        }
        placed
    }
}

#[cfg(test)]
mod tests {
    use super::*;
    use crate::draw::samples::{self, sample_frame as frame, sent};
    use crate::paper::file;

    /// Three calls that leave the choices 19, 17 and 0.
    #[test]
    fn choices_count_by_their_places() {
        let events = &samples::printed_example()[..3];
        let bodies: Vec<Vec<u8>> = events.iter().map(Event::body).collect();
        let list = List::events(&file(1, &bodies));
        assert_eq!(list.choices(), 3 * 19 + 2 * 17);
    }

    #[test]
    fn frames_of_the_first_event() {
        let frames = vec![frame(0, true), frame(1, false), frame(2, true)];
        let apart = frames.iter().map(|&frame| sent(vec![frame]).body());
        let apart = file(1, &apart.collect::<Vec<_>>());
        let list = List::frames(&file(1, &[sent(frames).body()]));
        assert_eq!(list.count(), 3);
        assert_eq!(list.choices(), List::events(&apart).choices());
    }
}
