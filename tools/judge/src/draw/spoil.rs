//! Calls made bad: values on their limits or outside, unknown rungs, lists that are too long.

use super::values::{just_inside, outside};
use crate::event::{Event, Frame};
use crate::limits::{AIR_S, CONTROL_S, DB, MOST_BURST, MOST_BYTES, MOST_FRAMES, SHARE};
use crate::random::Random;

/// Moves values of a call to their limits or out, in one place or several. Silence and families have none.
pub fn spoil(random: &mut Random, event: &mut Event, rungs: usize) {
    match event {
        Event::Frames { snr_db, frames } => {
            for _ in 0..random.among(1, 3) {
                spoil_frames(random, snr_db, frames, rungs);
            }
        }
        Event::Echo { share, snr_db } => match random.below(4) {
            0 => *share = Some(outside(random, SHARE)),
            1 => *snr_db = outside(random, DB),
            2 => (*share, *snr_db) = (None, outside(random, DB)),
            _ => (*share, *snr_db) = (Some(outside(random, SHARE)), -50.0),
        },
        Event::Snr(snr_db) => *snr_db = Some(outside(random, DB)),
        Event::Seed(snr_db) => *snr_db = outside(random, DB),
        Event::Prices {
            floor_s,
            ordinary_s,
            gap_s,
            bursts,
        } => {
            for _ in 0..random.among(1, 2) {
                match random.below(6) {
                    0 => *floor_s = outside(random, CONTROL_S),
                    1 => *ordinary_s = outside(random, CONTROL_S),
                    2 => *gap_s = outside(random, CONTROL_S),
                    3 => put_burst(random, bursts),
                    _ => bursts.resize(random.one(&[32, 33, 34, 200]), 7),
                }
            }
            // also where over 32 counts have the bad one past the 32nd
            if random.chance(20) {
                bursts.resize(random.among(32, 36), 1);
                *bursts.last_mut().expect("it has counts") = MOST_BURST as u16 + 1;
            }
        }
        Event::Silence(_) | Event::Families { .. } => {}
    }
}

fn put_burst(random: &mut Random, bursts: &mut [u16]) {
    if !bursts.is_empty() {
        let most = MOST_BURST as u16;
        bursts[random.below(bursts.len())] = random.one(&[most, most + 1, 1 << 15, u16::MAX]);
    }
}

fn spoil_frames(
    random: &mut Random,
    snr_db: &mut Option<f64>,
    frames: &mut Vec<Frame>,
    rungs: usize,
) {
    if random.chance(20) {
        *snr_db = Some(outside(random, DB));
        return;
    }
    let Some(&first) = frames.first() else {
        return;
    };
    if random.chance(6) {
        let most = MOST_FRAMES;
        frames.resize(random.one(&[most, most + 1, most + 1, most + 2]), first);
        return;
    }
    let at = random.below(frames.len());
    let frame = &mut frames[at];
    let bytes = MOST_BYTES as u16;
    match random.below(5) {
        0 => frame.rung = random.one(&[rungs as u8, rungs as u8 + 1, 32, 128, 255]),
        1 => frame.rung = rungs as u8 - 1,
        2 => frame.capacity = random.one(&[bytes, bytes + 1, 1 << 15, u16::MAX]),
        3 => frame.air_s = outside(random, AIR_S),
        _ => frame.air_s = just_inside(random, AIR_S),
    }
}
