//! A table of rungs as `for_table` is given it, and document 01's causes 1 to 5 to turn it away, written from the
//! document's sentences and from no other code. The two airs' tables are the Rust's own.

use crate::limits::{AIR_S, DB, MOST_BYTES, MOST_ENTRIES, SHARE};
use crate::rate::{self, RateController};

/// The columns of a table, whatever they hold.
#[derive(Clone, Debug, Default)]
pub struct Table {
    pub thresholds: Vec<f64>,
    pub payload: Vec<u32>,
    pub capacity: Vec<u32>,
    pub frame_s: Vec<f64>,
    pub floor_modes: u32,
    pub echo: Vec<Option<f64>>,
}

impl Table {
    /// The wide air's: "capacity payload - 3, 6 floor rungs wide or 5 narrow".
    pub fn wide() -> Self {
        let (thresholds, payload) = (rate::AWGN_THRESHOLD_DB, rate::PAYLOAD_BYTES);
        Self::of_air(&thresholds, &payload, &rate::FRAME_S, 6, &rate::ECHO_LIMIT)
    }

    /// The narrow air's.
    pub fn narrow() -> Self {
        let (thresholds, payload) = (rate::NARROW_AWGN_THRESHOLD_DB, rate::NARROW_PAYLOAD_BYTES);
        let (frame_s, echo) = (rate::NARROW_FRAME_S, rate::NARROW_ECHO_LIMIT);
        Self::of_air(&thresholds, &payload, &frame_s, 5, &echo)
    }

    /// A front that is another one if payload is counted and not data: both its rungs are on it.
    pub fn header() -> Self {
        let frame_s = [5.36, 1.054];
        Self::of_air(&[0.0, -1.0], &[75, 15], &frame_s, 1, &[])
    }

    fn of_air(
        thresholds: &[f64],
        payload: &[usize],
        frame_s: &[f64],
        floor_modes: u32,
        echo: &[Option<f64>],
    ) -> Self {
        let payload: Vec<u32> = payload.iter().map(|&p| p as u32).collect();
        Self {
            thresholds: thresholds.to_vec(),
            capacity: payload.iter().map(|p| p - 3).collect(),
            payload,
            frame_s: frame_s.to_vec(),
            floor_modes,
            echo: echo.to_vec(),
        }
    }

    /// How many rungs a table with columns of one length has.
    pub fn rungs(&self) -> usize {
        self.thresholds.len()
    }

    /// The number that `for_table` turns the table away with, the lowest that applies, or 0.
    pub fn refusal(&self) -> u32 {
        let [thresholds, payload, frame_s] = self.front_lengths();
        let lengths = [thresholds, payload, self.capacity.len(), frame_s];
        if none_or_too_many(&lengths) || self.echo.len() > MOST_ENTRIES {
            1
        } else if differ(&lengths) {
            2
        } else if !self.front_values_within() || !self.other_values_within() {
            3
        } else if self.floor_modes as usize > self.rungs() {
            4
        } else if self.front().is_empty() {
            5
        } else {
            0
        }
    }

    /// The number that the front alone is refused with, or 0: only its three columns count.
    pub fn front_refusal(&self) -> u32 {
        let lengths = self.front_lengths();
        if none_or_too_many(&lengths) {
            1
        } else if differ(&lengths) {
            2
        } else if !self.front_values_within() {
            3
        } else {
            0
        }
    }

    /// The number that the front by payload is refused with, or 0: every frame time is 1, and two columns count.
    pub fn payload_refusal(&self) -> u32 {
        self.with_one_time().front_refusal()
    }

    /// The table with the same frame time for each threshold.
    fn with_one_time(&self) -> Self {
        Self {
            thresholds: self.thresholds.clone(),
            payload: self.payload.clone(),
            frame_s: vec![1.0; self.rungs()],
            ..Self::default()
        }
    }

    fn front_lengths(&self) -> [usize; 3] {
        let (thresholds, payload) = (self.thresholds.len(), self.payload.len());
        [thresholds, payload, self.frame_s.len()]
    }

    fn front_values_within(&self) -> bool {
        self.thresholds.iter().all(|&x| DB.hold(x))
            && self.payload.iter().all(|&n| n <= MOST_BYTES)
            && self.frame_s.iter().all(|&x| AIR_S.hold(x))
    }

    fn other_values_within(&self) -> bool {
        self.capacity.iter().all(|&n| n <= MOST_BYTES)
            && self.echo.iter().all(|&limit| SHARE.hold_reading(limit))
    }

    /// "A rung is left off if another has worth at least as great and threshold at most as high".
    pub fn front(&self) -> Vec<usize> {
        let rungs = 0..self.rungs();
        let removes = |other: usize, rung: usize| {
            other != rung
                && self.worth(other) >= self.worth(rung)
                && self.thresholds[other] <= self.thresholds[rung]
        };
        let kept = rungs
            .clone()
            .filter(|&rung| !rungs.clone().any(|other| removes(other, rung)));
        kept.collect()
    }

    /// "Worth is (payload less 3, never below 0)/frame time."
    pub fn worth(&self, rung: usize) -> f64 {
        let data = self.payload[rung].saturating_sub(3);
        f64::from(data) / self.frame_s[rung]
    }

    /// The Rust's front of a table with three columns of one length.
    pub fn rust_front(&self) -> Vec<usize> {
        rate::usable_modes_by_rate(&self.thresholds, &sizes(&self.payload), &self.frame_s)
    }

    /// The Rust's front by payload, of two columns of one length; the document's words must give it too.
    pub fn rust_payload_front(&self) -> Vec<usize> {
        let front = rate::usable_modes_of(&self.thresholds, &sizes(&self.payload));
        let read = self.with_one_time().front();
        assert_eq!(front, read, "the Rust and document 01 differ");
        front
    }

    /// The Rust's controller for a table that is not refused.
    pub fn controller(&self, wide: bool) -> RateController {
        RateController::for_table(
            &self.thresholds,
            &sizes(&self.payload),
            &sizes(&self.capacity),
            &self.frame_s,
            self.floor_modes as usize,
            &self.echo,
        )
        .for_air(wide)
    }
}

/// "a table column has 0 or over 32 entries"
fn none_or_too_many(lengths: &[usize]) -> bool {
    lengths.iter().any(|&n| n == 0 || n > MOST_ENTRIES)
}

fn differ(lengths: &[usize]) -> bool {
    lengths.iter().any(|&n| n != lengths[0])
}

fn sizes(column: &[u32]) -> Vec<usize> {
    column.iter().map(|&n| n as usize).collect()
}

#[cfg(test)]
mod tests {
    use super::*;

    /// Rows P5 to P8 of document 01, and the table that tells data from payload.
    #[test]
    fn fronts() {
        let mut table = Table::header();
        assert_eq!(table.front(), [0, 1]);
        table.thresholds[0] = -1.0;
        (table.payload[0], table.frame_s[0]) = (table.payload[1], table.frame_s[1]);
        assert_eq!(table.refusal(), 5);
        let lacks = |table: Table, off: &[usize]| {
            let on = (0..table.rungs()).filter(|rung| !off.contains(rung));
            assert_eq!(table.front(), on.collect::<Vec<usize>>());
            assert_eq!(table.refusal(), 0);
        };
        lacks(Table::wide(), &[6, 13]);
        lacks(Table::narrow(), &[8]);
    }

    #[test]
    fn lowest_number_first() {
        let mut table = Table::wide();
        table.floor_modes = 21;
        assert_eq!((table.refusal(), table.front_refusal()), (4, 0));
        table.echo[3] = Some(f64::NAN);
        assert_eq!((table.refusal(), table.front_refusal()), (3, 0));
        table.capacity.pop();
        assert_eq!((table.refusal(), table.front_refusal()), (2, 0));
        table.frame_s.pop();
        assert_eq!((table.refusal(), table.front_refusal()), (2, 2));
        table.echo = vec![None; 33];
        assert_eq!((table.refusal(), table.front_refusal()), (1, 2));
    }
}
