//! The Rust's controller behind document 01's refusals 6 to 9 and marks, which the Rust lacks: written from the
//! document's sentences. What a call does, and what it reads, is the Rust's alone.

use crate::event::{Event, Frame};
use crate::limits::{
    AIR_S, CONTROL_S, DB, MOST_BURST, MOST_BYTES, MOST_ENTRIES, MOST_FRAMES, SHARE,
};
use crate::rate::{FrameOutcome, RateController};
use crate::table::Table;

#[derive(Clone)]
pub struct Oracle {
    pub rate: RateController,
    pub rungs: usize,
}

/// What a call returns: 0 or the refusal's number, and the marks.
#[derive(Clone, Copy, Debug, PartialEq, Eq)]
pub struct Answer {
    pub verdict: u32,
    pub ended: bool,
    pub begun: bool,
}

impl Oracle {
    /// A fresh controller, or the table's refusal.
    pub fn new(table: &Table, wide: bool) -> Result<Self, u32> {
        match table.refusal() {
            0 => Ok(Self {
                rate: table.controller(wide),
                rungs: table.rungs(),
            }),
            number => Err(number),
        }
    }

    /// A fresh controller "with the air's tables" and `for_air`.
    pub fn for_air(wide: bool) -> Self {
        let table = if wide { Table::wide() } else { Table::narrow() };
        Self::new(&table, wide).expect("the airs' tables are accepted")
    }

    /// Takes a call. A refused one changes nothing. It is laid into each caller: none is slower for there being others.
    #[inline(always)]
    pub fn take(&mut self, event: &Event) -> Answer {
        let verdict = self.verdict(event);
        let ran = self.rate.probing().is_some();
        if verdict == 0 {
            self.apply(event);
        }
        let runs = self.rate.probing().is_some();
        // every accepted call with frames counts for a try that runs on: only a new one has none
        let counted = verdict == 0 && !event.frames().is_empty();
        let begun = counted && runs && self.rate.seen_probe_tries() == 0;
        Answer {
            verdict,
            ended: ran && (!runs || begun),
            begun,
        }
    }

    /// Whether OFDM is refused on this path; every rung that is not floor answers alike.
    pub fn ofdm_refused(&self) -> bool {
        self.rate.refuses(self.rate.seen_floor_modes())
    }

    /// What the rungs are ranked by. "rung not in the table (a frame, `value`, `estimate`)": 6, where the Rust panics.
    pub fn value(&self, rung: usize) -> Result<f64, u32> {
        self.known(rung).map(|rung| self.rate.value(rung))
    }

    pub fn estimate(&self, rung: usize) -> Result<f64, u32> {
        self.known(rung).map(|rung| self.rate.estimate(rung))
    }

    fn known(&self, rung: usize) -> Result<usize, u32> {
        if rung < self.rungs { Ok(rung) } else { Err(6) }
    }

    /// The rung to start at from an SNR: 8 where that is outside its limits.
    pub fn first_mode(&self, snr_db: f64) -> Result<usize, u32> {
        if DB.hold(snr_db) {
            Ok(self.rate.first_mode(snr_db))
        } else {
            Err(8)
        }
    }

    /// The Rust's `observe`, which is refused as an SNR call is, and touches no try.
    pub fn observe(&mut self, snr_db: Option<f64>) -> Answer {
        let verdict = within(DB.hold_reading(snr_db));
        if verdict == 0 {
            self.rate.observe(snr_db);
        }
        Answer {
            verdict,
            ended: false,
            begun: false,
        }
    }

    /// The number that the call is refused with, or 0.
    pub fn verdict(&self, event: &Event) -> u32 {
        match event {
            Event::Frames { snr_db, frames } => self.frames_verdict(frames, *snr_db),
            // "A missing echo reading is accepted and its SNR is not looked at."
            Event::Echo { share: None, .. } | Event::Silence(_) | Event::Families { .. } => 0,
            Event::Echo {
                share: Some(share),
                snr_db,
            } => within(SHARE.hold(*share) && DB.hold(*snr_db)),
            Event::Snr(snr_db) => within(DB.hold_reading(*snr_db)),
            Event::Prices {
                floor_s,
                ordinary_s,
                gap_s,
                bursts,
            } => prices_verdict([*floor_s, *ordinary_s, *gap_s], bursts),
            Event::Seed(snr_db) => within(DB.hold(*snr_db)),
        }
    }

    /// "in frames: 7 first, then the first bad frame (6 before 8), then the SNR"
    fn frames_verdict(&self, frames: &[Frame], snr_db: Option<f64>) -> u32 {
        if frames.len() > MOST_FRAMES {
            return 7;
        }
        let verdicts = frames.iter().map(|frame| self.frame_verdict(frame));
        let bad = verdicts.into_iter().find(|&number| number != 0);
        bad.unwrap_or_else(|| within(DB.hold_reading(snr_db)))
    }

    fn frame_verdict(&self, frame: &Frame) -> u32 {
        if usize::from(frame.rung) >= self.rungs {
            6
        } else {
            within(u32::from(frame.capacity) <= MOST_BYTES && AIR_S.hold(frame.air_s))
        }
    }

    /// The Rust's own method for a call that is not refused.
    #[inline(always)]
    pub fn apply(&mut self, event: &Event) {
        match event {
            Event::Frames { snr_db, frames } => {
                let frames: Vec<FrameOutcome> = frames.iter().map(outcome).collect();
                self.rate.observe_frames(&frames, *snr_db);
            }
            Event::Echo { share, snr_db } => self.rate.observe_echo(*share, *snr_db),
            Event::Silence(steps) => self.rate.silent(*steps as usize),
            Event::Snr(snr_db) => self.rate.observe_snr(*snr_db),
            Event::Families {
                own_floor,
                other_floor,
            } => self.rate.set_families(*own_floor, *other_floor),
            Event::Prices {
                floor_s,
                ordinary_s,
                gap_s,
                bursts,
            } => {
                let bursts: Vec<usize> = bursts.iter().map(|&n| n.into()).collect();
                let rate = &mut self.rate;
                rate.price_exchanges(*floor_s, *ordinary_s, *gap_s, &bursts);
            }
            Event::Seed(snr_db) => self.rate.seed(*snr_db),
        }
    }
}

/// 0 within the limits, 8 outside.
const fn within(holds: bool) -> u32 {
    if holds { 0 } else { 8 }
}

/// 8 before 9: "The lowest applicable number is given".
fn prices_verdict(lengths: [f64; 3], bursts: &[u16]) -> u32 {
    let held = lengths.iter().all(|&x| CONTROL_S.hold(x));
    if !held || bursts.iter().any(|&n| u32::from(n) > MOST_BURST) {
        8
    } else if bursts.len() > MOST_ENTRIES {
        9
    } else {
        0
    }
}

/// A frame as the Rust takes it.
pub fn outcome(frame: &Frame) -> FrameOutcome {
    FrameOutcome {
        mode: frame.rung.into(),
        air_s: frame.air_s,
        capacity: frame.capacity.into(),
        detected: frame.detected,
        decoded: frame.decoded,
        combined: frame.combined,
    }
}

#[cfg(test)]
mod tests {
    use super::*;
    use crate::draw::samples::{sample_frame as frame, sent};

    fn wide() -> Oracle {
        Oracle::new(&Table::wide(), true).unwrap()
    }

    /// Document 01's "six single frames rung 0 decoded": the sixth begins a try, three lost frames end it.
    #[test]
    fn a_try_begins_and_ends() {
        let mut oracle = wide();
        for _ in 0..5 {
            let answer = oracle.take(&sent(vec![frame(0, true)]));
            assert!(!answer.begun && !answer.ended && answer.verdict == 0);
        }
        assert!(oracle.take(&sent(vec![frame(0, true)])).begun);
        assert_eq!(oracle.rate.probing(), Some(1));
        let answer = oracle.take(&sent(vec![frame(1, false); 3]));
        assert!(answer.ended && !answer.begun && oracle.rate.probing().is_none());
    }

    #[test]
    fn frames_are_refused_in_order() {
        let mut oracle = wide();
        let mut bad = frame(0, true);
        bad.air_s = 61.0;
        let verdict = |oracle: &mut Oracle, frames| oracle.take(&sent(frames)).verdict;
        assert_eq!(verdict(&mut oracle, vec![frame(0, true); 256]), 0);
        assert_eq!(verdict(&mut oracle, vec![frame(20, true); 257]), 7);
        assert_eq!(verdict(&mut oracle, vec![bad, frame(20, true)]), 8);
        assert_eq!(verdict(&mut oracle, vec![frame(20, true), bad]), 6);
        bad.rung = 20;
        assert_eq!(verdict(&mut oracle, vec![bad]), 6);
    }

    #[test]
    fn prices_are_refused_by_the_lowest_number() {
        let mut bursts = vec![4; 33];
        assert_eq!(prices_verdict([0.0, -0.0, 60.0], &bursts), 9);
        bursts[32] = 1001;
        assert_eq!(prices_verdict([0.0; 3], &bursts), 8);
        assert_eq!(prices_verdict([0.0; 3], &[1000; 32]), 0);
    }

    #[test]
    fn reads_are_refused() {
        let oracle = wide();
        assert_eq!((oracle.value(20), oracle.estimate(20)), (Err(6), Err(6)));
        assert!(oracle.value(19).is_ok() && oracle.estimate(19).is_ok());
        let past = 200.0_f64.next_up();
        assert_eq!(oracle.first_mode(past), Err(8));
        assert_eq!(oracle.first_mode(200.0), Ok(19));
    }

    #[test]
    fn observe_takes_a_reading_within_the_limits() {
        let mut oracle = wide();
        assert_eq!(oracle.observe(Some(f64::NAN)).verdict, 8);
        assert_eq!(oracle.observe(None).verdict, 0);
        assert_eq!(oracle.rate.snr_db(), None);
        assert_eq!(oracle.observe(Some(7.0)).verdict, 0);
        assert_eq!(oracle.rate.snr_db(), Some(7.0));
    }

    #[test]
    fn ofdm_is_refused_after_a_lost_frame() {
        let mut oracle = wide();
        assert!(!oracle.ofdm_refused());
        let answer = oracle.take(&sent(vec![frame(7, false)]));
        assert!(oracle.ofdm_refused() && answer.verdict == 0);
    }
}
