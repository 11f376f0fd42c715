//! What the calls that only read were asked, as the program `trace` asks them after each call, and `observe` and
//! `observe_frame` by value: a comparison that never saw a rung refused, or a try to recommend, would say little of them.

use crate::counts::{self, Count, named};
use crate::coverage::tied;
use crate::event::Event;
use crate::limits::{DB, MOST_ENTRIES};
use crate::oracle::Oracle;
use crate::words::SNRS;

/// What a read may answer that a comparison should have seen.
#[derive(Clone, Copy)]
enum Seen {
    UseTried,
    UseChoice,
    SnrMissing,
    SnrKnown,
    EchoMissing,
    EchoKnown,
    FamiliesMissing,
    FamiliesKnown,
    OffsetsDiffer,
    FirstUnder,
    FirstAtChoice,
    FirstAbove,
    FirstTie,
    FirstNoPlace,
    FirstRefused,
    PastShortTable,
    PastFullTable,
    PastRefused,
    FamiliesRefuseApart,
    ObserveMissing,
    ObserveFirst,
    ObserveSmooths,
    ObserveRefused,
    OneFrame,
    OneFrameRefused,
}

const NAMES: [&str; 25] = [
    "recommend: the tried rung",
    "recommend: the choice",
    "snr_db: missing",
    "snr_db: known",
    "echo: none yet",
    "echo: smoothed",
    "families: none set",
    "families: set",
    "family_offsets: they differ",
    "first_mode: under the choice",
    "first_mode: the choice",
    "first_mode: above the choice",
    "first_mode: tie",
    "first_mode: no place allowed",
    "first_mode: refused 8",
    "rungs past a short table",
    "rungs past one of 32",
    "refuses: past the table",
    "refuses: OFDM, not floor",
    "observe: missing",
    "observe: the first reading",
    "observe: smoothed",
    "observe: refused 8",
    "observe_frame: accepted",
    "observe_frame: refused",
];

#[derive(Clone)]
pub struct Asked {
    seen: [u64; NAMES.len()],
}

impl Default for Asked {
    fn default() -> Self {
        let seen = [0; NAMES.len()];
        Self { seen }
    }
}

impl Asked {
    const fn see(&mut self, what: Seen) {
        self.seen[what as usize] += 1;
    }

    const fn see_if(&mut self, happened: bool, what: Seen) {
        if happened {
            self.see(what);
        }
    }

    /// Sees one of two.
    const fn see_either(&mut self, happened: bool, what: Seen, other: Seen) {
        self.see(if happened { what } else { other });
    }

    /// Of the calls by value those that have no kind of their own, before the call.
    pub fn by_value(&mut self, before: &Oracle, event: &Event) {
        match event {
            Event::Snr(reading) => self.observe(before, *reading),
            Event::Frames { frames, .. } if frames.len() == 1 => {
                let accepted = before.verdict(event) == 0;
                self.see_either(accepted, Seen::OneFrame, Seen::OneFrameRefused);
            }
            _ => {}
        }
    }

    /// `observe` of an SNR call's reading.
    fn observe(&mut self, before: &Oracle, reading: Option<f64>) {
        let known = before.rate.snr_db().is_some();
        self.see(match reading {
            None => Seen::ObserveMissing,
            Some(snr_db) if !DB.hold(snr_db) => Seen::ObserveRefused,
            Some(_) if known => Seen::ObserveSmooths,
            Some(_) => Seen::ObserveFirst,
        });
    }

    /// The reads after a call.
    pub fn reads(&mut self, oracle: &Oracle) {
        let rate = &oracle.rate;
        let tried = rate.probing().is_some();
        self.see_either(tried, Seen::UseTried, Seen::UseChoice);
        let known = rate.snr_db().is_some();
        self.see_either(known, Seen::SnrKnown, Seen::SnrMissing);
        let known = rate.echo().is_some();
        self.see_either(known, Seen::EchoKnown, Seen::EchoMissing);
        let known = rate.families().is_some();
        self.see_either(known, Seen::FamiliesKnown, Seen::FamiliesMissing);
        let [floor, ofdm] = rate.family_offsets();
        self.see_if(floor != ofdm, Seen::OffsetsDiffer);
        SNRS.iter().for_each(|&snr_db| self.first(oracle, snr_db));
        self.rungs(oracle);
    }

    /// `first_mode` at an SNR.
    fn first(&mut self, oracle: &Oracle, snr_db: f64) {
        let rate = &oracle.rate;
        let Ok(first) = oracle.first_mode(snr_db) else {
            return self.see(Seen::FirstRefused);
        };
        let choice = rate.choice();
        self.see_if(first < choice, Seen::FirstUnder);
        self.see_if(first == choice, Seen::FirstAtChoice);
        self.see_if(first > choice, Seen::FirstAbove);
        let modes = rate.modes().iter().enumerate();
        let allowed = modes.filter(|(place, _)| rate.seen_usable(*place));
        let value = |rung| rate.seen_priced(rung, rate.seen_estimate_at(rung, Some(snr_db)));
        let values: Vec<f64> = allowed.map(|(_, &rung)| value(rung)).collect();
        self.see_if(tied(&values), Seen::FirstTie);
        self.see_if(values.is_empty(), Seen::FirstNoPlace);
    }

    /// The rungs of both families, and those past the table.
    fn rungs(&mut self, oracle: &Oracle) {
        let full = oracle.rungs == MOST_ENTRIES;
        self.see_either(full, Seen::PastFullTable, Seen::PastShortTable);
        let refused = |rung| oracle.rate.refuses(rung);
        self.see_if(refused(oracle.rungs), Seen::PastRefused);
        let floors = oracle.rate.seen_floor_modes();
        let apart = (1..oracle.rungs).contains(&floors) && refused(floors);
        self.see_if(apart, Seen::FamiliesRefuseApart);
    }

    pub fn counts(&self) -> Vec<Count> {
        named(&NAMES, &self.seen)
    }

    pub fn add(&mut self, other: &Self) {
        counts::add(&mut self.seen, &other.seen);
    }
}
