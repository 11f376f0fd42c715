//! What lists of calls covered, told from the controller before and after each call: a comparison that never saw a try
//! lost, or a rung ruled out, would say little.

use crate::asked::Asked;
use crate::counts::{self, Count, Refusals, named, refused};
use crate::event::{Event, Frame, KINDS};
use crate::limits::MOST_ENTRIES;
use crate::oracle::{Answer, Oracle};
use crate::rate::RateController;

/// What a call may do that a comparison should have seen.
#[derive(Clone, Copy)]
enum Seen {
    TryWon,
    TryLost,
    TryWithoutFrames,
    TryCut,
    TryEndedByEcho,
    TryEndedBySilence,
    BegunByWaiting,
    BegunByCleanClimb,
    BegunByBoth,
    BegunAgain,
    WonUp,
    DecidedUp,
    DecidedDown,
    Tie,
    TwoFrames,
    NoPlace,
    OtherBetter,
    OtherWorse,
    OtherOffFront,
    NoFrames,
    EchoMoved,
    EchoTie,
    EchoNoneUnder,
    EchoAtLimit,
    EchoMissing,
    EchoTooWeak,
    SilenceMoved,
    SilencePassedOver,
    SilenceNoneUnder,
    SeedMoved,
    SeedTie,
    SeedIgnored,
    SeedInTry,
    RefusedByMark,
    RefusedAllOut,
    Priced,
    PricedByFamilies,
    BurstZero,
    BurstAbsent,
    Wait12,
    Wait24,
    Wait48,
    WaitKept48,
    WaitBack,
    OffsetLowest,
    OffsetHighest,
}

const NAMES: [&str; 46] = [
    "try won",
    "try lost",
    "try over without frames",
    "try cut off by decide",
    "try ended by echo",
    "try ended by silence",
    "begun by waiting alone",
    "begun by clean_climb alone",
    "begun by both",
    "begun again, same rung",
    "choice up by a won try",
    "choice up by decide",
    "choice down by decide",
    "tie for greatest value",
    "exactly 2 frames above",
    "no place allowed",
    "other rung judged better",
    "other rung judged worse",
    "off the front judged",
    "no frames in the list",
    "choice moved by echo",
    "echo: tie under the choice",
    "echo: none allowed under",
    "echo exactly at a limit",
    "echo missing",
    "echo under -6 dB",
    "choice moved by silence",
    "silence passed a rung out",
    "silence: none allowed",
    "choice moved by seed",
    "seed: tie for greatest",
    "seed with SNR known",
    "seed while a try runs",
    "OFDM refused by the mark",
    "OFDM refused, all out",
    "choice is priced",
    "priced, families set",
    "choice's burst 0",
    "choice's burst absent",
    "wait becomes 12",
    "wait becomes 24",
    "wait becomes 48",
    "wait stays 48, lost",
    "wait back to 6",
    "an offset at -5",
    "an offset at 20",
];

/// Which verdicts each kind of call can get.
const VERDICTS: [&[usize]; 7] = [
    &[0, 6, 7, 8],
    &[0, 8],
    &[0],
    &[0, 8],
    &[0],
    &[0, 8, 9],
    &[0, 8],
];
const MARKS: [&str; 4] = ["marks 0 0", "marks 1 0", "marks 0 1", "marks 1 1"];

/// The refusals that `trace` can give a table: columns of differing lengths cannot be put to it.
const TABLES: [usize; 5] = [0, 1, 3, 4, 5];

#[derive(Clone)]
pub struct Coverage {
    /// Verdicts on tables, and on calls by kind.
    tables: Refusals,
    verdicts: [Refusals; 7],
    marks: [u64; 4],
    seen: [u64; NAMES.len()],
    /// What was asked, of lists that `trace` plays.
    pub asked: Asked,
}

impl Default for Coverage {
    fn default() -> Self {
        Self {
            tables: [0; 15],
            verdicts: [[0; 15]; 7],
            marks: [0; 4],
            seen: [0; NAMES.len()],
            asked: Asked::default(),
        }
    }
}

impl Coverage {
    /// Counts a table: its refusal, or 0.
    pub const fn table(&mut self, verdict: u32) {
        self.tables[verdict as usize] += 1;
    }

    /// Has the controller take a call, and looks at what it does.
    pub fn take(&mut self, oracle: &mut Oracle, event: &Event) -> Answer {
        let before = oracle.clone();
        let answer = oracle.take(event);
        self.watch(&before, event, answer, oracle);
        answer
    }

    fn watch(&mut self, before: &Oracle, event: &Event, answer: Answer, after: &Oracle) {
        let kind = usize::from(event.kind()) - 1;
        self.verdicts[kind][answer.verdict as usize] += 1;
        if answer.verdict != 0 {
            return;
        }
        self.marks[usize::from(answer.ended) + 2 * usize::from(answer.begun)] += 1;
        let (before, after) = (&before.rate, &after.rate);
        match event {
            Event::Frames { frames, .. } if frames.is_empty() => self.see(Seen::NoFrames),
            Event::Frames { frames, .. } => self.transmission(before, frames, answer, after),
            Event::Echo { share, snr_db } => self.echo(before, *share, *snr_db, answer, after),
            Event::Silence(steps) => self.silence(before, *steps, answer, after),
            Event::Seed(_) => self.seed(before, after),
            _ => {}
        }
        self.state(before, after);
    }

    const fn see(&mut self, what: Seen) {
        self.seen[what as usize] += 1;
    }

    const fn see_if(&mut self, happened: bool, what: Seen) {
        if happened {
            self.see(what);
        }
    }

    fn transmission(
        &mut self,
        before: &RateController,
        frames: &[Frame],
        answer: Answer,
        after: &RateController,
    ) {
        self.others(before, frames, after);
        let won = self.try_end(before, frames, answer, after);
        let won_at = won.and_then(|rung| place(after, rung));
        self.see_if(won_at.is_some(), Seen::WonUp);
        let start = won_at.unwrap_or_else(|| before.seen_index());
        self.decided(start, after);
        if answer.begun {
            self.begun(before, frames, won_at, after);
        }
    }

    /// How a running try went on: the rung that won, if it did.
    fn try_end(
        &mut self,
        before: &RateController,
        frames: &[Frame],
        answer: Answer,
        after: &RateController,
    ) -> Option<usize> {
        let tried = before.probing()?;
        let own = before.seen_try_frames() + count_at(frames, tried);
        let over = own >= 3 || before.seen_probe_tries() + 1 >= 6;
        let won = over && own > 0 && after.seen_wait(tried) == 6;
        self.see_if(won, Seen::TryWon);
        self.see_if(over && own > 0 && !won, Seen::TryLost);
        self.see_if(over && own == 0, Seen::TryWithoutFrames);
        self.see_if(!over && answer.ended, Seen::TryCut);
        let again = answer.ended && after.probing() == Some(tried);
        self.see_if(again, Seen::BegunAgain);
        won.then_some(tried)
    }

    /// Rungs above the choice that were sent at and not tried.
    fn others(&mut self, before: &RateController, frames: &[Frame], after: &RateController) {
        for rung in before.choice() + 1..MOST_ENTRIES {
            if !other_judged(before, frames, rung) {
                continue;
            }
            let better = after.seen_wait(rung) == 6;
            self.see_if(better, Seen::OtherBetter);
            self.see_if(!better, Seen::OtherWorse);
            self.see_if(place(after, rung).is_none(), Seen::OtherOffFront);
        }
    }

    /// What `decide` did from the place where it started.
    fn decided(&mut self, start: usize, after: &RateController) {
        let modes = after.modes();
        let measured = |i: usize| after.account(modes[i]).frames > 2.0;
        let places = 0..modes.len();
        let allowed = places.filter(|&i| after.seen_usable(i) && (i <= start || measured(i)));
        let values: Vec<f64> = allowed.map(|i| after.value(modes[i])).collect();
        self.see_if(tied(&values), Seen::Tie);
        let mut above = modes.iter().skip(start + 1);
        let two = above.any(|&rung| after.account(rung).frames == 2.0);
        self.see_if(two, Seen::TwoFrames);
        self.see_if(values.is_empty(), Seen::NoPlace);
        self.see_if(after.seen_index() > start, Seen::DecidedUp);
        let down = !values.is_empty() && after.seen_index() < start;
        self.see_if(down, Seen::DecidedDown);
    }

    /// Why a try began.
    fn begun(
        &mut self,
        before: &RateController,
        frames: &[Frame],
        won_at: Option<usize>,
        after: &RateController,
    ) {
        let rung = after.probing().expect("a try that began runs");
        let granted = won_at.is_some_and(|at| place(after, rung) == Some(at + 1));
        let own = before.seen_try_frames() + count_at(frames, rung);
        let tried = before.probing() == Some(rung) && own > 0;
        let judged = tried || other_judged(before, frames, rung);
        let since = if granted {
            after.seen_wait_s(rung)
        } else if judged && after.seen_wait(rung) != 6 {
            0.0
        } else {
            before.seen_since(rung) + frames.iter().map(|frame| frame.air_s).sum::<f64>()
        };
        let waited = since >= after.seen_wait_s(rung) - 1e-9;
        self.see(match (waited, after.seen_clean_climb(rung)) {
            (true, true) => Seen::BegunByBoth,
            (true, false) => Seen::BegunByWaiting,
            _ => Seen::BegunByCleanClimb,
        });
    }

    fn echo(
        &mut self,
        before: &RateController,
        share: Option<f64>,
        snr_db: f64,
        answer: Answer,
        after: &RateController,
    ) {
        if share.is_none() {
            return self.see(Seen::EchoMissing);
        }
        if snr_db < -6.0 {
            return self.see(Seen::EchoTooWeak);
        }
        let modes = after.modes().iter();
        let mut limits = modes.filter_map(|&rung| after.seen_echo_limit(rung));
        let at_limit = limits.any(|limit| after.seen_echo() == Some(limit));
        self.see_if(at_limit, Seen::EchoAtLimit);
        self.see_if(answer.ended, Seen::TryEndedByEcho);
        self.see_if(moved(before, after), Seen::EchoMoved);
        let under = allowed_values(after, before.seen_index());
        self.see_if(moved(before, after) && tied(&under), Seen::EchoTie);
        let none = moved(before, after) && !after.seen_usable(after.seen_index());
        self.see_if(none, Seen::EchoNoneUnder);
    }

    fn silence(
        &mut self,
        before: &RateController,
        steps: u32,
        answer: Answer,
        after: &RateController,
    ) {
        self.see_if(answer.ended, Seen::TryEndedBySilence);
        self.see_if(moved(before, after), Seen::SilenceMoved);
        let wanted = before.seen_index().saturating_sub(steps as usize);
        self.see_if(after.seen_index() < wanted, Seen::SilencePassedOver);
        let none = !after.seen_usable(after.seen_index());
        self.see_if(none, Seen::SilenceNoneUnder);
    }

    fn seed(&mut self, before: &RateController, after: &RateController) {
        self.see_if(before.seen_snr_db().is_some(), Seen::SeedIgnored);
        self.see_if(moved(before, after), Seen::SeedMoved);
        let new = before.seen_snr_db().is_none();
        let values = allowed_values(after, after.modes().len());
        self.see_if(new && tied(&values), Seen::SeedTie);
        self.see_if(new && before.probing().is_some(), Seen::SeedInTry);
    }

    /// What an accepted call left behind.
    fn state(&mut self, before: &RateController, after: &RateController) {
        let floor = after.seen_floor_modes();
        if after.refuses(floor) {
            let marked = after.seen_ofdm_failed() && after.choice() < floor;
            self.see(if marked {
                Seen::RefusedByMark
            } else {
                Seen::RefusedAllOut
            });
        }
        if after.seen_control_s().is_some() {
            let burst = after.seen_burst_frames().get(after.choice());
            let priced = burst.is_some_and(|&n| n > 0);
            self.see_if(priced, Seen::Priced);
            let families = after.seen_families().is_some();
            self.see_if(priced && families, Seen::PricedByFamilies);
            self.see_if(burst == Some(&0), Seen::BurstZero);
            self.see_if(burst.is_none(), Seen::BurstAbsent);
        }
        self.waits(before, after);
        let offsets = after.family_offsets();
        self.see_if(offsets.contains(&-5.0), Seen::OffsetLowest);
        self.see_if(offsets.contains(&20.0), Seen::OffsetHighest);
    }

    fn waits(&mut self, before: &RateController, after: &RateController) {
        for rung in 0..MOST_ENTRIES {
            let (old, new) = (before.seen_wait(rung), after.seen_wait(rung));
            let reset = after.seen_since(rung) == 0.0 && before.seen_since(rung) != 0.0;
            let stays = old == 48 && new == 48 && reset && after.probing() != Some(rung);
            self.see_if(stays, Seen::WaitKept48);
            if old == new {
                continue;
            }
            self.see(match new {
                12 => Seen::Wait12,
                24 => Seen::Wait24,
                48 => Seen::Wait48,
                _ => Seen::WaitBack,
            });
        }
    }

    /// Every count with its name.
    pub fn counts(&self) -> Vec<Count> {
        let mut all = refused("table", &TABLES, &self.tables);
        all.extend(self.calls());
        all.extend(self.asked.counts());
        all
    }

    /// The counts of calls.
    pub fn calls(&self) -> Vec<Count> {
        let kinds = VERDICTS.iter().zip(KINDS).zip(&self.verdicts);
        let verdicts = kinds.flat_map(|((numbers, kind), counts)| refused(kind, numbers, counts));
        let mut all: Vec<Count> = verdicts.collect();
        all.extend(named(&MARKS, &self.marks));
        all.extend(named(&NAMES, &self.seen));
        all
    }

    /// The refusals of tables and calls.
    pub fn refusals(&self) -> Refusals {
        let mut all = self.tables;
        self.verdicts
            .iter()
            .for_each(|kind| counts::add(&mut all, kind));
        all
    }

    /// Whether the other has seen something that this has not.
    pub fn lacks(&self, other: &Self) -> bool {
        let pairs = self.counts().into_iter().zip(other.counts());
        pairs
            .into_iter()
            .any(|(own, other)| own.1 == 0 && other.1 > 0)
    }

    pub fn add(&mut self, other: &Self) {
        counts::add(&mut self.tables, &other.tables);
        counts::add(&mut self.marks, &other.marks);
        counts::add(&mut self.seen, &other.seen);
        self.asked.add(&other.asked);
        for (own, other) in self.verdicts.iter_mut().zip(&other.verdicts) {
            counts::add(own, other);
        }
    }
}

fn moved(before: &RateController, after: &RateController) -> bool {
    before.seen_index() != after.seen_index()
}

fn place(rate: &RateController, rung: usize) -> Option<usize> {
    rate.modes().iter().position(|&mode| mode == rung)
}

/// The values of the allowed places under one.
fn allowed_values(rate: &RateController, end: usize) -> Vec<f64> {
    let allowed = (0..end).filter(|&i| rate.seen_usable(i));
    allowed.map(|i| rate.value(rate.modes()[i])).collect()
}

/// Whether two values are the greatest.
pub(crate) fn tied(values: &[f64]) -> bool {
    let greatest = values.iter().copied().fold(f64::NEG_INFINITY, f64::max);
    let ties = values.iter().filter(|&&value| value == greatest);
    ties.count() > 1
}

fn count_at(frames: &[Frame], rung: usize) -> usize {
    let at = frames
        .iter()
        .filter(|frame| usize::from(frame.rung) == rung);
    at.count()
}

/// Whether frames went at a rung above the choice that is not the one being tried.
fn other_judged(before: &RateController, frames: &[Frame], rung: usize) -> bool {
    rung > before.choice() && before.probing() != Some(rung) && count_at(frames, rung) > 0
}
