//! The words of a line's hash, as the program `trace` mixes them in: what a controller is and what its reads answer, by
//! the Rust's own methods and, where they have no refusal, the oracle's. A missing thing is the word 0, and one that is
//! there a 1 before it; a refused one is its number, and an accepted one a 0 before it.

use crate::event::Event;
use crate::oracle::{Answer, Oracle};
use crate::rate::Account;

/// The SNRs that `first_mode` is asked at, the last one outside the limits.
pub const SNRS: [f64; 5] = [-10.0, 5.0, 20.0, 200.0, 201.0];
/// A rung past every table.
pub const FAR: usize = 40;

/// A word, and what it is of.
type Word = (&'static str, u64);

/// What begins a line where words are printed.
const STARTS: [&str; 5] = ["verdict", "place", "account", "to use", "asked"];

#[derive(Default)]
pub struct Words(Vec<Word>);

impl Words {
    /// The hash of the words.
    pub fn hash(&self) -> u64 {
        let step = |h: u64, word: &Word| {
            let turned = (h ^ word.1).rotate_left(29);
            turned.wrapping_add(0x9e37_79b9_7f4a_7c15)
        };
        self.0.iter().fold(0xcbf2_9ce4_8422_2325, step)
    }

    /// The words with what they are of, to find what differs.
    pub fn named(&self) -> String {
        let text = self.0.iter().map(|(name, word)| {
            let new_line = STARTS.contains(name);
            let start = if new_line { "\n    " } else { " " };
            format!("{start}{name} {word:x}")
        });
        text.collect()
    }

    /// Of an SNR call what `observe` says and leaves of its reading, on the controller before the call.
    pub fn observed(before: &Oracle, event: &Event) -> Option<Self> {
        let Event::Snr(snr_db) = event else {
            return None;
        };
        let mut oracle = before.clone();
        let answer = oracle.observe(*snr_db);
        Some(Self::left(answer, &oracle))
    }

    /// What a call says and leaves. (The Rust has one method for the call by value and in place.)
    pub fn left(answer: Answer, after: &Oracle) -> Self {
        let mut words = Self::default();
        words.word("verdict", answer.verdict.into());
        words.word("ended", answer.ended.into());
        words.word("begun", answer.begun.into());
        words.state(after);
        words
    }

    /// A controller: its state and what it answers, of the rungs of its table, of the next one past them, and of one
    /// far past them.
    pub fn controller(&mut self, oracle: &Oracle) {
        self.state(oracle);
        self.rungs_named(oracle);
        (0..oracle.rungs).for_each(|rung| self.asked(oracle, rung));
        self.asked(oracle, oracle.rungs);
        self.asked(oracle, FAR);
    }

    /// All of a controller but its table.
    fn state(&mut self, oracle: &Oracle) {
        self.core(oracle);
        self.prices(oracle);
        (0..oracle.rungs).for_each(|rung| self.moved(oracle, rung));
    }

    /// What the calls move of a rung.
    fn moved(&mut self, oracle: &Oracle, rung: usize) {
        let rate = &oracle.rate;
        self.account("account", rate.account(rung));
        self.float("since", rate.seen_since(rung));
        self.word("wait", rate.seen_wait(rung) as u64);
    }

    /// What the calls move, but for what they move of each rung.
    fn core(&mut self, oracle: &Oracle) {
        let rate = &oracle.rate;
        self.word("place", rate.seen_index() as u64);
        self.option("try", rate.probing(), |words, rung| {
            words.word("rung", rung as u64);
            words.word("calls", rate.seen_probe_tries() as u64);
            words.word("frames", rate.seen_try_frames() as u64);
        });
        self.reading("snr", rate.snr_db());
        self.reading("echo", rate.echo());
        let [floor, ofdm] = rate.family_offsets();
        self.float("floor", floor);
        self.float("OFDM", ofdm);
        self.word("failed", rate.seen_ofdm_failed().into());
        self.rung("clean", rate.seen_clean_at());
    }

    /// The prices and the families last set.
    fn prices(&mut self, oracle: &Oracle) {
        let rate = &oracle.rate;
        let control_s = rate.seen_control_s();
        self.option("prices", control_s, |words, [floor, ordinary]| {
            words.float("floor", floor);
            words.float("ordinary", ordinary);
            words.float("gap", rate.seen_gap_s());
            let bursts = rate.seen_burst_frames();
            words.word("bursts", bursts.len() as u64);
            bursts.iter().for_each(|&n| words.word("=", n as u64));
        });
        self.option("families", rate.families(), |words, (own, other)| {
            words.word("own", own.into());
            words.word("other", other.into());
        });
    }

    /// The rungs that it names: to use, tried, usable, and to start at from each SNR.
    fn rungs_named(&mut self, oracle: &Oracle) {
        let rate = &oracle.rate;
        self.word("to use", rate.recommend() as u64);
        self.rung("tried", rate.probing());
        let modes = rate.modes();
        self.word("modes", modes.len() as u64);
        modes.iter().for_each(|&rung| self.word("=", rung as u64));
        for snr_db in SNRS {
            let first = oracle.first_mode(snr_db);
            self.answer("first", first, |words, rung| words.word("=", rung as u64));
        }
    }

    /// What it answers of a rung, which may be outside the table.
    fn asked(&mut self, oracle: &Oracle, rung: usize) {
        let rate = &oracle.rate;
        self.account("asked", rate.account(rung));
        self.reading("threshold", rate.threshold_db(rung));
        let rated = |words: &mut Self, x| words.float("=", x);
        self.answer("value", oracle.value(rung), rated);
        self.answer("estimate", oracle.estimate(rung), rated);
        self.float("lossless", rate.lossless(rung));
        self.word("refused", rate.refuses(rung).into());
    }
}

/// What a value's words are.
impl Words {
    fn word(&mut self, name: &'static str, word: u64) {
        self.0.push((name, word));
    }

    fn float(&mut self, name: &'static str, x: f64) {
        self.word(name, bits(x));
    }

    /// What may be missing.
    fn option<T>(&mut self, name: &'static str, x: Option<T>, put: impl FnOnce(&mut Self, T)) {
        self.word(name, x.is_some().into());
        if let Some(x) = x {
            put(self, x);
        }
    }

    fn account(&mut self, name: &'static str, account: Account) {
        self.float(name, account.bytes);
        self.float("air", account.air_s);
        self.float("frames", account.frames);
    }

    fn reading(&mut self, name: &'static str, x: Option<f64>) {
        self.option(name, x, |words, x| words.float("=", x));
    }

    fn rung(&mut self, name: &'static str, rung: Option<usize>) {
        self.option(name, rung, |words, rung| words.word("=", rung as u64));
    }

    /// What may be refused.
    fn answer<T>(&mut self, name: &'static str, x: Result<T, u32>, put: impl FnOnce(&mut Self, T)) {
        match x {
            Ok(x) => {
                self.word(name, 0);
                put(self, x);
            }
            Err(number) => self.word(name, number.into()),
        }
    }
}

/// A value's bits, one pattern for every NaN.
const fn bits(x: f64) -> u64 {
    if x.is_nan() {
        0x7ff8_0000_0000_0000
    } else {
        x.to_bits()
    }
}
