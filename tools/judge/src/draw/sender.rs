//! The sender whose calls are drawn. A hidden path, with a signal and an echo of its own, decides which frames arrive;
//! the sender follows the controller's own recommendation, more or less, so that tries are won and lost. Some calls are
//! then spoiled.

use super::spoil::spoil;
use super::values::just_inside;
use crate::event::{Event, Frame};
use crate::limits::{
    AIR_S, CONTROL_S, DB, MOST_BURST, MOST_BYTES, MOST_ENTRIES, MOST_FRAMES, SHARE,
};
use crate::oracle::Oracle;
use crate::random::Random;
use crate::standin::{half, logistic};
use crate::table::Table;

/// The path that frames go over.
struct Path {
    snr_db: f64,
    /// How far the signal may move from one call to the next.
    drift_db: f64,
    /// How much worse each family fares than the signal says, floor first.
    worse_db: [f64; 2],
    slope_db: f64,
    echo: Echo,
}

/// How the path echoes: one share over and over, shares around the limit of the rung in use, or any.
#[derive(Clone, Copy)]
enum Echo {
    Stuck(f64),
    Gentle,
    Wild,
}

/// A signal at which the prior is exactly 1 on most rungs.
const STRONG_DB: f64 = 60.0;
/// How often each kind comes on a path with echoes.
const ECHOING: [usize; 7] = [60, 30, 3, 2, 1, 2, 2];

/// What sort of list it is: percentages, but for `kinds` and `most`.
struct Habits {
    /// How often each kind of call comes, kind 1 first.
    kinds: [usize; 7],
    /// The most frames of an ordinary call.
    most: usize,
    spoiled: usize,
    /// Frames at another rung than recommended.
    astray: usize,
    /// Calls that go at the choice while a try runs.
    deaf: usize,
    combined: usize,
    /// Frame calls with an SNR reading.
    heard: usize,
    /// Frames with another capacity or air than the table's.
    odd: usize,
}

/// A sender with a controller of its own, which takes each call.
pub struct Sender<'a> {
    table: &'a Table,
    oracle: Oracle,
    path: Path,
    habits: Habits,
}

impl<'a> Sender<'a> {
    pub fn new(random: &mut Random, table: &'a Table, oracle: Oracle) -> Self {
        Self {
            table,
            oracle,
            path: path(random, table),
            habits: habits(random),
        }
    }

    /// One on a path so strong that rungs that carry the same tie, and that echoes a lot.
    pub fn strong(random: &mut Random, table: &'a Table, oracle: Oracle) -> Self {
        let mut sender = Self::new(random, table, oracle);
        sender.path.snr_db = STRONG_DB;
        sender.habits.kinds = ECHOING;
        sender
    }

    /// Draws the calls one by one, each taken by the controller before the next.
    pub fn events(&mut self, random: &mut Random, count: usize) -> Vec<Event> {
        let mut events = Vec::with_capacity(count);
        let seeded = random.chance(60);
        for at in 0..count {
            self.move_on(random);
            let mut event = if at == 0 && seeded {
                Event::Seed(self.path.snr_db)
            } else {
                self.event(random)
            };
            if random.chance(self.habits.spoiled) {
                spoil(random, &mut event, self.table.rungs());
            }
            self.oracle.take(&event);
            events.push(event);
        }
        events
    }

    fn move_on(&mut self, random: &mut Random) {
        let path = &mut self.path;
        path.snr_db += random.span(-1.0, 1.0) * path.drift_db;
        if random.chance(1) {
            path.snr_db = near_a_rung(random, self.table);
        }
        path.snr_db = path.snr_db.clamp(DB.low, DB.high);
    }

    fn event(&self, random: &mut Random) -> Event {
        match kind(random, &self.habits.kinds) {
            0 => self.transmission(random),
            1 => self.echo(random),
            2 => Event::Silence(random.one(&[0, 1, 1, 1, 2, 2, 3, 5, 9, 31, 1 << 31, u32::MAX])),
            3 => Event::Snr(self.reading(random, 90)),
            4 => Event::Families {
                own_floor: random.chance(50),
                other_floor: random.chance(50),
            },
            5 => self.prices(random),
            _ => Event::Seed(self.reading(random, 100).unwrap_or(self.path.snr_db)),
        }
    }

    /// The path's signal, more or less, in `heard` of a hundred cases.
    fn reading(&self, random: &mut Random, heard: usize) -> Option<f64> {
        if !random.chance(heard) {
            return None;
        }
        if random.chance(3) {
            return Some(just_inside(random, DB));
        }
        let noise_db = random.one(&[0.0, 0.5, 3.0]);
        let read = self.path.snr_db + random.span(-1.0, 1.0) * noise_db;
        Some(read.clamp(DB.low, DB.high))
    }

    fn transmission(&self, random: &mut Random) -> Event {
        let snr_db = self.reading(random, self.habits.heard);
        let special = match random.below(100) {
            0..3 => self.landing(random),
            3..6 => self.ageing(random),
            6..50 => self.second(random),
            _ => None,
        };
        let frames = special.map_or_else(|| self.ordinary(random), |frame| vec![frame]);
        Event::Frames { snr_db, frames }
    }

    fn ordinary(&self, random: &mut Random) -> Vec<Frame> {
        let rate = &self.oracle.rate;
        let rung = if random.chance(self.habits.deaf) {
            rate.choice()
        } else {
            rate.recommend()
        };
        let count = self.count(random);
        (0..count).map(|_| self.frame(random, rung)).collect()
    }

    fn count(&self, random: &mut Random) -> usize {
        match random.below(200) {
            0 => random.one(&[MOST_FRAMES - 1, MOST_FRAMES, MOST_FRAMES]),
            1 => random.among(20, MOST_FRAMES),
            2..8 => 0,
            _ => random.among(1, self.habits.most),
        }
    }

    /// A frame at the rung given, or astray.
    fn frame(&self, random: &mut Random, rung: usize) -> Frame {
        let table = self.table;
        let rung = if random.chance(self.habits.astray) {
            let any = random.below(table.rungs());
            let above = (rung + random.below(4)).min(table.rungs() - 1);
            random.one(&[any, above])
        } else {
            rung
        };
        let decoded = random.span(0.0, 1.0) < self.chance(rung);
        let mut frame = Frame {
            rung: rung as u8,
            detected: decoded || random.chance(50),
            decoded,
            combined: random.chance(self.habits.combined),
            capacity: table.capacity[rung] as u16,
            air_s: table.frame_s[rung],
        };
        if random.chance(self.habits.odd) {
            frame.capacity = random.below(MOST_BYTES as usize + 1) as u16;
        }
        if random.chance(self.habits.odd) {
            let any = random.scale(AIR_S.low, AIR_S.high);
            frame.air_s = random.one(&[any, AIR_S.low, AIR_S.high, 0.1]);
        }
        frame
    }

    /// The chance that a frame at a rung arrives.
    fn chance(&self, rung: usize) -> f64 {
        let family = usize::from(rung >= self.table.floor_modes as usize);
        let snr_db = self.path.snr_db - self.path.worse_db[family];
        logistic(snr_db, self.table.thresholds[rung], self.path.slope_db)
    }

    /// A frame whose air brings the rung above to the end of its wait, to a bit or two.
    fn landing(&self, random: &mut Random) -> Option<Frame> {
        let rate = &self.oracle.rate;
        let mut frame = self.frame(random, rate.choice());
        let &above = rate.modes().get(rate.seen_index() + 1)?;
        let left = (rate.seen_wait_s(above) - 1e-9) - rate.seen_since(above);
        frame.air_s = random.beside(left, 2);
        AIR_S.hold(frame.air_s).then_some(frame)
    }

    /// A frame that ages the account of a rung above to exactly 2 frames, or to what a frame of its own makes 2.
    fn ageing(&self, random: &mut Random) -> Option<Frame> {
        let rung = self.above(|held| held > 1.0)?;
        let held = self.oracle.rate.account(rung).frames;
        let aged = |air_s: f64| held * half(air_s / (12.0 * self.table.frame_s[rung]));
        let wanted = random.one(&[2.0, 1.0 / half(1.0 / 12.0)]);
        let least = least_air(|air_s| aged(air_s) <= wanted)?;
        let mut near = (-10..10).map(|bits: i64| least.to_bits().wrapping_add_signed(bits));
        let hit = near.find(|&bits| {
            let held = aged(f64::from_bits(bits));
            held == 2.0 || two_with_own(held)
        });
        let mut frame = self.frame(random, self.oracle.rate.choice());
        frame.air_s = f64::from_bits(hit?);
        AIR_S.hold(frame.air_s).then_some(frame)
    }

    /// The frame of its own that makes such an account 2, with much data.
    fn second(&self, random: &mut Random) -> Option<Frame> {
        let rung = self.above(two_with_own)?;
        let mut frame = self.frame(random, rung);
        (frame.decoded, frame.capacity) = (true, MOST_BYTES as u16);
        Some(frame)
    }

    /// The lowest rung above the choice whose account holds such a number of frames.
    fn above(&self, holds: impl Fn(f64) -> bool) -> Option<usize> {
        let rate = &self.oracle.rate;
        let mut above = rate.modes().iter().skip(rate.seen_index() + 1);
        let found = above.find(|&&rung| holds(rate.account(rung).frames));
        found.copied()
    }

    fn echo(&self, random: &mut Random) -> Event {
        let share = match self.path.echo {
            _ if random.chance(8) => None,
            Echo::Stuck(echo) => Some(echo),
            Echo::Wild => Some(self.wild(random)),
            Echo::Gentle if random.chance(40) => Some(random.one(&[0.0, 0.0, 0.001])),
            Echo::Gentle => Some(self.pushed(random)),
        };
        let least = -6.0_f64;
        let snr_db = match random.below(10) {
            0 => random.one(&[least, least.next_down(), least.next_up()]),
            1 => just_inside(random, DB),
            2 => self.path.snr_db,
            _ => random.span(least, 30.0),
        };
        Event::Echo { share, snr_db }
    }

    /// A share near some limit, or any share.
    fn wild(&self, random: &mut Random) -> f64 {
        let limits: Vec<f64> = self.table.echo.iter().flatten().copied().collect();
        let share = match random.below(10) {
            0..4 if !limits.is_empty() => {
                let limit = random.one(&limits);
                random.beside(limit, 1)
            }
            4..6 => just_inside(random, SHARE),
            6..8 => random.span(0.0, 0.02),
            _ => random.span(0.0, 1.0),
        };
        share.clamp(SHARE.low, SHARE.high)
    }

    /// A share that brings the smoothed echo to the limit of the rung in use, or a little past it, either way.
    fn pushed(&self, random: &mut Random) -> f64 {
        let rate = &self.oracle.rate;
        let rung = random.one(&[rate.choice(), rate.recommend()]);
        let limit = rate.seen_echo_limit(rung).unwrap_or(0.5);
        let share = rate.echo().map_or(limit, |old| (limit - 0.6 * old) / 0.4);
        let share = share * random.one(&[1.0, 0.9, 1.1, 1.5]);
        share.clamp(SHARE.low, SHARE.high)
    }

    fn prices(&self, random: &mut Random) -> Event {
        let length = |random: &mut Random| match random.below(10) {
            0 => just_inside(random, CONTROL_S),
            1..4 => random.span(CONTROL_S.low, 6.0),
            _ => random.one(&[0.0, -0.0, 0.2, 0.527, 1.054, 2.88]),
        };
        let [floor_s, ordinary_s, gap_s] = [0; 3].map(|_| length(random));
        let rungs = self.table.rungs();
        let counts = match random.below(10) {
            0 => 0,
            1..3 => random.among(0, rungs),
            3 => random.among(rungs, MOST_ENTRIES),
            _ => rungs,
        };
        let usual = random.among(1, 12);
        let bursts = (0..counts).map(|_| match random.below(20) {
            0..2 => 0,
            2 => MOST_BURST as u16,
            3..6 => random.among(0, 20) as u16,
            _ => usual as u16,
        });
        let bursts = bursts.collect();
        Event::Prices {
            floor_s,
            ordinary_s,
            gap_s,
            bursts,
        }
    }
}

/// Whether an account of so many frames holds exactly 2 after one more of its own.
fn two_with_own(held: f64) -> bool {
    held * half(1.0 / 12.0) + 1.0 == 2.0
}

/// The least air with a property that more air has too; none if all air has it, or none.
fn least_air(has: impl Fn(f64) -> bool) -> Option<f64> {
    let (mut low, mut high) = (AIR_S.low, AIR_S.high);
    if has(low) || !has(high) {
        return None;
    }
    while high.next_down() > low {
        let middle = f64::from_bits(low.to_bits().midpoint(high.to_bits()));
        if has(middle) {
            high = middle;
        } else {
            low = middle;
        }
    }
    Some(high)
}

/// A kind of call by its weight, from 0.
fn kind(random: &mut Random, weights: &[usize; 7]) -> usize {
    let mut left = random.below(weights.iter().sum());
    let found = weights.iter().position(|&weight| {
        let here = left < weight;
        left = left.wrapping_sub(weight);
        here
    });
    found.unwrap_or(0)
}

fn path(random: &mut Random, table: &Table) -> Path {
    let strong = random.chance(15);
    Path {
        snr_db: if strong {
            STRONG_DB
        } else {
            near_a_rung(random, table)
        },
        drift_db: random.one(&[0.0, 0.2, 0.2, 1.5]),
        worse_db: random.one(&[
            [0.0; 2],
            [0.0; 2],
            [0.0, 4.0],
            [3.0, 0.0],
            [0.0, 25.0],
            [-8.0; 2],
        ]),
        slope_db: random.one(&[0.125, 0.5, 0.5, 2.0]),
        echo: echo(random, table),
    }
}

fn echo(random: &mut Random, table: &Table) -> Echo {
    let limits: Vec<f64> = table.echo.iter().flatten().copied().collect();
    match random.below(10) {
        0..2 if !limits.is_empty() => Echo::Stuck(random.one(&limits)),
        2..4 => Echo::Wild,
        _ => Echo::Gentle,
    }
}

/// A signal that some rung of the table is made for.
fn near_a_rung(random: &mut Random, table: &Table) -> f64 {
    let threshold = random.one(&table.thresholds);
    (threshold + random.span(-2.0, 6.0)).clamp(DB.low, DB.high)
}

fn habits(random: &mut Random) -> Habits {
    let kinds = [
        [80, 4, 3, 5, 2, 3, 3],
        [80, 4, 3, 5, 2, 3, 3],
        [97, 0, 0, 0, 0, 3, 0],
        [100, 0, 0, 0, 0, 0, 0],
        ECHOING,
        [50, 5, 30, 5, 3, 4, 3],
        [10, 10, 10, 10, 10, 10, 10],
    ];
    Habits {
        kinds: random.one(&kinds),
        most: random.one(&[1, 1, 3, 6, 12]),
        spoiled: random.one(&[0, 0, 5, 40]),
        astray: random.one(&[0, 0, 5, 30]),
        deaf: random.one(&[0, 0, 20, 100]),
        combined: random.one(&[0, 0, 5, 40]),
        heard: random.one(&[0, 50, 100]),
        odd: random.one(&[0, 0, 10, 60]),
    }
}
