//! Tables to draw: with ties in worth and threshold, with long fronts, anywhere within the limits, and with faults.

use super::values::{edges, whole_edges};
use crate::limits::{AIR_S, DB, MOST_BYTES, MOST_ENTRIES, SHARE};
use crate::random::Random;
use crate::table::Table;

/// Thresholds that ties are made of; both zeros are one height.
const THRESHOLDS: [f64; 10] = [
    -200.0, -19.0, -17.3, -5.1, -0.0, 0.0, 5e-324, 1.4, 16.9, 200.0,
];
/// Payloads that ties are made of; up to 3 the worth is 0.
const PAYLOADS: [u32; 14] = [0, 1, 2, 3, 4, 5, 15, 24, 45, 75, 147, 291, 4095, 4096];
/// Frame times that ties are made of.
const FRAME_S: [f64; 7] = [0.001, 0.527, 1.0, 1.054, 2.108, 5.36, 60.0];
/// Echo limits, the airs' own among them.
const ECHO_LIMITS: [f64; 8] = [0.0, -0.0, 0.0038, 0.0073, 0.05, 0.1, 0.5, 1.0];
/// Column lengths that faults are made of.
const LENGTHS: [usize; 9] = [0, 1, 2, 15, 20, 31, 32, 33, 40];

/// A class of tables to draw.
pub type Class = (&'static str, fn(&mut Random) -> Table);

/// The classes; the tables of the last two have faults.
pub const CLASSES: [Class; 9] = [
    ("ties", ties),
    ("worthless", worthless),
    ("near ties", near_ties),
    ("ladder", ladder),
    ("within", within),
    ("equal rungs", equal_rungs),
    ("airs", airs),
    ("one fault", one_fault),
    ("faults", faults),
];

/// Many equal thresholds, payloads and frame times.
pub fn ties(random: &mut Random) -> Table {
    let thresholds = random.few(&THRESHOLDS, 6);
    let payloads = random.few(&PAYLOADS, 6);
    let frames = random.few(&FRAME_S, 3);
    rows(random, |r| {
        (r.one(&thresholds), r.one(&payloads), r.one(&frames))
    })
}

/// Payloads around the header, most of no worth.
pub fn worthless(random: &mut Random) -> Table {
    let thresholds = random.few(&THRESHOLDS, 10);
    let frames = random.few(&FRAME_S, 3);
    let most = random.among(2, 6);
    rows(random, |r| {
        let payload = r.below(most + 1) as u32;
        (r.one(&thresholds), payload, r.one(&frames))
    })
}

/// Worths that are one number, but for the rounding of the frame time.
pub fn near_ties(random: &mut Random) -> Table {
    let thresholds = random.few(&THRESHOLDS, 3);
    let data = random.among(1, 200) as u32;
    let frame_s = random.scale(0.001, 3.0);
    rows(random, |r| {
        let times = r.among(1, 20) as u32;
        let near = r.beside(frame_s * f64::from(times), 1).max(AIR_S.low);
        (r.one(&thresholds), data * times + 3, near)
    })
}

/// Thresholds and payloads that rise together, sometimes by nothing: long fronts.
pub fn ladder(random: &mut Random) -> Table {
    let step_db = random.span(0.2, 3.0);
    let most_bytes = random.among(2, 120);
    let stays = random.one(&[0, 0, 2, 10]);
    let lengths = random.few(&FRAME_S, 2);
    let floor = random.below(MOST_ENTRIES);
    let (mut threshold, mut payload, mut at) = (random.span(-25.0, 0.0), 3, 0);
    rows(random, |r| {
        if !r.chance(stays) {
            threshold += r.span(0.0, 2.0) * step_db;
        }
        if !r.chance(stays) {
            payload += r.among(1, most_bytes) as u32;
        }
        at += 1;
        let frame_s = lengths[usize::from(at > floor) % lengths.len()];
        (threshold.min(DB.high), payload.min(MOST_BYTES), frame_s)
    })
}

/// A ladder in two parts: the rungs of each carry the same in the same time, so that values tie, and an echo may rule
/// out the upper part alone.
pub fn level(random: &mut Random) -> Table {
    let mut table = ladder(random);
    let rungs = table.rungs();
    let upper = random.among(0, rungs);
    let (low, high) = random.one(&[(20, 21), (20, 100), (0, 20), (100, 20)]);
    table.capacity.fill(low);
    table.capacity[upper..].fill(high);
    table.frame_s.fill(random.one(&FRAME_S));
    table.echo = vec![None; rungs];
    table.echo[upper..].fill(Some(random.one(&ECHO_LIMITS)));
    table
}

/// Any values within the limits.
pub fn within(random: &mut Random) -> Table {
    rows(random, |r| {
        let payload = r.below(MOST_BYTES as usize + 1) as u32;
        let frame_s = r.scale(AIR_S.low, AIR_S.high);
        (r.span(DB.low, DB.high), payload, frame_s)
    })
}

/// Each rung of another table more than once: equal rungs remove each other.
pub fn equal_rungs(random: &mut Random) -> Table {
    let base = random.one(&[ties, near_ties, ladder])(random);
    let mut order: Vec<usize> = (0..base.rungs()).collect();
    order.truncate(MOST_ENTRIES / 2);
    order.extend(order.clone());
    if random.chance(50) {
        order.truncate(random.among(1, order.len()));
    }
    random.shuffle(&mut order);
    chosen(random, &base, &order)
}

/// The airs' own tables and the one that tells data from payload, some with one rung's value given to another.
pub fn airs(random: &mut Random) -> Table {
    let mut table = random.one(&[Table::wide, Table::narrow, Table::header])();
    if random.chance(70) {
        let [from, to] = [0; 2].map(|_| random.below(table.rungs()));
        match random.below(3) {
            0 => table.thresholds[to] = table.thresholds[from],
            1 => table.payload[to] = table.payload[from],
            _ => table.frame_s[to] = table.frame_s[from],
        }
    }
    table
}

/// An air's own rungs with other capacities, floors and echo limits.
pub fn refitted_air(random: &mut Random) -> Table {
    let mut table = random.one(&[Table::wide, Table::narrow])();
    fill(random, &mut table);
    table
}

/// A table of one to three rungs.
pub fn short(random: &mut Random) -> Table {
    let mut table = random.one(&[ladder, ties, within])(random);
    let rungs = random.among(1, 3).min(table.rungs());
    set_lengths(rungs, &mut table);
    fill(random, &mut table);
    table
}

/// A table of any kind above.
pub fn any(random: &mut Random) -> Table {
    let kinds = [
        ties,
        worthless,
        near_ties,
        ladder,
        within,
        equal_rungs,
        airs,
    ];
    random.one(&kinds)(random)
}

/// A table with one value, length or count moved to an end of what is allowed, or past it.
pub fn one_fault(random: &mut Random) -> Table {
    let mut table = any(random);
    fault(random, &mut table);
    table
}

/// A table with several such faults.
pub fn faults(random: &mut Random) -> Table {
    let mut table = any(random);
    for _ in 0..random.among(2, 5) {
        fault(random, &mut table);
    }
    table
}

/// A table with one fault other than columns of differing lengths or over 32 entries.
pub fn even_fault(random: &mut Random) -> Table {
    loop {
        let table = one_fault(random);
        if even(&table) {
            return table;
        }
    }
}

/// Whether a table can be given to `trace`: columns of one length, and none over 32.
pub fn even(table: &Table) -> bool {
    let (rungs, echo) = (table.rungs(), table.echo.len());
    let lengths = [
        table.payload.len(),
        table.capacity.len(),
        table.frame_s.len(),
    ];
    lengths == [rungs; 3] && rungs.max(echo) <= MOST_ENTRIES
}

fn fault(random: &mut Random, table: &mut Table) {
    match random.below(11) {
        0 => put(random, &mut table.thresholds, &edges(DB)),
        1 => put(random, &mut table.frame_s, &edges(AIR_S)),
        2 => put(random, &mut table.payload, &whole_edges(MOST_BYTES)),
        3 => put(random, &mut table.capacity, &whole_edges(MOST_BYTES)),
        4 => {
            let limits: Vec<Option<f64>> = edges(SHARE).into_iter().map(Some).collect();
            put(random, &mut table.echo, &limits);
        }
        5 => set_length(random.below(5), random.one(&LENGTHS), table),
        6 => {
            // one entry more or less in one column
            let (column, n) = (random.below(5), table.rungs());
            let length = random.one(&[n.saturating_sub(1), n + 1]);
            set_length(column, length, table);
        }
        7 => set_lengths(random.one(&LENGTHS), table),
        8 => {
            let n = table.rungs() as u32;
            let few = n.saturating_sub(1);
            table.floor_modes = random.one(&[0, few, n, n + 1, 32, 33, 1 << 31, u32::MAX]);
        }
        9 => set_length(4, random.among(0, MOST_ENTRIES + 1), table),
        _ => all_equal(table),
    }
}

/// Puts one of the values into some entry of a column that has one.
fn put<T: Copy>(random: &mut Random, column: &mut [T], values: &[T]) {
    if !column.is_empty() {
        column[random.below(column.len())] = random.one(values);
    }
}

/// Cuts a column, by its number, or fills it up: thresholds, payload, capacity, frame times, echo limits.
pub fn set_length(column: usize, length: usize, table: &mut Table) {
    match column {
        0 => table.thresholds.resize(length, -1.0),
        1 => table.payload.resize(length, 40),
        2 => table.capacity.resize(length, 37),
        3 => table.frame_s.resize(length, 1.054),
        _ => table.echo.resize(length, None),
    }
}

/// Cuts the four columns of rungs, or fills them up.
pub fn set_lengths(length: usize, table: &mut Table) {
    for column in 0..4 {
        set_length(column, length, table);
    }
}

/// Makes every rung the first one's equal: the front of more than one is empty.
pub fn all_equal(table: &mut Table) {
    if let (Some(&a), Some(&b), Some(&c)) = (
        table.thresholds.first(),
        table.payload.first(),
        table.frame_s.first(),
    ) {
        table.thresholds.fill(a);
        table.payload.fill(b);
        table.frame_s.fill(c);
    }
}

/// Each end of each column's limits, and what is beside it, first and last in short and long tables.
pub fn ends() -> Vec<Table> {
    let rungs = [1, 2, MOST_ENTRIES];
    let places = rungs.into_iter().flat_map(|n| [(n, 0), (n, n - 1)]);
    places.flat_map(|(n, at)| ends_at(n, at)).collect()
}

/// The same in one row of a table of so many rungs, and the ends of the floor count.
pub fn ends_at(rungs: usize, at: usize) -> Vec<Table> {
    let made = |change: &dyn Fn(&mut Table)| {
        let mut table = rising(rungs);
        change(&mut table);
        table
    };
    let mut all = Vec::new();
    all.extend(edges(DB).iter().map(|&x| made(&|t| t.thresholds[at] = x)));
    all.extend(edges(AIR_S).iter().map(|&x| made(&|t| t.frame_s[at] = x)));
    all.extend(
        edges(SHARE)
            .iter()
            .map(|&x| made(&|t| t.echo[at] = Some(x))),
    );
    let wholes = whole_edges(MOST_BYTES);
    all.extend(wholes.iter().map(|&n| made(&|t| t.payload[at] = n)));
    all.extend(wholes.iter().map(|&n| made(&|t| t.capacity[at] = n)));
    let n = rungs as u32;
    let floors = [0, n - 1, n, n + 1, u32::MAX];
    all.extend(floors.iter().map(|&f| made(&|t| t.floor_modes = f)));
    all
}

/// Every mix of column lengths around the least and the most.
pub fn lengths() -> Vec<Table> {
    let mut all = vec![Table::default()];
    for column in 0..5 {
        let shorter = all;
        all = Vec::new();
        for table in &shorter {
            for length in [0, 1, 2, 32, 33, 40] {
                let mut table = table.clone();
                set_length(column, length, &mut table);
                all.push(table);
            }
        }
    }
    all
}

/// A table of rungs that are all on the front, with an echo limit each.
pub fn rising(rungs: usize) -> Table {
    let ordinals = 0..rungs as u32;
    Table {
        thresholds: ordinals.clone().map(f64::from).collect(),
        payload: ordinals.clone().map(|n| 20 + n).collect(),
        capacity: ordinals.map(|n| 17 + n).collect(),
        frame_s: vec![1.054; rungs],
        floor_modes: rungs as u32 / 2,
        echo: vec![Some(0.5); rungs],
    }
}

/// A table of 1 to 32 drawn rows (threshold, payload, frame time), sometimes in another order than they were drawn in.
fn rows(random: &mut Random, mut row: impl FnMut(&mut Random) -> (f64, u32, f64)) -> Table {
    let rungs = random.among(1, MOST_ENTRIES);
    let mut rows: Vec<(f64, u32, f64)> = (0..rungs).map(|_| row(random)).collect();
    if random.chance(15) {
        random.shuffle(&mut rows);
    }
    let mut table = of_rows(&rows);
    fill(random, &mut table);
    table
}

/// The table of these rows, with the data of each payload for its capacity, no floor rung and no echo limit.
pub fn of_rows(rows: &[(f64, u32, f64)]) -> Table {
    let payload: Vec<u32> = rows.iter().map(|row| row.1).collect();
    Table {
        thresholds: rows.iter().map(|row| row.0).collect(),
        capacity: payload.iter().map(|p| p.saturating_sub(3)).collect(),
        payload,
        frame_s: rows.iter().map(|row| row.2).collect(),
        ..Table::default()
    }
}

/// The table of these rows of another.
fn chosen(random: &mut Random, base: &Table, order: &[usize]) -> Table {
    let mut table = Table {
        thresholds: order.iter().map(|&at| base.thresholds[at]).collect(),
        payload: order.iter().map(|&at| base.payload[at]).collect(),
        frame_s: order.iter().map(|&at| base.frame_s[at]).collect(),
        ..Table::default()
    };
    fill(random, &mut table);
    table
}

/// Draws what the front does not depend on.
fn fill(random: &mut Random, table: &mut Table) {
    let rungs = table.rungs();
    table.capacity = capacities(random, &table.payload);
    table.floor_modes = random.among(0, rungs) as u32;
    table.echo = echo_limits(random, rungs);
}

/// The data of each payload, or anything, or a few values that tie.
fn capacities(random: &mut Random, payload: &[u32]) -> Vec<u32> {
    let few = random.few(&[0, 0, 1, 20, 21, 100, 4096], 3);
    let how = random.below(10);
    let capacity = |&payload: &u32| match how {
        0..6 => payload.saturating_sub(3),
        6..8 => random.one(&few),
        _ => random.below(MOST_BYTES as usize + 1) as u32,
    };
    payload.iter().map(capacity).collect()
}

/// No limits, a few, or one for nearly every rung; the column short, even, or longer than the table.
fn echo_limits(random: &mut Random, rungs: usize) -> Vec<Option<f64>> {
    let length = match random.below(10) {
        0..2 => 0,
        2..5 => random.among(0, rungs),
        5..9 => rungs,
        _ => random.among(rungs, MOST_ENTRIES),
    };
    let share = random.one(&[20, 60, 100]);
    let few = random.few(&ECHO_LIMITS, 3);
    let limit = |_| {
        if !random.chance(share) {
            None
        } else if random.chance(80) {
            Some(random.one(&few))
        } else {
            Some(random.span(0.0, 1.0))
        }
    };
    (0..length).map(limit).collect()
}
