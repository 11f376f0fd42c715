//! Lists of calls to draw, on tables of every kind.

use super::sender::Sender;
use super::tables;
use crate::event::Event;
use crate::oracle::Oracle;
use crate::random::Random;
use crate::table::Table;
use crate::trace::List;

/// A call on each listed table that `trace` can be given: values at their ends, and lengths.
pub fn listed() -> Vec<List> {
    let tables = tables::ends().into_iter().chain(tables::lengths());
    let list = |table| List {
        table,
        wide: true,
        events: vec![Event::Seed(20.0)],
    };
    tables.filter(tables::even).map(list).collect()
}

/// A list of up to `most` calls on a table of any kind.
pub fn list(random: &mut Random, most: usize) -> List {
    if random.chance(6) {
        return level_list(random, most.min(30));
    }
    let (table, wide) = table(random);
    let length = random.one(&[5, 40, most, most]).min(most);
    let count = random.among(0, length);
    let events = match Oracle::new(&table, wide) {
        Ok(oracle) => Sender::new(random, &table, oracle).events(random, count),
        // the calls on a table that is refused are passed over
        Err(_) => vec![Event::Silence(1); count.min(3)],
    };
    List {
        table,
        wide,
        events,
    }
}

/// A list on a path so strong that rungs that carry the same tie, with echoes that rule rungs out.
fn level_list(random: &mut Random, most: usize) -> List {
    let table = accepted(random, tables::level);
    let wide = random.chance(50);
    let oracle = Oracle::new(&table, wide).expect("the table is accepted");
    let count = random.among(1, most);
    let events = Sender::strong(random, &table, oracle).events(random, count);
    List {
        table,
        wide,
        events,
    }
}

/// Events for one of the two airs' own tables.
pub fn events(random: &mut Random, wide: bool, count: usize) -> Vec<Event> {
    let table = if wide { Table::wide() } else { Table::narrow() };
    let oracle = Oracle::new(&table, wide).expect("the airs' tables are accepted");
    Sender::new(random, &table, oracle).events(random, count)
}

/// A table, and whether it gets the wide air's settings.
fn table(random: &mut Random) -> (Table, bool) {
    let any_air = random.chance(50);
    match random.below(100) {
        0..25 => (Table::wide(), true),
        25..40 => (Table::narrow(), false),
        40..50 => (accepted(random, tables::refitted_air), any_air),
        50..82 => (accepted(random, tables::ladder), any_air),
        82..87 => (accepted(random, tables::ties), any_air),
        87..92 => (accepted(random, tables::within), any_air),
        92..95 => (accepted(random, tables::near_ties), any_air),
        95..98 => (accepted(random, tables::short), any_air),
        _ => (tables::even_fault(random), any_air),
    }
}

fn accepted(random: &mut Random, draw: fn(&mut Random) -> Table) -> Table {
    loop {
        let table = draw(random);
        if table.refusal() == 0 {
            return table;
        }
    }
}
