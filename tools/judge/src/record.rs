//! Tables in the form that the program `tables` reads, and the lines that it must answer: the front of each of its
//! calls, by the Rust, or the refusal that document 01's causes give.

use crate::event::reading;
use crate::rate;
use crate::table::Table;

/// The most bytes that `tables` reads, and the most entries of a column that it takes.
pub const MOST_INPUT: usize = 1_048_576;
pub const MOST_COLUMN: usize = 40;

/// Whether a record can hold the table.
pub fn fits(table: &Table) -> bool {
    columns(table).iter().all(|&n| n <= MOST_COLUMN)
}

/// How many entries each column has.
fn columns(table: &Table) -> [usize; 5] {
    [
        table.thresholds.len(),
        table.payload.len(),
        table.capacity.len(),
        table.frame_s.len(),
        table.echo.len(),
    ]
}

/// A table's record: the columns' lengths, a byte 0, the floor rungs, and the columns.
pub fn record(table: &Table) -> Vec<u8> {
    let mut bytes: Vec<u8> = columns(table).map(|n| n as u8).to_vec();
    bytes.push(0);
    bytes.extend(table.floor_modes.to_le_bytes());
    bytes.extend(table.thresholds.iter().flat_map(|x| x.to_le_bytes()));
    bytes.extend(table.payload.iter().flat_map(|n| n.to_le_bytes()));
    bytes.extend(table.capacity.iter().flat_map(|n| n.to_le_bytes()));
    bytes.extend(table.frame_s.iter().flat_map(|x| x.to_le_bytes()));
    bytes.extend(table.echo.iter().flat_map(|&limit| reading(limit)));
    bytes
}

/// The line that comes before those of the records: the Rust's front of the wide air.
pub fn first_line() -> String {
    format!("wide{}\n", rungs(&rate::usable_modes()))
}

/// The line of a table: its front, that of its columns alone, and that of its thresholds and payloads alone.
pub fn line(table: &Table) -> String {
    let front = answer(table.refusal(), || rust_front(table));
    let usable = answer(table.front_refusal(), || rust_front(table));
    let payload = answer(table.payload_refusal(), || table.rust_payload_front());
    format!("front{front} usable{usable} payload{payload}\n")
}

fn answer(refusal: u32, front: impl FnOnce() -> Vec<usize>) -> String {
    match refusal {
        0 => rungs(&front()),
        number => format!(" refused {number}"),
    }
}

/// The Rust's front, which the document's words must give too.
fn rust_front(table: &Table) -> Vec<usize> {
    let front = table.rust_front();
    assert_eq!(front, table.front(), "the Rust and document 01 differ");
    front
}

fn rungs(front: &[usize]) -> String {
    front.iter().map(|rung| format!(" {rung}")).collect()
}

#[cfg(test)]
mod tests {
    use super::*;

    #[test]
    fn recorded() {
        let table = Table::header();
        assert_eq!(line(&table), "front 0 1 usable 0 1 payload 0 1\n");
        let bytes = record(&table);
        assert_eq!(bytes[..10], [2, 2, 2, 2, 0, 0, 1, 0, 0, 0]);
        assert_eq!(bytes[18..26], (-1.0_f64).to_le_bytes());
        assert_eq!(bytes[26..30], 75_u32.to_le_bytes());
        assert_eq!(bytes.len(), 10 + 2 * 24);
    }

    /// Where the frame times are of no table, the front by payload is answered all the same.
    #[test]
    fn times_are_not_asked_for_a_front_by_payload() {
        let mut table = Table::header();
        table.frame_s = vec![f64::NAN];
        let wanted = "front refused 2 usable refused 2 payload 0 1\n";
        assert_eq!(line(&table), wanted);
        table.payload.pop();
        assert!(line(&table).ends_with(" payload refused 2\n"));
    }
}
