//! The causes of a refusal, by document 01's table of what is turned away.

use std::error::Error;
use std::fmt;

/// Why a call was turned away. Nothing that was lent to it has changed.
#[derive(Clone, Copy, Debug, PartialEq, Eq, Hash)]
#[non_exhaustive]
pub enum Refusal {
    /// 1: a table column has 0 or over 32 entries (echo column: over 32).
    ColumnSize = 1,
    /// 2: threshold, payload, capacity and frame-time columns differ in length.
    ColumnsDiffer,
    /// 3: a table value is outside its limits.
    TableValue,
    /// 4: more floor rungs than rungs.
    FloorCount,
    /// 5: the front is empty.
    EmptyFront,
    /// 6: the rung is not in the table.
    UnknownRung,
    /// 7: over 256 frames.
    TooManyFrames,
    /// 8: a reading, air, capacity, price, gap, burst count or argument of `decode_probability` is outside its limits.
    OutsideLimits,
    /// 9: over 32 burst counts.
    TooManyBursts,
    /// 10: the question file's size, air or event count.
    FileHeader,
    /// 11: the pairs break their rule or run past the file.
    FilePairs,
    /// 12: a body breaks its kind's form.
    FileBody,
    /// 13: the whole sheet is longer than the output slice.
    SheetRoom,
    /// 14: the answer count differs from the event count.
    AnswerCount,
}

impl Refusal {
    /// Every cause, in the order of the numbers.
    pub const ALL: &[Refusal] = &[
        Refusal::ColumnSize,
        Refusal::ColumnsDiffer,
        Refusal::TableValue,
        Refusal::FloorCount,
        Refusal::EmptyFront,
        Refusal::UnknownRung,
        Refusal::TooManyFrames,
        Refusal::OutsideLimits,
        Refusal::TooManyBursts,
        Refusal::FileHeader,
        Refusal::FilePairs,
        Refusal::FileBody,
        Refusal::SheetRoom,
        Refusal::AnswerCount,
    ];

    /// The number that the table gives the cause, 1 to 14.
    pub fn number(self) -> u32 {
        self as u32
    }

    /// The cause that a call's status tells of: minus its number. The calls are proved to return no other.
    pub(crate) fn of(status: i64) -> Refusal {
        Refusal::ALL
            .iter()
            .copied()
            .find(|cause| status == -i64::from(cause.number()))
            .unwrap_or_else(|| panic!("status {status} is no refusal: another library is linked"))
    }
}

/// The cause in the words of the table.
impl fmt::Display for Refusal {
    fn fmt(&self, f: &mut fmt::Formatter<'_>) -> fmt::Result {
        f.write_str(match self {
            Refusal::ColumnSize => "a table column has 0 or over 32 entries (echo column: over 32)",
            Refusal::ColumnsDiffer => {
                "threshold, payload, capacity, frame-time columns differ in length"
            }
            Refusal::TableValue => "a table value outside its limits",
            Refusal::FloorCount => "more floor rungs than rungs",
            Refusal::EmptyFront => "the front is empty",
            Refusal::UnknownRung => "rung not in the table",
            Refusal::TooManyFrames => "over 256 frames",
            Refusal::OutsideLimits => {
                "a reading, air, capacity, price, gap, burst count or `decode_probability` argument outside its limits"
            }
            Refusal::TooManyBursts => "over 32 burst counts",
            Refusal::FileHeader => {
                "question file under 8 or over 65,536 bytes, unknown air, over 1,000 events"
            }
            Refusal::FilePairs => "pairs break their rule or run past the file",
            Refusal::FileBody => "a body breaks its kind's form",
            Refusal::SheetRoom => "the whole sheet is longer than the output slice",
            Refusal::AnswerCount => "answer count differs from event count",
        })
    }
}

impl Error for Refusal {}
