//! The shelf question, on records and on the written form: the answer, whether
//! a scan is found, and its number, shelf and time. On a refusal the cells keep
//! what they held.

use reference::refusal::Refusal;
use reference::shelf;

use crate::calls;
use crate::forms::shown::{Bytes, Numbers};
use crate::suite::{Comparisons, Tests};
use crate::tables::whole_records;

pub mod random;
mod stated;

pub const TESTS: Tests = &[
    ("stated_questions", stated::questions),
    ("stated_field_limits", stated::field_limits),
    ("stated_lengths", stated::lengths),
    ("random_questions", random::questions),
    ("other_fields", random::other_fields),
    ("prefixes", random::prefixes),
    ("longer_files", random::longer_files),
    ("damaged_files", random::damaged_files),
];

/// What the cells hold before a call; no answer that a call may give.
const BEFORE: [u64; 4] = [0xa5c3_9617_e4d2_b80f; 4];

/// A question: a set of scans and a tag.
#[derive(Clone, Copy, Debug)]
struct Question {
    set: u64,
    tag: u64,
}

/// The answer to a question and what was written to the cells.
#[derive(Clone, Copy, Debug, PartialEq, Eq)]
struct Asked {
    answer: u8,
    cells: Cells,
}

/// The cells after a call.
#[derive(Clone, Copy, Debug, PartialEq, Eq)]
enum Cells {
    AsBefore,
    NoScan,
    Scan { scan: u64, shelf: u64, time: u64 },
    Other([u64; 4]),
}

impl Asked {
    /// No scan of the set has the tag.
    const NO_SCAN: Asked = Asked {
        answer: 0,
        cells: Cells::NoScan,
    };

    /// The newest scan of the set that has the tag.
    const fn scan(scan: u64, shelf: u64, time: u64) -> Asked {
        Asked {
            answer: 0,
            cells: Cells::Scan { scan, shelf, time },
        }
    }

    /// A refusal, the cells as they were.
    const fn refused(answer: Refusal) -> Asked {
        Asked {
            answer,
            cells: Cells::AsBefore,
        }
    }

    /// What a call that answers so says with its cells.
    fn of_cells(answer: u8, cells: [u64; 4]) -> Asked {
        let [found, scan, shelf, time] = cells;
        let cells = match (answer, found) {
            (0, 0) => Cells::NoScan,
            (0, 1) => Cells::Scan { scan, shelf, time },
            (1..=u8::MAX, _) if cells == BEFORE => Cells::AsBefore,
            _ => Cells::Other(cells),
        };
        Asked { answer, cells }
    }

    /// What the second program says.
    fn of_second(given: Result<Option<shelf::Answer>, Refusal>) -> Asked {
        match given {
            Ok(Some(found)) => Asked::scan(found.scan, found.shelf, found.time),
            Ok(None) => Asked::NO_SCAN,
            Err(refusal) => Asked::refused(refusal),
        }
    }
}

/// The proved function's answer on records.
fn proved(fields: &[u64], question: Question) -> Asked {
    let mut cells = BEFORE;
    let answer = calls::where_is(fields, question.set, question.tag, &mut cells);
    Asked::of_cells(answer, cells)
}

/// The second program's answer on records.
fn second(fields: &[u64], question: Question) -> Asked {
    Asked::of_second(match whole_records(fields) {
        Ok(records) => shelf::ask(&records, question.set, question.tag),
        Err(refusal) => Err(refusal),
    })
}

/// The proved function's answer on the written form.
fn proved_written(bytes: &[u8], question: Question) -> Asked {
    let mut cells = BEFORE;
    let answer = calls::where_is_written(bytes, question.set, question.tag, &mut cells);
    Asked::of_cells(answer, cells)
}

/// The second program's answer on the written form.
fn second_written(bytes: &[u8], question: Question) -> Asked {
    Asked::of_second(shelf::ask_written(bytes, question.set, question.tag))
}

/// Compares on records.
fn compare(
    comparisons: &mut Comparisons,
    fields: &[u64],
    question: Question,
) -> Result<(), String> {
    comparisons.same(
        format_args!("where_is, {question:?}, {}", Numbers(fields)),
        proved(fields, question),
        second(fields, question),
    )
}

/// Compares on the written form.
fn compare_written(
    comparisons: &mut Comparisons,
    bytes: &[u8],
    question: Question,
) -> Result<(), String> {
    comparisons.same(
        format_args!("where_is_written, {question:?}, {}", Bytes(bytes)),
        proved_written(bytes, question),
        second_written(bytes, question),
    )
}

/// Both programs give the stated answer on records.
fn compare_stated(
    comparisons: &mut Comparisons,
    fields: &[u64],
    question: Question,
    stated: Asked,
) -> Result<(), String> {
    comparisons.stated(
        format_args!("where_is, {question:?}, {}", Numbers(fields)),
        proved(fields, question),
        second(fields, question),
        stated,
    )
}

/// Both programs give the stated answer on the written form.
fn compare_stated_written(
    comparisons: &mut Comparisons,
    bytes: &[u8],
    question: Question,
    stated: Asked,
) -> Result<(), String> {
    comparisons.stated(
        format_args!("where_is_written, {question:?}, {}", Bytes(bytes)),
        proved_written(bytes, question),
        second_written(bytes, question),
        stated,
    )
}
