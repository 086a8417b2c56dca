//! Hand-made questions, compared with the document's answers.

use reference::refusal::{Refusal, OUTSIDE_RANGE};
use reference::rng::Rng;
use reference::scan_table::{GREATEST_TAG, GREATEST_TIME};

use super::{compare_stated, compare_stated_written, Asked, Question};
use crate::forms::Form;
use crate::suite::{Comparisons, Outcome};
use crate::tables::{Table, SCAN};

/// A set, a tag and the answer.
type Stated = (u64, u64, Asked);

/// Scans of which the newest by time is not the last.
const NEWEST: &[[u64; SCAN]] = &[[5, 10, 1, 700], [5, 11, 1, 900], [5, 12, 1, 100]];
const NEWEST_STATED: &[Stated] = &[
    (0b111, 5, Asked::scan(1, 11, 900)),
    (0b101, 5, Asked::scan(0, 10, 700)),
    (0b100, 5, Asked::scan(2, 12, 100)),
    (0b111, 6, Asked::NO_SCAN),
];

/// Scans of equal times, of which the greatest number is the newest.
const EQUAL: &[[u64; SCAN]] = &[
    [5, 13, 9, 900],
    [5, 12, 2, 900],
    [6, 11, 3, 999],
    [5, 10, 1, 900],
];
const EQUAL_STATED: &[Stated] = &[
    (0b1111, 5, Asked::scan(3, 10, 900)),
    (0b0111, 5, Asked::scan(1, 12, 900)),
    (0b0001, 5, Asked::scan(0, 13, 900)),
    (0b1111, 6, Asked::scan(2, 11, 999)),
    (0b1011, 6, Asked::NO_SCAN),
];

/// A scan of the least numbers. The empty set holds no scan.
const LEAST: &[[u64; SCAN]] = &[[0, 0, 1, 0]];
const LEAST_STATED: &[Stated] = &[
    (0, 0, Asked::NO_SCAN),
    (1, 0, Asked::scan(0, 0, 0)),
    (1, 1, Asked::NO_SCAN),
    (2, 0, Asked::refused(3)),
    (3, 0, Asked::refused(3)),
    (1 << 63, 0, Asked::refused(3)),
];

/// A scan of the greatest numbers. Tags are asked for to 2^32-1.
const GREATEST: &[[u64; SCAN]] = &[[GREATEST_TAG, 65_535, 255, GREATEST_TIME]];
const GREATEST_STATED: &[Stated] = &[
    (1, GREATEST_TAG, Asked::scan(0, 65_535, GREATEST_TIME)),
    (0, GREATEST_TAG, Asked::NO_SCAN),
    (1, GREATEST_TAG + 1, Asked::refused(3)),
    (0, GREATEST_TAG + 1, Asked::refused(3)),
    (1, u64::MAX, Asked::refused(3)),
];

/// As many scans as a table may have.
const MOST: &[[u64; SCAN]] = &[[1, 2, 3, 4]; 64];
const MOST_STATED: &[Stated] = &[
    (u64::MAX, 1, Asked::scan(63, 2, 4)),
    (u64::MAX >> 1, 1, Asked::scan(62, 2, 4)),
    (1 << 63, 1, Asked::scan(63, 2, 4)),
    (1 << 32, 1, Asked::scan(32, 2, 4)),
    (1, 1, Asked::scan(0, 2, 4)),
    (0, 1, Asked::NO_SCAN),
];

const TABLES: [(&[[u64; SCAN]], &[Stated]); 5] = [
    (NEWEST, NEWEST_STATED),
    (EQUAL, EQUAL_STATED),
    (LEAST, LEAST_STATED),
    (GREATEST, GREATEST_STATED),
    (MOST, MOST_STATED),
];

/// A field of a scan, a value outside its range and the answer on records.
const FIELD_LIMITS: [(usize, u64, Refusal); 13] = [
    (0, 1 << 32, 3),
    (0, 1 << 48, 3),
    (0, u64::MAX, 3),
    (1, 65_536, 3),
    (1, 1 << 48, 3),
    (1, u64::MAX, 3),
    (2, 0, 10),
    (2, 256, 10),
    (2, 1 << 48, 10),
    (2, u64::MAX, 10),
    (3, 1 << 48, 12),
    (3, 1 << 63, 12),
    (3, u64::MAX, 12),
];

/// A question that any table answers, and two that it refuses.
const QUESTIONS: [Question; 3] = [
    Question { set: 0, tag: 0 },
    Question {
        set: 1,
        tag: u64::MAX,
    },
    Question {
        set: u64::MAX,
        tag: 0,
    },
];

/// The hand-made tables, on records and on the written form.
pub fn questions(_: &mut Rng) -> Outcome {
    let mut comparisons = Comparisons::new();
    for (scans, stated) in TABLES {
        let table = Table {
            fields: scans.concat(),
        };
        let file = table.file();
        for &(set, tag, asked) in stated {
            let question = Question { set, tag };
            compare_stated(&mut comparisons, &table.fields, question, asked)?;
            compare_stated_written(&mut comparisons, &file, question, asked)?;
        }
    }
    comparisons.made()
}

/// A field outside its range decides before the question does.
pub fn field_limits(rng: &mut Rng) -> Outcome {
    let mut comparisons = Comparisons::new();
    for (field, value, refusal) in FIELD_LIMITS {
        for scans in [1, 5, 63] {
            for scan in [0, scans / 2, scans - 1] {
                let mut table = Table::of_scans(rng, scans as u64);
                table.fields[scan * SCAN + field] = value;
                compare_refused(&mut comparisons, &table, refusal)?;
            }
        }
    }
    comparisons.made()
}

/// Records that are not one to 64 whole scans are refused 1.
pub fn lengths(rng: &mut Rng) -> Outcome {
    let mut comparisons = Comparisons::new();
    for length in 0..=66 * SCAN {
        let mut table = Table::of_scans(rng, 66);
        table.fields.truncate(length);
        if length % SCAN != 0 || !(1..=64).contains(&table.scans()) {
            compare_refused(&mut comparisons, &table, OUTSIDE_RANGE)?;
        }
    }
    comparisons.made()
}

/// The records refuse every question with this number.
fn compare_refused(
    comparisons: &mut Comparisons,
    table: &Table,
    refusal: Refusal,
) -> Result<(), String> {
    for question in QUESTIONS {
        let stated = Asked::refused(refusal);
        compare_stated(comparisons, &table.fields, question, stated)?;
    }
    Ok(())
}
