//! Scan tables at the edges, compared with the document's answers.

use reference::refusal::{Refusal, OUTSIDE_RANGE};
use reference::rng::Rng;

use super::{Table, SCAN};
use crate::forms::reading::{self, random_room};
use crate::forms::{self, writing, written};
use crate::suite::{Comparisons, Outcome};

/// The fields of a scan, by their places.
const TAG: usize = 0;
const SHELF: usize = 1;
const DEVICE: usize = 2;
const TIME: usize = 3;

/// A field, a value for it and the answer to a table that is good otherwise.
/// The writer's is the reader's.
const FIELD_LIMITS: [(usize, u64, Refusal); 27] = [
    (TAG, 0, 0),
    (TAG, (1 << 32) - 1, 0),
    (TAG, 1 << 32, 3),
    (TAG, (1 << 48) - 1, 3),
    (TAG, 1 << 48, 12),
    (TAG, 1 << 49, 12),
    (TAG, u64::MAX, 12),
    (SHELF, 0, 0),
    (SHELF, 65_535, 0),
    (SHELF, 65_536, 3),
    (SHELF, (1 << 48) - 1, 3),
    (SHELF, 1 << 48, 12),
    (SHELF, 1 << 49, 12),
    (SHELF, u64::MAX, 12),
    (DEVICE, 0, 10),
    (DEVICE, 1, 0),
    (DEVICE, 255, 0),
    (DEVICE, 256, 10),
    (DEVICE, (1 << 48) - 1, 10),
    (DEVICE, 1 << 48, 12),
    (DEVICE, 1 << 49, 12),
    (DEVICE, u64::MAX, 12),
    (TIME, 0, 0),
    (TIME, (1 << 48) - 1, 0),
    (TIME, 1 << 48, 12),
    (TIME, 1 << 49, 12),
    (TIME, u64::MAX, 12),
];

/// An S, and the answer where that many random scans follow, 65 at most.
const SCAN_COUNTS: [(u64, Refusal); 16] = [
    (0, 1),
    (1, 0),
    (2, 0),
    (63, 0),
    (64, 0),
    (65, 1),
    (66, 1),
    (127, 1),
    (128, 1),
    (256, 1),
    (1 << 16, 1),
    (1 << 32, 1),
    ((1 << 48) - 1, 1),
    (1 << 48, 12),
    (1 << 49, 12),
    (u64::MAX, 12),
];

/// Numbers of a file, and the answer. Those that a reader meets first decide.
const ORDER: [(&[u64], Refusal); 17] = [
    (&[], 11),
    (&[0], 1),
    (&[65], 1),
    (&[1 << 48], 12),
    (&[1], 11),
    (&[1, 0], 11),
    (&[1, 1 << 32], 3),
    (&[1, 1 << 48], 12),
    (&[1, 0, 65_536], 3),
    (&[1, 0, 0], 11),
    (&[1, 0, 0, 0], 10),
    (&[1, 0, 0, 256, 1 << 48], 10),
    (&[1, 0, 0, 1], 11),
    (&[1, 0, 0, 1, 1 << 48], 12),
    (&[1, 0, 0, 1, 0, 0], 13),
    (&[1, 0, 0, 1, 0, 1 << 48], 13),
    (&[2, 0, 0, 1, 0, 1 << 32, 65_536], 3),
];

/// The greatest count of numbers given to the writer: 65 whole scans and a
/// part of the next.
const GREATEST_LENGTH: usize = 65 * SCAN + 3;

/// How often the tests at the edges are repeated with other random numbers.
const REPEATS: usize = 20;

/// Each field at its limits and past them, in the first, a middle and the last
/// of one scan, five scans and 64.
pub fn field_limits(rng: &mut Rng) -> Outcome {
    let mut comparisons = Comparisons::new();
    for (field, value, answer) in FIELD_LIMITS {
        for scans in [1, 5, 64] {
            for scan in [0, scans / 2, scans - 1] {
                for _ in 0..REPEATS {
                    let mut table = Table::of_scans(rng, scans as u64);
                    table.fields[scan * SCAN + field] = value;
                    forms::compare_answer(&mut comparisons, rng, &table, answer)?;
                }
            }
        }
    }
    comparisons.made()
}

/// Numbers of every count: 1 but for one to 64 whole scans.
pub fn lengths(rng: &mut Rng) -> Outcome {
    let mut comparisons = Comparisons::new();
    for length in 0..=GREATEST_LENGTH {
        let whole = length % SCAN == 0;
        let answer = match length / SCAN {
            1..=64 if whole => 0,
            _ => OUTSIDE_RANGE,
        };
        for _ in 0..REPEATS {
            let mut table = Table::of_scans(rng, 66);
            table.fields.truncate(length);
            writing::compare_answer(&mut comparisons, rng, &table, answer)?;
        }
    }
    comparisons.made()
}

/// S at its limits and past them.
pub fn scan_counts(rng: &mut Rng) -> Outcome {
    let mut comparisons = Comparisons::new();
    for (scans, answer) in SCAN_COUNTS {
        for _ in 0..REPEATS {
            let table = Table::of_scans(rng, scans.min(65));
            let mut file = written(&[scans]);
            file.extend(written(&table.fields));
            reading::compare_answer(&mut comparisons, rng, &table, &file, answer)?;
        }
    }
    comparisons.made()
}

/// The first number that is wrong decides, in any room.
pub fn order(rng: &mut Rng) -> Outcome {
    let mut comparisons = Comparisons::new();
    for (numbers, answer) in ORDER {
        let file = written(numbers);
        for _ in 0..REPEATS {
            let room = random_room(rng, SCAN, &file);
            reading::compare_refused::<Table>(&mut comparisons, &file, &room, answer)?;
        }
    }
    comparisons.made()
}
