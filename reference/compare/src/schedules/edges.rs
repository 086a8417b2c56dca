//! Schedules at the edges, compared with the document's answers.

use reference::refusal::{Refusal, OUTSIDE_RANGE};
use reference::rng::Rng;

use super::{Schedule, EVENT};
use crate::forms::reading::{self, random_room};
use crate::forms::{self, written};
use crate::suite::{Comparisons, Outcome};

/// The least and the greatest of each size: P, A, L, M, S.
const SIZE_RANGES: [(u16, u16); 5] = [(1, 8), (1, 7), (1, 8), (16, 512), (1, 64)];

/// Numbers of a file, and the answer. The six are read first, then sizes are
/// tested, then E, then the events are read.
const ORDER: [(&[u64], Refusal); 21] = [
    (&[], 11),
    (&[0], 11),
    (&[65_536], 12),
    (&[0, 0, 0, 0, 0], 11),
    (&[0, 0, 0, 0, 65_536], 12),
    (&[0, 0, 0, 0, 0, 65_536], 12),
    (&[1, 1, 1, 16, 1, 65_536], 12),
    (&[0, 1, 1, 16, 1, 0], 1),
    (&[0, 1, 1, 16, 1, 4_097], 1),
    (&[1, 1, 1, 15, 1, 65_535], 1),
    (&[1, 1, 1, 16, 65, 1], 1),
    (&[1, 1, 1, 16, 1, 4_097], 3),
    (&[1, 1, 1, 16, 1, 65_535], 3),
    (&[1, 1, 1, 16, 1, 4_097, 65_536], 3),
    (&[1, 1, 1, 16, 1, 4_096], 11),
    (&[1, 1, 1, 16, 1, 1], 11),
    (&[1, 1, 1, 16, 1, 1, 65_536], 12),
    (&[1, 1, 1, 16, 1, 1, 0, 65_536], 12),
    (&[1, 1, 1, 16, 1, 1, 0, 0, 65_536], 12),
    (&[1, 1, 1, 16, 1, 0, 0], 13),
    (&[1, 1, 1, 16, 1, 1, 9, 9, 9, 65_536], 13),
];

/// How many pairs of sizes outside their ranges are compared.
const TWO_SIZES: u64 = 5_000;

/// How often a test is repeated; sizes are tested with as many counts of
/// events.
const REPEATS: usize = 20;

/// The first number that is wrong decides, in any room.
pub fn order(rng: &mut Rng) -> Outcome {
    let mut comparisons = Comparisons::new();
    for (numbers, answer) in ORDER {
        let file = written(numbers);
        for _ in 0..REPEATS {
            let room = random_room(rng, EVENT, &file);
            reading::compare_refused::<Schedule>(&mut comparisons, &file, &room, answer)?;
        }
    }
    comparisons.made()
}

/// Each size at its limits and past them.
pub fn size_limits(rng: &mut Rng) -> Outcome {
    let mut comparisons = Comparisons::new();
    for (place, (least, greatest)) in SIZE_RANGES.into_iter().enumerate() {
        for size in sizes_about(least, greatest) {
            let answer = match (least..=greatest).contains(&size) {
                true => 0,
                false => OUTSIDE_RANGE,
            };
            for events in 0..REPEATS {
                let mut schedule = Schedule::of_events(rng, events);
                schedule.sizes[place] = size;
                forms::compare_answer(&mut comparisons, rng, &schedule, answer)?;
            }
        }
    }
    comparisons.made()
}

/// Sizes at the ends of a range and next to them, and others.
fn sizes_about(least: u16, greatest: u16) -> [u16; 12] {
    [
        0,
        1,
        least - 1,
        least,
        least + 1,
        greatest - 1,
        greatest,
        greatest + 1,
        greatest + 128,
        greatest + 256,
        32_768,
        65_535,
    ]
}

/// Two sizes about their limits, one of them past its own.
pub fn two_sizes(rng: &mut Rng) -> Outcome {
    let mut comparisons = Comparisons::new();
    for _ in 0..TWO_SIZES {
        let events = rng.below(3) as usize;
        let mut schedule = Schedule::of_events(rng, events);
        let first = rng.below(5) as usize;
        let second = rng.below(5) as usize;
        let (least, greatest) = SIZE_RANGES[first];
        let about = sizes_about(least, greatest);
        schedule.sizes[first] = about[rng.below(12) as usize];
        let (least, greatest) = SIZE_RANGES[second];
        schedule.sizes[second] = match rng.one_in(2) {
            true => least - 1,
            false => greatest + 1,
        };
        forms::compare_answer(&mut comparisons, rng, &schedule, OUTSIDE_RANGE)?;
    }
    comparisons.made()
}
