//! Damaged schedules, headers at the edges, and rubbish.

use reference::generate::Style;
use reference::refusal::{BAD_NUMBER, BYTES_FOLLOW, INPUT_ENDS, OUTSIDE_RANGE, OUTSIDE_SIZES};
use reference::rng::Rng;
use reference::schedule::{
    GREATEST_A, GREATEST_E, GREATEST_L, GREATEST_M, GREATEST_P, GREATEST_S, LEAST_M, LONGEST,
};

use super::output;
use super::runs::{any_drawn, with_most_events};
use super::said::Said;
use super::stated::refused_text;
use super::Printer;
use crate::forms::{damage, random_byte, written};
use crate::suite::{Comparisons, Outcome};

/// How many schedules have changed bytes, are cut, made longer, doubled,
/// damaged in any way, and have other headers.
const CHANGED: u64 = 6_000;
const CUT: u64 = 2_000;
const APPENDED: u64 = 2_000;
const DOUBLED: u64 = 2_000;
const DAMAGED: u64 = 6_000;
const HEADERS: u64 = 6_000;

/// How often a schedule of the most events is damaged.
const DAMAGES: u64 = 60;

/// How many events a schedule has at most before it is damaged.
const MOST_DRAWN: u64 = 30;

/// How many bytes are changed at most, and how many appended.
const MOST_CHANGED: u64 = 4;
const LONGEST_TAIL: u64 = 20;

/// The longest rubbish of which every length is printed, how often, and other
/// lengths.
const LONGEST_RUBBISH: usize = 500;
const RUBBISH: usize = 6;
const RUBBISH_LENGTHS: [usize; 5] = [4_096, LONGEST - 1, LONGEST, LONGEST + 1, 100_000];

/// How many schedules have events of random numbers.
const RUBBISH_EVENTS: u64 = 2_000;

/// The refusals of a schedule.
const REFUSALS: [usize; 5] = [
    OUTSIDE_RANGE as usize,
    OUTSIDE_SIZES as usize,
    INPUT_ENDS as usize,
    BAD_NUMBER as usize,
    BYTES_FOLLOW as usize,
];

/// The least and the greatest of each number of a header: P, A, L, M, S, E.
const RANGES: [(u64, u64); 6] = [
    (1, GREATEST_P),
    (1, GREATEST_A),
    (1, GREATEST_L),
    (LEAST_M, GREATEST_M),
    (1, GREATEST_S),
    (0, GREATEST_E),
];

/// Compares so many schedules drawn in this way.
fn compare_all<P: Printer>(
    rng: &mut Rng,
    count: u64,
    mut draw: impl FnMut(&mut Rng) -> Vec<u8>,
    test: impl FnOnce(&Said) -> Result<(), String>,
) -> Outcome {
    let mut comparisons = Comparisons::new();
    let mut said = Said::default();
    for _ in 0..count {
        let bytes = draw(rng);
        said.add(&output::compare::<P>(&mut comparisons, rng, &bytes)?);
    }
    test(&said)?;
    comparisons.made()
}

/// Compares so many schedules that are refused with this number after the
/// damage.
fn compare_refused<P: Printer>(
    rng: &mut Rng,
    count: u64,
    refusal: u8,
    damage: fn(&mut Rng, &mut Vec<u8>),
) -> Outcome {
    let mut comparisons = Comparisons::new();
    for _ in 0..count {
        let mut bytes = any_drawn(rng, MOST_DRAWN);
        damage(rng, &mut bytes);
        let text = refused_text(refusal);
        output::compare_stated::<P>(&mut comparisons, rng, &bytes, &text)?;
    }
    comparisons.made()
}

/// Up to four bytes are other bytes.
pub fn changed<P: Printer>(rng: &mut Rng) -> Outcome {
    let draw = |rng: &mut Rng| {
        let mut bytes = any_drawn(rng, MOST_DRAWN);
        for _ in 0..rng.within(1, MOST_CHANGED) {
            let place = rng.below(bytes.len() as u64) as usize;
            bytes[place] = random_byte(rng);
        }
        bytes
    };
    compare_all::<P>(rng, CHANGED, draw, |said| {
        said.test_answers(CHANGED / 300, &[1, 11, 12, 13])
    })
}

/// The bytes end before the schedule does.
pub fn cut<P: Printer>(rng: &mut Rng) -> Outcome {
    compare_refused::<P>(rng, CUT, INPUT_ENDS, |rng, bytes| {
        bytes.truncate(rng.below(bytes.len() as u64) as usize);
    })
}

/// Bytes follow the end.
pub fn appended<P: Printer>(rng: &mut Rng) -> Outcome {
    compare_refused::<P>(rng, APPENDED, BYTES_FOLLOW, |rng, bytes| {
        for _ in 0..rng.within(1, LONGEST_TAIL) {
            bytes.push(random_byte(rng));
        }
    })
}

/// The schedule follows its own end.
pub fn doubled<P: Printer>(rng: &mut Rng) -> Outcome {
    compare_refused::<P>(rng, DOUBLED, BYTES_FOLLOW, |_, bytes| {
        bytes.extend_from_within(..);
    })
}

/// Up to four damages of any kind.
pub fn damaged<P: Printer>(rng: &mut Rng) -> Outcome {
    let draw = |rng: &mut Rng| {
        let bytes = any_drawn(rng, MOST_DRAWN);
        damage::damaged(rng, &bytes)
    };
    compare_all::<P>(rng, DAMAGED, draw, |said| {
        said.test_answers(DAMAGED / 300, &[1, 11, 12, 13])
    })
}

/// The same of a schedule of 4,096 events.
pub fn most_events<P: Printer>(rng: &mut Rng) -> Outcome {
    let bytes = with_most_events(rng, Style::Lossy);
    let draw = |rng: &mut Rng| damage::damaged(rng, &bytes);
    compare_all::<P>(rng, DAMAGES, draw, |said| {
        said.test_answers(1, &[11, 12, 13])
    })
}

/// One or two numbers of the header are at an edge.
pub fn headers<P: Printer>(rng: &mut Rng) -> Outcome {
    let draw = |rng: &mut Rng| {
        let events = rng.within(0, MOST_DRAWN);
        let mut numbers = random_numbers(rng, events);
        for _ in 0..rng.within(1, 2) {
            let place = rng.below(RANGES.len() as u64) as usize;
            numbers[place] = edge(rng, place, numbers[place]);
        }
        written(&numbers)
    };
    compare_all::<P>(rng, HEADERS, draw, |said| {
        said.test_answers(HEADERS / 100, &REFUSALS)
    })
}

/// A number of the header at an end of its range, next to one, or next to what
/// it was; or at the coding's limit.
fn edge(rng: &mut Rng, place: usize, number: u64) -> u64 {
    let (least, greatest) = RANGES[place];
    match rng.below(9) {
        0 => least.saturating_sub(1),
        1 => least,
        2 => least + 1,
        3 => greatest - 1,
        4 => greatest,
        5 => greatest + 1,
        6 => number.saturating_sub(1),
        7 => number + 1,
        _ => rng.within(65_535, 65_536),
    }
}

/// The numbers of a schedule whose sizes are within their ranges and whose
/// events are any numbers below 128.
fn random_numbers(rng: &mut Rng, events: u64) -> Vec<u64> {
    let sizes = RANGES[..5].iter();
    let mut numbers: Vec<u64> = sizes
        .map(|(least, greatest)| rng.within(*least, *greatest))
        .collect();
    numbers.push(events);
    for _ in 0..events {
        numbers.extend([rng.below(10), rng.below(128) >> rng.below(8), rng.below(3)]);
    }
    numbers
}

/// Any bytes, of every length up to 500 and of some lengths about the longest.
pub fn rubbish<P: Printer>(rng: &mut Rng) -> Outcome {
    let mut comparisons = Comparisons::new();
    for length in (0..=LONGEST_RUBBISH).chain(RUBBISH_LENGTHS) {
        for _ in 0..RUBBISH {
            let bytes: Vec<u8> = (0..length).map(|_| random_byte(rng)).collect();
            output::compare::<P>(&mut comparisons, rng, &bytes)?;
        }
    }
    comparisons.made()
}

/// Sizes within their ranges and as many events as E says, of any numbers.
pub fn rubbish_events<P: Printer>(rng: &mut Rng) -> Outcome {
    let draw = |rng: &mut Rng| {
        let events = rng.within(0, 4 * MOST_DRAWN);
        let numbers = random_numbers(rng, events);
        written(&numbers)
    };
    compare_all::<P>(rng, RUBBISH_EVENTS, draw, |said| {
        said.test_answers(RUBBISH_EVENTS, &[])
    })
}
