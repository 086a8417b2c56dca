//! Drawn schedules that make progress, in each style.

use reference::generate::{events_on, generate, Style, STYLES};
use reference::rng::Rng;
use reference::schedule::{
    self, Event, Sizes, GREATEST_A, GREATEST_E, GREATEST_L, GREATEST_M, GREATEST_P, GREATEST_S,
    LONGEST,
};

use super::output;
use super::said::Said;
use super::Printer;
use crate::suite::{Comparisons, Outcome};

/// How many schedules of each style are printed, and how many events they have
/// at most.
const SCHEDULES: u64 = 3_000;
const MOST_DRAWN: u64 = 120;

/// How many schedules of the most events each style has.
const LONG_SCHEDULES: u64 = 2;

/// The greatest sizes.
const GREATEST: Sizes = Sizes {
    p: GREATEST_P,
    a: GREATEST_A,
    l: GREATEST_L,
    m: GREATEST_M,
    s: GREATEST_S,
};

/// The bytes of a schedule within its ranges.
fn written(sizes: &Sizes, events: &[Event]) -> Vec<u8> {
    let mut bytes = vec![0; LONGEST];
    let length =
        schedule::write(sizes, events, &mut bytes).expect("a drawn schedule is within its ranges");
    bytes.truncate(length);
    bytes
}

/// A schedule of that style and at most so many events.
pub fn drawn(rng: &mut Rng, style: Style, most: u64) -> Vec<u8> {
    let count = rng.within(0, most) as usize;
    let (sizes, events) = generate(rng, style, count);
    written(&sizes, &events)
}

/// A schedule of any style and at most so many events.
pub fn any_drawn(rng: &mut Rng, most: u64) -> Vec<u8> {
    let (_, style) = STYLES[rng.below(STYLES.len() as u64) as usize];
    drawn(rng, style, most)
}

/// A schedule of that style, the greatest sizes and the most events.
pub fn with_most_events(rng: &mut Rng, style: Style) -> Vec<u8> {
    let events = events_on(rng, style, &GREATEST, GREATEST_E as usize);
    written(&GREATEST, &events)
}

fn schedules<P: Printer>(rng: &mut Rng, style: Style) -> Outcome {
    let mut comparisons = Comparisons::new();
    let mut said = Said::default();
    for _ in 0..SCHEDULES {
        let bytes = drawn(rng, style, MOST_DRAWN);
        said.add(&output::compare::<P>(&mut comparisons, rng, &bytes)?);
    }
    said.test_runs()?;
    comparisons.made()
}

pub fn calm<P: Printer>(rng: &mut Rng) -> Outcome {
    schedules::<P>(rng, Style::Calm)
}

pub fn contention<P: Printer>(rng: &mut Rng) -> Outcome {
    schedules::<P>(rng, Style::Contention)
}

pub fn lossy<P: Printer>(rng: &mut Rng) -> Outcome {
    schedules::<P>(rng, Style::Lossy)
}

pub fn crashes<P: Printer>(rng: &mut Rng) -> Outcome {
    schedules::<P>(rng, Style::Crashes)
}

pub fn full<P: Printer>(rng: &mut Rng) -> Outcome {
    schedules::<P>(rng, Style::Full)
}

pub fn edges<P: Printer>(rng: &mut Rng) -> Outcome {
    schedules::<P>(rng, Style::Edges)
}

pub fn wild<P: Printer>(rng: &mut Rng) -> Outcome {
    schedules::<P>(rng, Style::Wild)
}

/// 4,096 events on 512 slots.
pub fn most_events<P: Printer>(rng: &mut Rng) -> Outcome {
    let mut comparisons = Comparisons::new();
    let mut said = Said::default();
    for (_, style) in STYLES {
        for _ in 0..LONG_SCHEDULES {
            let bytes = with_most_events(rng, style);
            said.add(&output::compare::<P>(&mut comparisons, rng, &bytes)?);
        }
    }
    said.test_runs()?;
    comparisons.made()
}
