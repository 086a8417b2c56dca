//! Whole schedules from fresh: the answer, every record and every slot after
//! each event, and the same schedule by one call.

use std::fmt::{Display, Formatter};

use reference::generate::{generate, Style};
use reference::rng::Rng;
use reference::schedule::Event;
use reference::text::{event_line, sizes_line};

use super::drawn;
use super::form::Sizes;
use super::lent::Lent;
use super::second::State;
use super::{Machine, BEFORE, EVENT, LOG};
use crate::suite::{Comparisons, Outcome};

/// How long schedules are.
const SHORTEST: u64 = 40;
const LONGEST: u64 = 120;

pub fn calm<M: Machine>(rng: &mut Rng) -> Outcome {
    schedules::<M>(rng, Style::Calm, 2_500)
}

pub fn contention<M: Machine>(rng: &mut Rng) -> Outcome {
    schedules::<M>(rng, Style::Contention, 5_000)
}

pub fn lossy<M: Machine>(rng: &mut Rng) -> Outcome {
    schedules::<M>(rng, Style::Lossy, 4_000)
}

pub fn crashes<M: Machine>(rng: &mut Rng) -> Outcome {
    schedules::<M>(rng, Style::Crashes, 3_000)
}

pub fn full<M: Machine>(rng: &mut Rng) -> Outcome {
    schedules::<M>(rng, Style::Full, 3_500)
}

pub fn edges<M: Machine>(rng: &mut Rng) -> Outcome {
    schedules::<M>(rng, Style::Edges, 2_000)
}

pub fn wild<M: Machine>(rng: &mut Rng) -> Outcome {
    schedules::<M>(rng, Style::Wild, 2_000)
}

/// A drawn schedule.
struct Schedule {
    sizes: Sizes,
    events: Vec<Event>,
    /// The events' numbers, as the calls take them.
    numbers: Vec<u64>,
}

impl Schedule {
    fn drawn(rng: &mut Rng, style: Style, length: usize) -> Schedule {
        let (sizes, events) = generate(rng, style, length);
        let numbers = events
            .iter()
            .flat_map(|event| [event.code, event.a, event.b]);
        Schedule {
            sizes: Sizes::of(&sizes),
            numbers: numbers.collect(),
            events,
        }
    }

    /// The schedule up to its event of that place, as a report shows it.
    fn upto(&self, place: usize) -> Upto<'_> {
        Upto(self, place)
    }
}

/// The sizes of a schedule and its first so many events.
struct Upto<'a>(&'a Schedule, usize);

impl Display for Upto<'_> {
    fn fmt(&self, formatter: &mut Formatter) -> std::fmt::Result {
        let Upto(schedule, place) = self;
        formatter.write_str(&sizes_line(&schedule.sizes.second()))?;
        for event in &schedule.events[..*place] {
            write!(formatter, "; {}", event_line(event))?;
        }
        Ok(())
    }
}

/// How many sets were learnt and decided.
#[derive(Default)]
struct Progress {
    learnt: u64,
    decided: u64,
}

impl Progress {
    fn add(&mut self, [answer, _]: [u64; LOG]) {
        self.learnt += u64::from((256..512).contains(&answer));
        self.decided += u64::from(answer >= 512);
    }

    /// Schedules in which little is learnt and decided compare little.
    fn test(&self, schedules: u64) -> Result<(), String> {
        if self.learnt < schedules / 2 || self.decided < schedules / 4 {
            return Err(format!(
                "{schedules} schedules learnt {} sets and decided {}",
                self.learnt, self.decided
            ));
        }
        Ok(())
    }
}

/// So many schedules of the style.
pub fn schedules<M: Machine>(rng: &mut Rng, style: Style, count: u64) -> Outcome {
    let mut comparisons = Comparisons::new();
    let mut progress = Progress::default();
    for _ in 0..count {
        let length = rng.within(SHORTEST, LONGEST) as usize;
        let schedule = Schedule::drawn(rng, style, length);
        let log = compare_steps::<M>(&mut comparisons, rng, &schedule, &mut progress)?;
        compare_whole::<M>(&mut comparisons, rng, &schedule, &log)?;
    }
    progress.test(count)?;
    comparisons.made()
}

/// One schedule of the style and the length.
pub fn schedule<M: Machine>(
    comparisons: &mut Comparisons,
    rng: &mut Rng,
    style: Style,
    length: usize,
) -> Result<(), String> {
    let schedule = Schedule::drawn(rng, style, length);
    let log = compare_steps::<M>(comparisons, rng, &schedule, &mut Progress::default())?;
    compare_whole::<M>(comparisons, rng, &schedule, &log)
}

/// Lent places of any values, made fresh.
fn fresh<M: Machine>(
    comparisons: &mut Comparisons,
    rng: &mut Rng,
    schedule: &Schedule,
) -> Result<Lent, String> {
    let mut lent = drawn::any_lent(rng, &schedule.sizes);
    let answer = M::fresh(schedule.sizes, &mut lent);
    comparisons.same(format_args!("fresh, {}", schedule.upto(0)), answer, 0)?;
    Ok(lent)
}

/// One call for each event, as a run of one event and as a single step: what
/// both programs leave after each. Gives the log of the second program.
fn compare_steps<M: Machine>(
    comparisons: &mut Comparisons,
    rng: &mut Rng,
    schedule: &Schedule,
    progress: &mut Progress,
) -> Result<Vec<u64>, String> {
    let mut lent = fresh::<M>(comparisons, rng, schedule)?;
    let mut stepped = lent.clone();
    let mut state = State::fresh(&schedule.sizes);
    let guards = lent.clone();
    comparisons.left(
        format_args!("fresh, {}", schedule.upto(0)),
        state.difference(&lent),
    )?;
    let mut log = Vec::new();
    for (place, event) in schedule.events.iter().enumerate() {
        let events = &schedule.numbers[EVENT * place..];
        let mut left = [BEFORE; LOG + 1];
        let answer = M::run(schedule.sizes, &mut lent, events, &mut left, 1);
        let step = M::step(schedule.sizes, &mut stepped, [event.code, event.a, event.b]);
        let said = state.step(event);
        let [first, second] = said;
        comparisons.same(
            format_args!("the answer to the last of {}", schedule.upto(place + 1)),
            (answer, left, step),
            (0, [first, second, BEFORE], said),
        )?;
        comparisons.left(
            format_args!("after {}", schedule.upto(place + 1)),
            state.difference(&lent),
        )?;
        comparisons.left(
            format_args!("after single steps, {}", schedule.upto(place + 1)),
            state.difference(&stepped),
        )?;
        progress.add(said);
        log.extend(said);
    }
    comparisons.left(
        format_args!(
            "around the lent places, after {}",
            schedule.upto(log.len() / LOG)
        ),
        lent.guard_difference(&guards)
            .or_else(|| stepped.guard_difference(&guards)),
    )?;
    Ok(log)
}

/// One call for the whole schedule: the log and what is left.
fn compare_whole<M: Machine>(
    comparisons: &mut Comparisons,
    rng: &mut Rng,
    schedule: &Schedule,
    log: &[u64],
) -> Result<(), String> {
    let count = schedule.events.len();
    let mut lent = fresh::<M>(comparisons, rng, schedule)?;
    let mut state = State::fresh(&schedule.sizes);
    for event in &schedule.events {
        state.step(event);
    }
    let mut left = vec![BEFORE; LOG * count + 1];
    let answer = M::run(
        schedule.sizes,
        &mut lent,
        &schedule.numbers,
        &mut left,
        count as u16,
    );
    let mut expected = log.to_vec();
    expected.push(BEFORE);
    let input = schedule.upto(count);
    comparisons.same(format_args!("one call, {input}"), answer, 0)?;
    comparisons.same(format_args!("the log of one call, {input}"), left, expected)?;
    comparisons.left(
        format_args!("after one call, {input}"),
        state.difference(&lent),
    )
}
