//! Whole runs from fresh, of several M and E, and single steps.

use compare::machine::form::{self, Acceptor, Learner, Proposer};
use compare::machine::second::said;
use compare::machine::{EVENT, LOG};
use reference::generate::{events_on, Style};
use reference::machine;
use reference::rng::Rng;
use reference::schedule::{Event, Sizes};

use super::measure::Measured;
use super::{calls, REFUSED};

/// The counts of slots and events.
pub const SLOTS: [usize; 3] = [16, 64, 512];
pub const EVENTS: [usize; 3] = [64, 512, 4_096];

/// The other sizes and the style of a run.
pub const SIZES_AND_STYLE: &str = "P = 4, A = 5, L = 3, S = 64, style contention, from fresh";

fn sizes(m: usize) -> Sizes {
    Sizes {
        p: 4,
        a: 5,
        l: 3,
        m: m as u64,
        s: 64,
    }
}

/// A whole run of E events on M slots.
pub struct WholeRun {
    pub m: usize,
    pub e: usize,
    pub measured: Measured,
}

/// As many drawn schedules of E events as have 4,096 events in all, so that no
/// program has one of them by heart.
struct Drawn {
    sizes: Sizes,
    schedules: Vec<Vec<Event>>,
}

impl Drawn {
    fn new(rng: &mut Rng, m: usize, e: usize) -> Drawn {
        let sizes = sizes(m);
        let schedules = (0..EVENTS[2] / e)
            .map(|_| events_on(rng, Style::Contention, &sizes, e))
            .collect();
        Drawn { sizes, schedules }
    }

    fn proved(&self) -> Vec<ProvedRun> {
        let schedules = self.schedules.iter();
        schedules
            .map(|events| ProvedRun::new(&self.sizes, events))
            .collect()
    }

    fn second(&self) -> Vec<SecondRun<'_>> {
        let schedules = self.schedules.iter();
        schedules
            .map(|events| SecondRun::new(&self.sizes, events))
            .collect()
    }
}

/// The sum of what each gives.
fn sum_over<T>(all: &mut [T], job: fn(&mut T) -> u64) -> u64 {
    all.iter_mut()
        .fold(0, |sum, one| sum.wrapping_add(job(one)))
}

/// One call for all events of a schedule, records tested once.
pub fn whole_runs(rng: &mut Rng) -> Vec<WholeRun> {
    let mut all = Vec::new();
    for m in SLOTS {
        for e in EVENTS {
            let drawn = Drawn::new(rng, m, e);
            let mut proved = drawn.proved();
            let mut second = drawn.second();
            let measured = Measured::of(
                &format!("whole run, M {m}, E {e}"),
                || sum_over(&mut proved, ProvedRun::run_at_once),
                || sum_over(&mut second, SecondRun::run_at_once),
            );
            let measured = measured.each(drawn.schedules.len());
            all.push(WholeRun { m, e, measured });
        }
    }
    all
}

/// One call for each event, records tested at each.
pub fn single_steps(rng: &mut Rng) -> Vec<(String, Measured)> {
    let steps = |m: &usize| {
        let drawn = Drawn::new(rng, *m, EVENTS[1]);
        let mut proved = drawn.proved();
        let mut second = drawn.second();
        let name = format!("single steps, M = {m}");
        let measured = Measured::of(
            &name,
            || sum_over(&mut proved, ProvedRun::run_by_steps),
            || sum_over(&mut second, SecondRun::run_by_steps),
        );
        (name, measured)
    };
    SLOTS.iter().map(steps).collect()
}

/// The second program against itself: what the machine adds to any ratio.
pub fn noise(rng: &mut Rng) -> Measured {
    let drawn = Drawn::new(rng, SLOTS[1], EVENTS[1]);
    let mut one = drawn.second();
    let mut other = drawn.second();
    Measured::of(
        "noise",
        || sum_over(&mut one, SecondRun::run_at_once),
        || sum_over(&mut other, SecondRun::run_at_once),
    )
}

/// The sum of a log.
fn sum_of(log: &[u64]) -> u64 {
    log.iter().fold(0, |sum, number| sum.wrapping_add(*number))
}

/// A run by the proved functions.
pub struct ProvedRun {
    sizes: form::Sizes,
    proposers: Vec<Proposer>,
    acceptors: Vec<Acceptor>,
    learners: Vec<Learner>,
    slots: Vec<form::Message>,
    events: Vec<u64>,
    log: Vec<u64>,
}

impl ProvedRun {
    pub fn new(sizes: &Sizes, events: &[Event]) -> ProvedRun {
        let numbers = events
            .iter()
            .flat_map(|event| [event.code, event.a, event.b]);
        ProvedRun {
            sizes: form::Sizes::of(sizes),
            proposers: vec![Proposer::default(); sizes.p as usize],
            acceptors: vec![Acceptor::default(); sizes.a as usize],
            learners: vec![Learner::default(); sizes.l as usize],
            slots: vec![form::Message::default(); sizes.m as usize],
            events: numbers.collect(),
            log: vec![0; events.len() * LOG],
        }
    }

    fn fresh(&mut self) -> u8 {
        calls::fresh(
            self.sizes,
            &mut self.proposers,
            &mut self.acceptors,
            &mut self.learners,
            &mut self.slots,
        )
    }

    /// Does as many of the first events.
    fn run(&mut self, count: usize) -> u8 {
        calls::run(
            self.sizes,
            &mut self.proposers,
            &mut self.acceptors,
            &mut self.learners,
            &mut self.slots,
            &self.events,
            &mut self.log,
            count as u16,
        )
    }

    pub fn run_at_once(&mut self) -> u64 {
        let count = self.events.len() / EVENT;
        match (self.fresh(), self.run(count)) {
            (0, 0) => sum_of(&self.log),
            _ => REFUSED,
        }
    }

    pub fn run_by_steps(&mut self) -> u64 {
        if self.fresh() != 0 {
            return REFUSED;
        }
        let events = self.events.chunks_exact(EVENT);
        for (event, log) in events.zip(self.log.chunks_exact_mut(LOG)) {
            let said = calls::step(
                self.sizes,
                &mut self.proposers,
                &mut self.acceptors,
                &mut self.learners,
                &mut self.slots,
                form::Event {
                    code: event[0],
                    a: event[1],
                    b: event[2],
                },
            );
            log.copy_from_slice(&[said.no, said.set]);
        }
        sum_of(&self.log)
    }
}

/// A run by the second program.
pub struct SecondRun<'a> {
    sizes: Sizes,
    slots: Vec<machine::Message>,
    events: &'a [Event],
    log: Vec<u64>,
}

impl SecondRun<'_> {
    pub fn new<'a>(sizes: &Sizes, events: &'a [Event]) -> SecondRun<'a> {
        SecondRun {
            sizes: *sizes,
            slots: vec![machine::Message::FREE; sizes.m as usize],
            events,
            log: vec![0; events.len() * LOG],
        }
    }

    fn fresh(&mut self) -> machine::Records {
        machine::fresh(&self.sizes, &mut self.slots).expect("the sizes are within their ranges")
    }

    #[inline(never)]
    pub fn run_at_once(&mut self) -> u64 {
        let mut records = self.fresh();
        if machine::test_records(&records, &self.slots).is_err() {
            return REFUSED;
        }
        for (event, log) in self.events.iter().zip(self.log.chunks_exact_mut(LOG)) {
            let result = machine::step_tested(&mut records, &mut self.slots, event);
            log.copy_from_slice(&said(result));
        }
        sum_of(&self.log)
    }

    pub fn run_by_steps(&mut self) -> u64 {
        let mut records = self.fresh();
        for (event, log) in self.events.iter().zip(self.log.chunks_exact_mut(LOG)) {
            let result = machine::step(&mut records, &mut self.slots, event);
            log.copy_from_slice(&said(result));
        }
        sum_of(&self.log)
    }
}
