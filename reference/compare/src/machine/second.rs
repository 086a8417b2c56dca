//! The second program behind the proved calls' form.

use reference::machine::{self, Outcome, Records};
use reference::refusal::{Refusal, NO_ROOM, OUTSIDE_RANGE, OUTSIDE_SIZES};
use reference::schedule::{Event, GREATEST_E};

use super::form::{Record, Sizes};
use super::lent::{differs, Lent};
use super::{Machine, EVENT, LOG};

/// A run of the second program.
pub struct State {
    pub records: Records,
    pub slots: Vec<machine::Message>,
}

impl State {
    /// A fresh run of sizes within their ranges.
    pub fn fresh(sizes: &Sizes) -> State {
        let mut slots = vec![machine::Message::FREE; sizes.slots.into()];
        let records =
            machine::fresh(&sizes.second(), &mut slots).expect("the sizes are within their ranges");
        State { records, slots }
    }

    /// The run of the lent records, within their ranges or not. No more of them
    /// are taken than the second program has places for.
    pub fn of(sizes: &Sizes, lent: &Lent) -> State {
        let mut records = Records {
            sizes: sizes.second(),
            proposers: Default::default(),
            acceptors: Default::default(),
            learners: Default::default(),
        };
        fill(&mut records.proposers, lent.proposers.lent());
        fill(&mut records.acceptors, lent.acceptors.lent());
        fill(&mut records.learners, lent.learners.lent());
        let slots = lent.slots.lent().iter().map(Record::second).collect();
        State { records, slots }
    }

    /// The run of the lent records; refused 1 where a size, a length or a field
    /// is outside its range.
    pub fn tested(sizes: &Sizes, lent: &Lent) -> Result<State, Refusal> {
        if !lent.is_of(sizes) {
            return Err(OUTSIDE_RANGE);
        }
        let state = State::of(sizes, lent);
        state.test()?;
        Ok(state)
    }

    /// Refused 1 where a size or a field is outside its range, or there are not
    /// as many slots as the sizes say.
    pub fn test(&self) -> Result<(), Refusal> {
        machine::test_records(&self.records, &self.slots)
    }

    /// Puts the run's records and slots into the lent places.
    fn store(&self, lent: &mut Lent) {
        store(lent.proposers.lent_mut(), &self.records.proposers);
        store(lent.acceptors.lent_mut(), &self.records.acceptors);
        store(lent.learners.lent_mut(), &self.records.learners);
        store(lent.slots.lent_mut(), &self.slots);
    }

    /// One event on records that are within their ranges: the two numbers that
    /// a log has for it.
    pub fn step(&mut self, event: &Event) -> [u64; LOG] {
        said(machine::step_tested(
            &mut self.records,
            &mut self.slots,
            event,
        ))
    }

    /// Does the first `n` of the events, each by `step`, and puts what they leave
    /// into the lent places; refused 3 where that is more than a schedule has,
    /// and 8 where there is no room for so many.
    pub fn run(
        mut self,
        lent: &mut Lent,
        events: &[u64],
        log: &mut [u64],
        n: u16,
        step: fn(&mut State, &Event) -> [u64; LOG],
    ) -> u8 {
        if u64::from(n) > GREATEST_E {
            return OUTSIDE_SIZES;
        }
        if !has_room(events, log, n) {
            return NO_ROOM;
        }
        let events = events.chunks_exact(EVENT).take(n.into());
        for (event, said) in events.zip(log.chunks_exact_mut(LOG)) {
            said.copy_from_slice(&step(&mut self, &event_of(event)));
        }
        self.store(lent);
        0
    }

    /// The first of the lent records and slots that is not the run's.
    pub fn difference(&self, lent: &Lent) -> Option<String> {
        difference("proposer", lent.proposers.lent(), &self.records.proposers)
            .or_else(|| difference("acceptor", lent.acceptors.lent(), &self.records.acceptors))
            .or_else(|| difference("learner", lent.learners.lent(), &self.records.learners))
            .or_else(|| difference("slot", lent.slots.lent(), &self.slots))
    }
}

fn fill<T: Record>(places: &mut [T::Second], lent: &[T]) {
    for (place, record) in places.iter_mut().zip(lent) {
        *place = record.second();
    }
}

fn store<T: Record>(lent: &mut [T], records: &[T::Second]) {
    for (place, record) in lent.iter_mut().zip(records) {
        *place = T::of(record);
    }
}

#[inline]
fn difference<T: Record>(name: &str, lent: &[T], records: &[T::Second]) -> Option<String> {
    let mut pairs = lent.iter().zip(records).enumerate();
    let (place, (found, second)) = pairs.find(|(_, (found, second))| **found != T::of(second))?;
    Some(differs(name, place as isize, found, T::of(second)))
}

/// What a log says of an event: 0 for ok, the refusal's number, 256 and the
/// learner for learnt, 512 and the proposer for decided; then the set.
pub fn said(result: Result<Outcome, Refusal>) -> [u64; LOG] {
    match result {
        Ok(Outcome::Done) => [0, 0],
        Ok(Outcome::Learnt { learner, set }) => [256 + learner, set],
        Ok(Outcome::Decided { proposer, set }) => [512 + proposer, set],
        Err(refusal) => [refusal.into(), 0],
    }
}

/// Whether there are the numbers of `n` events and of the log for them.
pub fn has_room(events: &[u64], log: &[u64], n: u16) -> bool {
    let n = usize::from(n);
    events.len() >= EVENT * n && log.len() >= LOG * n
}

/// The event of three numbers.
pub fn event_of(numbers: &[u64]) -> Event {
    Event {
        code: numbers[0],
        a: numbers[1],
        b: numbers[2],
    }
}

/// The second program as a machine. The lengths of what is lent, which its
/// functions do not have, are tested here.
pub struct Second;

impl Machine for Second {
    fn fresh(sizes: Sizes, lent: &mut Lent) -> u8 {
        if !lent.is_of(&sizes) {
            return OUTSIDE_RANGE;
        }
        let mut slots = State::of(&sizes, lent).slots;
        match machine::fresh(&sizes.second(), &mut slots) {
            Err(refusal) => refusal,
            Ok(records) => {
                State { records, slots }.store(lent);
                0
            }
        }
    }

    fn step(sizes: Sizes, lent: &mut Lent, event: [u64; EVENT]) -> [u64; LOG] {
        match State::tested(&sizes, lent) {
            Err(refusal) => said(Err(refusal)),
            Ok(mut state) => {
                let said = state.step(&event_of(&event));
                state.store(lent);
                said
            }
        }
    }

    fn run(sizes: Sizes, lent: &mut Lent, events: &[u64], log: &mut [u64], n: u16) -> u8 {
        match State::tested(&sizes, lent) {
            Err(refusal) => refusal,
            Ok(state) => state.run(lent, events, log, n, State::step),
        }
    }
}
