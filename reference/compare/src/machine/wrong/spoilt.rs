//! Machines that do an event truly and then spoil what it leaves.

use reference::machine::{self, DELIVER, FREE};
use reference::refusal::NO_ROOM;
use reference::schedule::GREATEST_L;

use super::untested;
use crate::machine::form::{Acceptor, Learner, Message, Proposer, Sizes};
use crate::machine::lent::Lent;
use crate::machine::second::{has_room, State};
use crate::machine::{EVENT, LOG};

/// An event, and the records before it.
pub struct Done<'a> {
    pub sizes: Sizes,
    pub before: &'a Lent,
    pub code: u64,
    pub a: usize,
    pub b: usize,
}

impl Done<'_> {
    /// The message of a Deliver, if it is of the kind.
    pub fn delivered(&self, kind: u32) -> Option<Message> {
        let message = *self.before.slots.lent().get(self.a)?;
        let is_it = self.code == DELIVER && u32::from(message.kind) == kind;
        is_it.then_some(message)
    }

    /// The proposer of argument a, before.
    pub fn proposer(&self) -> Option<Proposer> {
        self.before.proposers.lent().get(self.a).copied()
    }

    /// An acceptor before.
    pub fn acceptor(&self, at: u8) -> Acceptor {
        self.before.acceptors.lent()[usize::from(at)]
    }

    /// A learner before.
    pub fn learner(&self, at: u8) -> Learner {
        self.before.learners.lent()[usize::from(at)]
    }

    /// How many slots were free.
    pub fn free(&self) -> usize {
        let slots = self.before.slots.lent().iter();
        slots.filter(|slot| u32::from(slot.kind) == FREE).count()
    }

    /// How many acceptors are a majority.
    pub fn majority(&self) -> u32 {
        u32::from(self.sizes.acceptors) / 2 + 1
    }

    /// The slots that the event changed, in rising order, but for the one that
    /// it freed.
    pub fn sent(&self, lent: &Lent) -> Vec<usize> {
        let (slots, before) = (lent.slots.lent(), self.before.slots.lent());
        let is_sent = |at: &usize| slots[*at] != before[*at] && u32::from(slots[*at].kind) != FREE;
        (0..slots.len()).filter(is_sent).collect()
    }

    /// Puts everything back and refuses with this number.
    pub fn refuse(&self, lent: &mut Lent, said: &mut [u64], refusal: u64) {
        *lent = self.before.clone();
        said.copy_from_slice(&[refusal, 0]);
    }

    /// Does the event on the records as they were, changed so before it. A
    /// refusal changes nothing.
    pub fn redo(&self, lent: &mut Lent, said: &mut [u64], change: impl FnOnce(&mut Lent)) {
        *lent = self.before.clone();
        change(lent);
        untested::run(self.sizes, lent, &self.event(), said, 1);
        if !is_ok(said) {
            *lent = self.before.clone();
        }
    }

    /// Does the event with slots to spare past the table; the messages that go
    /// there are lost.
    pub fn redo_with_room(&self, lent: &mut Lent, said: &mut [u64]) {
        let mut state = State::of(&self.sizes, self.before);
        state.slots.extend([machine::Message::FREE; SPARE]);
        state.run(lent, &self.event(), said, 1, State::step);
    }

    /// The numbers of the event.
    fn event(&self) -> [u64; EVENT] {
        [self.code, self.a as u64, self.b as u64]
    }
}

/// As many slots as an event sends messages.
const SPARE: usize = GREATEST_L as usize + 1;

/// Whether the event was ok, learnt and decided among it.
pub fn is_ok(said: &[u64]) -> bool {
    said[0] == 0 || said[0] >= 256
}

/// Spoils what an event leaves, and what is said of it.
pub type Spoil = fn(&Done, &mut Lent, &mut [u64]);

/// Does events by the second program and spoils each. What is lent is tested
/// before the first; the others are done on what the spoilt ones left.
pub fn run(
    spoil: Spoil,
    sizes: Sizes,
    lent: &mut Lent,
    events: &[u64],
    log: &mut [u64],
    n: u16,
) -> u8 {
    if let Err(refusal) = State::tested(&sizes, lent) {
        return refusal;
    }
    if !has_room(events, log, n) {
        return NO_ROOM;
    }
    let events = events.chunks_exact(EVENT).take(n.into());
    for (event, said) in events.zip(log.chunks_exact_mut(LOG)) {
        let before = lent.clone();
        untested::run(sizes, lent, event, said, 1);
        let done = Done {
            sizes,
            before: &before,
            code: event[0],
            a: event[1].try_into().unwrap_or(usize::MAX),
            b: event[2].try_into().unwrap_or(usize::MAX),
        };
        spoil(&done, lent, said);
    }
    0
}

/// Faults by name, each with the test of a suite that notices it.
macro_rules! faults {
    ($($(#[doc = $meaning:literal])* $name:ident, $suite:ident, $test:literal:
        |$done:ident, $lent:ident, $said:ident| $body:expr;)*) => {
        wrong_run! {$(
            $(#[doc = $meaning])*
            $name, $suite, $test: |sizes, lent, events, log, n| {
                let spoil: $crate::machine::wrong::spoilt::Spoil = |$done, $lent, $said| $body;
                $crate::machine::wrong::spoilt::run(spoil, sizes, lent, events, log, n)
            };
        )*}
    };
}
