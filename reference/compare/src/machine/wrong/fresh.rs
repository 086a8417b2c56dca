//! Machines that make a run fresh wrongly.

use reference::refusal::OUTSIDE_RANGE;
use reference::schedule::test_sizes;

use super::{Calls, Wrong, FRESH};
use crate::machine::form::{Flag, Message, Sizes};
use crate::machine::lent::Lent;
use crate::machine::second::Second;
use crate::machine::Machine;

/// Makes every lent place fresh where the sizes `tested` are within their
/// ranges and as many records and slots are lent as `counted` says.
fn fresh_where(tested: Sizes, counted: Sizes, lent: &mut Lent) -> u8 {
    if test_sizes(&tested.second()).is_err() || !lent.is_of(&counted) {
        return OUTSIDE_RANGE;
    }
    lent.make_fresh();
    0
}

/// Machines that are the second program but in making a run fresh, each with
/// the test that notices it.
macro_rules! wrong_fresh {
    ($($(#[doc = $meaning:literal])* $name:ident, $test:literal:
        |$sizes:ident, $lent:ident| $body:expr;)*) => {
        pub const LIST: &[Wrong] = &[$(
            Wrong {
                name: stringify!($name),
                meaning: concat!($($meaning),*),
                calls: Calls {
                    fresh: |$sizes, $lent| $body,
                    ..Calls::TRUE
                },
                noticed_by: (FRESH, $test),
            },
        )*];
    };
}

wrong_fresh! {
    /// Leaves the last slot as it was.
    LeavesTheLastSlot, "fresh_runs": |sizes, lent| {
        let last = lent.slots.lent().last().copied();
        let answer = Second::fresh(sizes, lent);
        if let (Some(slot), Some(was)) = (lent.slots.lent_mut().last_mut(), last) {
            *slot = was;
        }
        answer
    };
    /// Leaves what was heard of proposers that there are not.
    LeavesPlacesPastTheProposers, "fresh_runs": |sizes, lent| {
        let before = lent.clone();
        let answer = Second::fresh(sizes, lent);
        let past = usize::from(sizes.proposers).min(8);
        for (learner, was) in lent.learners.lent_mut().iter_mut().zip(before.learners.lent()) {
            learner.heard[past..].copy_from_slice(&was.heard[past..]);
        }
        answer
    };
    /// Looks at what the lent records held.
    TestsWhatWasLent, "fresh_runs": |sizes, lent| {
        match lent.slots.lent().iter().any(|slot| slot.kind > 5) {
            true => 1,
            false => Second::fresh(sizes, lent),
        }
    };
    /// Frees the slots before it refuses.
    FreesBeforeItRefuses, "lengths": |sizes, lent| {
        lent.slots.lent_mut().fill(Message::FREE);
        Second::fresh(sizes, lent)
    };
    /// Makes a crashed learner.
    MakesTheLastLearnerCrashed, "fresh_runs": |sizes, lent| {
        let answer = Second::fresh(sizes, lent);
        if let (0, Some(last)) = (answer, lent.learners.lent_mut().last_mut()) {
            last.alive = Flag::CLEAR;
        }
        answer
    };
    /// Leaves what an acceptor had accepted.
    LeavesAccepted, "fresh_runs": |sizes, lent| {
        let before = lent.clone();
        let answer = Second::fresh(sizes, lent);
        let acceptors = lent.acceptors.lent_mut().iter_mut();
        for (acceptor, was) in acceptors.zip(before.acceptors.lent()) {
            acceptor.accepted = was.accepted;
        }
        answer
    };
    /// Leaves what a proposer had buffered.
    LeavesBuffered, "fresh_runs": |sizes, lent| {
        let before = lent.clone();
        let answer = Second::fresh(sizes, lent);
        let proposers = lent.proposers.lent_mut().iter_mut();
        for (proposer, was) in proposers.zip(before.proposers.lent()) {
            proposer.buffered = was.buffered;
        }
        answer
    };
    /// Makes proposers active.
    MakesProposersActive, "fresh_runs": |sizes, lent| {
        let answer = Second::fresh(sizes, lent);
        if answer == 0 {
            for proposer in lent.proposers.lent_mut() {
                proposer.active = Flag::SET;
            }
        }
        answer
    };
    /// Begins to count proposals at 1.
    BeginsAtNumberOne, "fresh_runs": |sizes, lent| {
        let answer = Second::fresh(sizes, lent);
        if answer == 0 {
            for proposer in lent.proposers.lent_mut() {
                proposer.number = 1;
            }
        }
        answer
    };
    /// Makes an acceptor crashed.
    MakesTheFirstAcceptorCrashed, "fresh_runs": |sizes, lent| {
        let answer = Second::fresh(sizes, lent);
        if let (0, Some(first)) = (answer, lent.acceptors.lent_mut().first_mut()) {
            first.alive = Flag::CLEAR;
        }
        answer
    };
    /// Leaves what a learner had learnt.
    LeavesLearnt, "fresh_runs": |sizes, lent| {
        let before = lent.clone();
        let answer = Second::fresh(sizes, lent);
        for (learner, was) in lent.learners.lent_mut().iter_mut().zip(before.learners.lent()) {
            learner.learnt = was.learnt;
        }
        answer
    };
    /// Leaves what a proposer had decided.
    LeavesDecided, "fresh_runs": |sizes, lent| {
        let before = lent.clone();
        let answer = Second::fresh(sizes, lent);
        let proposers = lent.proposers.lent_mut().iter_mut();
        for (proposer, was) in proposers.zip(before.proposers.lent()) {
            proposer.decided = was.decided;
        }
        answer
    };
    /// Takes 9 proposers.
    TakesMoreProposers, "sizes": |sizes, lent| {
        let proposers = if sizes.proposers == 9 { 8 } else { sizes.proposers };
        fresh_where(Sizes { proposers, ..sizes }, sizes, lent)
    };
    /// Takes no proposer.
    TakesNoProposer, "sizes": |sizes, lent| {
        let proposers = sizes.proposers.max(1);
        fresh_where(Sizes { proposers, ..sizes }, sizes, lent)
    };
    /// Takes 8 acceptors.
    TakesMoreAcceptors, "sizes": |sizes, lent| {
        let acceptors = if sizes.acceptors == 8 { 7 } else { sizes.acceptors };
        fresh_where(Sizes { acceptors, ..sizes }, sizes, lent)
    };
    /// Takes no acceptor.
    TakesNoAcceptor, "sizes": |sizes, lent| {
        let acceptors = sizes.acceptors.max(1);
        fresh_where(Sizes { acceptors, ..sizes }, sizes, lent)
    };
    /// Takes 9 learners.
    TakesMoreLearners, "sizes": |sizes, lent| {
        let learners = if sizes.learners == 9 { 8 } else { sizes.learners };
        fresh_where(Sizes { learners, ..sizes }, sizes, lent)
    };
    /// Takes no learner.
    TakesNoLearner, "sizes": |sizes, lent| {
        let learners = sizes.learners.max(1);
        fresh_where(Sizes { learners, ..sizes }, sizes, lent)
    };
    /// Takes 15 slots.
    TakesFewerSlots, "sizes": |sizes, lent| {
        let slots = if sizes.slots == 15 { 16 } else { sizes.slots };
        fresh_where(Sizes { slots, ..sizes }, sizes, lent)
    };
    /// Takes 513 slots.
    TakesOneSlotMore, "sizes": |sizes, lent| {
        let slots = if sizes.slots == 513 { 512 } else { sizes.slots };
        fresh_where(Sizes { slots, ..sizes }, sizes, lent)
    };
    /// Takes 65 scans.
    TakesMoreScans, "sizes": |sizes, lent| {
        let scans = if sizes.scans == 65 { 64 } else { sizes.scans };
        fresh_where(Sizes { scans, ..sizes }, sizes, lent)
    };
    /// Takes no scan.
    TakesNoScan, "sizes": |sizes, lent| {
        let scans = sizes.scans.max(1);
        fresh_where(Sizes { scans, ..sizes }, sizes, lent)
    };
    /// Takes one slot less than the sizes say.
    TakesAShorterTable, "lengths": |sizes, lent| {
        let is_shorter = lent.slots.lent().len() + 1 == sizes.slots.into();
        let slots = sizes.slots - u16::from(is_shorter);
        fresh_where(sizes, Sizes { slots, ..sizes }, lent)
    };
    /// Takes more slots than the sizes say.
    TakesALongerTable, "lengths": |sizes, lent| {
        let slots = sizes.slots.max(lent.slots.lent().len() as u16);
        fresh_where(sizes, Sizes { slots, ..sizes }, lent)
    };
    /// Takes more learners than the sizes say.
    TakesMoreLearnersThanSaid, "lengths": |sizes, lent| {
        let learners = sizes.learners.max(lent.learners.lent().len() as u16);
        fresh_where(sizes, Sizes { learners, ..sizes }, lent)
    };
}
