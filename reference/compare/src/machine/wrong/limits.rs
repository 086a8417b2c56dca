//! Machines that refuse a field at the end of its range, or one that is no
//! record's.

use reference::machine::ACKNOWLEDGEMENT_TO_LEARNER;

use crate::machine::form::Message;
use crate::machine::second::Second;
use crate::machine::Machine;

wrong_run! {
    /// Tests places of what was heard that are no record's.
    TestsPlacesPastTheProposers, STEPS, "fields_at_their_limits": |sizes, lent, events, log, n| {
        let past = usize::from(sizes.proposers).min(8);
        let learners = lent.learners.lent();
        let beyond = |number: u16| number > 1_000;
        match learners.iter().any(|l| l.heard[past..].iter().any(|h| beyond(h.number))) {
            true => 1,
            false => Second::run(sizes, lent, events, log, n),
        }
    };
    /// Tests a learner's number against the count of proposers.
    CountsLearnersAsProposers, STEPS, "fields_at_their_limits": |sizes, lent, events, log, n| {
        let is_past = |message: &Message| {
            u32::from(message.kind) == ACKNOWLEDGEMENT_TO_LEARNER
                && u16::from(message.addressee) >= sizes.proposers
        };
        match lent.slots.lent().iter().any(is_past) {
            true => 1,
            false => Second::run(sizes, lent, events, log, n),
        }
    };
    /// Refuses number 1,000.
    RefusesTheGreatestNumber, STEPS, "fields_at_their_limits": |sizes, lent, events, log, n| {
        match lent.proposers.lent().iter().any(|proposer| proposer.number == 1_000) {
            true => 1,
            false => Second::run(sizes, lent, events, log, n),
        }
    };
    /// Refuses scan 63.
    RefusesTheLastScan, STEPS, "fields_at_their_limits": |sizes, lent, events, log, n| {
        match lent.acceptors.lent().iter().any(|acceptor| acceptor.accepted >> 63 == 1) {
            true => 1,
            false => Second::run(sizes, lent, events, log, n),
        }
    };
    /// Refuses a passive proposer of number 0.
    RefusesPassiveAtZero, STEPS, "fields_at_their_limits": |sizes, lent, events, log, n| {
        match lent.proposers.lent().iter().any(|proposer| proposer.number == 0) {
            true => 1,
            false => Second::run(sizes, lent, events, log, n),
        }
    };
    /// Refuses a passive proposer with acceptors that acknowledged.
    RefusesListsWhilePassive, STEPS, "drawn_records": |sizes, lent, events, log, n| {
        let proposers = lent.proposers.lent();
        match proposers.iter().any(|p| !p.active.is_set() && p.acknowledged != 0) {
            true => 1,
            false => Second::run(sizes, lent, events, log, n),
        }
    };
    /// Refuses a set held for a proposer of whom no number was heard.
    RefusesSetsOfNumberZero, STEPS, "drawn_records": |sizes, lent, events, log, n| {
        let heard = usize::from(sizes.proposers).min(8);
        let learners = lent.learners.lent();
        match learners.iter().any(|l| l.heard[..heard].iter().any(|h| h.number == 0 && h.set != 0)) {
            true => 1,
            false => Second::run(sizes, lent, events, log, n),
        }
    };
}
