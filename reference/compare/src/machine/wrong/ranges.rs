//! Machines that do not test a field, and do the events with what it holds.

use reference::machine::{
    ACKNOWLEDGEMENT, ACKNOWLEDGEMENT_TO_LEARNER, FREE, INTERNAL, PROPOSAL, REJECTION,
};

use crate::machine::drawn::{addressees, all_acceptors, all_scans};
use crate::machine::fields::{has_acceptor, has_proposer};
use crate::machine::form::{Flag, Message};
use crate::machine::lent::Lent;

/// Machines that test what is lent only once it is mended, by name.
macro_rules! untested {
    ($($(#[doc = $meaning:literal])* $name:ident: |$sizes:ident, $lent:ident| $mend:expr;)*) => {
        wrong_run! {$(
            $(#[doc = $meaning])*
            $name, STEPS, "fields_past_their_ranges": |sizes, lent, events, log, n| {
                let mend: $crate::machine::wrong::untested::Mend = |$sizes, $lent| $mend;
                $crate::machine::wrong::untested::run_mended(mend, sizes, lent, events, log, n)
            };
        )*}
    };
}

/// Changes each message.
fn each_message(lent: &mut Lent, change: impl Fn(&mut Message)) {
    lent.slots.lent_mut().iter_mut().for_each(change);
}

/// Changes each message of one of the kinds.
fn each_of(lent: &mut Lent, kinds: &[u32], change: impl Fn(&mut Message)) {
    each_message(lent, |message| {
        if kinds.contains(&message.kind.into()) {
            change(message);
        }
    });
}

/// The number, or the last of so many where it is past them.
fn among(number: u8, count: u16) -> u8 {
    number.min(count as u8 - 1)
}

untested! {
    /// Tests no field of any record or slot.
    TestsNothing: |_sizes, lent| lent.make_fresh();
    /// Does not test the first proposer.
    SkipsTheFirstProposer: |_sizes, lent| {
        if let Some(first) = lent.proposers.lent_mut().first_mut() {
            *first = Default::default();
        }
    };
    /// Does not test the last acceptor.
    SkipsTheLastAcceptorsRecord: |_sizes, lent| {
        if let Some(last) = lent.acceptors.lent_mut().last_mut() {
            *last = Default::default();
        }
    };
    /// Does not test the last learner.
    SkipsTheLastLearnersRecord: |_sizes, lent| {
        if let Some(last) = lent.learners.lent_mut().last_mut() {
            *last = Default::default();
        }
    };
    /// Does not test the first slot.
    SkipsTheFirstSlot: |_sizes, lent| if let Some(first) = lent.slots.lent_mut().first_mut() {
        *first = Message::FREE;
    };
    /// Does not test the last slot.
    SkipsTheLastSlot: |_sizes, lent| if let Some(last) = lent.slots.lent_mut().last_mut() {
        *last = Message::FREE;
    };
    /// Does not test buffered.
    SkipsBuffered: |sizes, lent| for proposer in lent.proposers.lent_mut() {
        proposer.buffered &= all_scans(sizes);
    };
    /// Does not test proposed.
    SkipsProposed: |sizes, lent| for proposer in lent.proposers.lent_mut() {
        proposer.proposed &= all_scans(sizes);
    };
    /// Does not test gathered.
    SkipsGathered: |sizes, lent| for proposer in lent.proposers.lent_mut() {
        proposer.gathered &= all_scans(sizes);
    };
    /// Does not test decided.
    SkipsDecided: |sizes, lent| for proposer in lent.proposers.lent_mut() {
        proposer.decided &= all_scans(sizes);
    };
    /// Does not test the acceptors that acknowledged.
    SkipsAcknowledged: |sizes, lent| for proposer in lent.proposers.lent_mut() {
        proposer.acknowledged &= all_acceptors(sizes);
    };
    /// Does not test whom the last proposer was rejected by.
    SkipsRejected: |_sizes, lent| if let Some(last) = lent.proposers.lent_mut().last_mut() {
        last.rejected = 0;
    };
    /// Does not test a proposer's number.
    SkipsNumber: |_sizes, lent| for proposer in lent.proposers.lent_mut() {
        proposer.number = proposer.number.min(1_000);
    };
    /// Does not test whether an active proposer has a number.
    SkipsActiveAtZero: |_sizes, lent| for proposer in lent.proposers.lent_mut() {
        proposer.active = Flag::CLEAR;
    };
    /// Does not test accepted.
    SkipsAccepted: |sizes, lent| for acceptor in lent.acceptors.lent_mut() {
        acceptor.accepted &= all_scans(sizes);
    };
    /// Does not test learnt.
    SkipsLearnt: |sizes, lent| for learner in lent.learners.lent_mut() {
        learner.learnt &= all_scans(sizes);
    };
    /// Does not test the newest number heard of the last proposer.
    SkipsHeardNumber: |sizes, lent| for learner in lent.learners.lent_mut() {
        learner.heard[usize::from(sizes.proposers - 1)].number = 0;
    };
    /// Does not test the set held for a proposer.
    SkipsHeardSet: |_sizes, lent| for learner in lent.learners.lent_mut() {
        for heard in &mut learner.heard {
            heard.set = 0;
        }
    };
    /// Does not test which acceptors the last learner heard of proposer 0.
    SkipsHeard: |_sizes, lent| if let Some(last) = lent.learners.lent_mut().last_mut() {
        last.heard[0].acceptors = 0;
    };
    /// Does not test a message's set.
    SkipsMessageSet: |sizes, lent| {
        each_message(lent, |message| message.set &= all_scans(sizes));
    };
    /// Takes a message of number 0.
    TakesNumberZero: |_sizes, lent| each_message(lent, |message| {
        if u32::from(message.kind) > INTERNAL {
            message.number = message.number.max(1);
        }
    });
    /// Takes a message of a number past 1,000.
    TakesGreaterNumbers: |_sizes, lent| {
        each_message(lent, |message| message.number = message.number.min(1_000));
    };
    /// Takes an internal message with a number.
    TakesNumberedInternals: |_sizes, lent| {
        each_of(lent, &[INTERNAL], |message| message.number = 0);
    };
    /// Tests whom a message is for only when it is delivered.
    SkipsAddressee: |sizes, lent| each_message(lent, |message| {
        message.addressee = among(message.addressee, addressees(sizes, message.kind));
    });
    /// Tests whose proposal a message is of only when it is delivered.
    SkipsProposerOfMessages: |sizes, lent| each_message(lent, |message| {
        if has_proposer(message.kind) {
            message.proposer = among(message.proposer, sizes.proposers);
        }
    });
    /// Tests which acceptor answers only when the answer is delivered.
    SkipsAcceptorOfMessages: |sizes, lent| each_message(lent, |message| {
        if has_acceptor(message.kind) {
            message.acceptor = among(message.acceptor, sizes.acceptors);
        }
    });
    /// Does not test the acceptor of a proposal, a field that it does not use.
    SkipsUnusedFields: |_sizes, lent| {
        each_of(lent, &[PROPOSAL], |message| message.acceptor = 0);
    };
    /// Does not test the proposer of an answer to one, a field that it does not
    /// use.
    SkipsProposerOfAnswers: |_sizes, lent| {
        each_of(lent, &[ACKNOWLEDGEMENT, REJECTION], |message| message.proposer = 0);
    };
    /// Does not test the proposer and the acceptor of an internal message,
    /// fields that it does not use.
    SkipsPartiesOfInternals: |_sizes, lent| each_of(lent, &[INTERNAL], |message| {
        message.proposer = 0;
        message.acceptor = 0;
    });
    /// Takes kind 6 for kind 5.
    TakesKindSix: |_sizes, lent| each_of(lent, &[6], |message| {
        message.kind = ACKNOWLEDGEMENT_TO_LEARNER as u8;
    });
    /// Takes a free slot that is not all zero.
    TakesFreeSlotsWithFields: |_sizes, lent| {
        each_of(lent, &[FREE], |message| *message = Message::FREE);
    };
}
