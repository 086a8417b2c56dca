//! Machines that send other messages, or into other slots.

use reference::machine::{
    ACKNOWLEDGEMENT, ACKNOWLEDGEMENT_TO_LEARNER, DROP, DUPLICATE, FREE, INTERNAL, PROPOSAL,
    PROPOSE, RECEIVE, REFINE, REJECTION,
};

use super::spoilt::{is_ok, Done};
use crate::machine::form::Message;
use crate::machine::lent::Lent;

/// Whether a proposal was delivered.
fn is_answered(done: &Done, said: &[u64]) -> bool {
    is_ok(said) && done.delivered(PROPOSAL).is_some()
}

/// The slots into which messages of the kind were sent, in rising order.
fn sent_of(done: &Done, lent: &Lent, kind: u32) -> Vec<usize> {
    let is_of = |at: &usize| u32::from(lent.slots.lent()[*at].kind) == kind;
    done.sent(lent).into_iter().filter(is_of).collect()
}

/// The messages of the kind that were sent, last addressee first.
fn send_falling(done: &Done, lent: &mut Lent, kind: u32) {
    let sent = sent_of(done, lent, kind);
    let slots = lent.slots.lent_mut();
    for (low, high) in sent.iter().zip(sent.iter().rev()).take(sent.len() / 2) {
        slots.swap(*low, *high);
    }
}

/// Changes each message of the kind that was sent.
fn change_sent(done: &Done, lent: &mut Lent, kind: u32, change: impl Fn(&mut Message)) {
    for at in sent_of(done, lent, kind) {
        change(&mut lent.slots.lent_mut()[at]);
    }
}

/// Sends the messages of the kind only where they are wanted.
fn send_only(done: &Done, lent: &mut Lent, kind: u32, wanted: impl Fn(&Message) -> bool) {
    change_sent(done, lent, kind, |message| {
        if !wanted(message) {
            *message = Message::FREE;
        }
    });
}

fn lowest_free(lent: &mut Lent) -> Option<&mut Message> {
    let mut slots = lent.slots.lent_mut().iter_mut();
    slots.find(|slot| u32::from(slot.kind) == FREE)
}

faults! {
    /// Proposals go to the highest free slots.
    ProposesIntoTheHighest, RUNS, "calm": |done, lent, said| if done.code == PROPOSE && is_ok(said) {
        let sent = sent_of(done, lent, PROPOSAL);
        let slots = lent.slots.lent_mut();
        let highest = (0..slots.len()).rev().filter(|at| u32::from(slots[*at].kind) == FREE);
        let highest: Vec<usize> = highest.take(sent.len()).collect();
        for (low, high) in sent.iter().zip(highest) {
            slots.swap(*low, high);
        }
    };
    /// Proposals go out last acceptor first.
    ProposesLastFirst, RUNS, "calm": |done, lent, said| if done.code == PROPOSE && is_ok(said) {
        send_falling(done, lent, PROPOSAL);
    };
    /// A scan is told last proposer first.
    TellsLastFirst, RUNS, "contention": |done, lent, said| if done.code == RECEIVE && is_ok(said) {
        send_falling(done, lent, INTERNAL);
    };
    /// Learners are sent to last first.
    SendsToTheLastLearnerFirst, RUNS, "calm": |done, lent, said| if is_answered(done, said) {
        send_falling(done, lent, ACKNOWLEDGEMENT_TO_LEARNER);
    };
    /// Proposes to no acceptor that has crashed.
    SkipsCrashedAcceptors, RUNS, "crashes": |done, lent, said| if done.code == PROPOSE && is_ok(said) {
        send_only(done, lent, PROPOSAL, |message| {
            done.acceptor(message.addressee).alive.is_set()
        });
    };
    /// Sends to no learner that has crashed.
    SkipsCrashedLearners, RUNS, "crashes": |done, lent, said| if is_answered(done, said) {
        send_only(done, lent, ACKNOWLEDGEMENT_TO_LEARNER, |message| {
            done.learner(message.addressee).alive.is_set()
        });
    };
    /// Proposes to all acceptors but the last.
    SkipsTheLastAcceptor, RUNS, "calm": |done, lent, said| if done.code == PROPOSE && is_ok(said) {
        let last = done.sizes.acceptors - 1;
        send_only(done, lent, PROPOSAL, |message| u16::from(message.addressee) != last);
    };
    /// Sends to all learners but the last.
    SkipsTheLastLearner, RUNS, "calm": |done, lent, said| if is_answered(done, said) {
        let last = done.sizes.learners - 1;
        let wanted = |message: &Message| u16::from(message.addressee) != last;
        send_only(done, lent, ACKNOWLEDGEMENT_TO_LEARNER, wanted);
    };
    /// Tells a scan to itself as well.
    TellsItself, RUNS, "calm": |done, lent, said| if done.code == RECEIVE && is_ok(said) {
        if let Some(free) = lowest_free(lent) {
            *free = Message {
                kind: INTERNAL as u8,
                addressee: done.a as u8,
                set: 1 << done.b,
                ..Message::FREE
            };
        }
    };
    /// Tells all that is buffered, not the scan alone.
    TellsBuffered, RUNS, "contention": |done, lent, said| if done.code == RECEIVE && is_ok(said) {
        let buffered = lent.proposers.lent()[done.a].buffered;
        change_sent(done, lent, INTERNAL, |message| message.set = buffered);
    };
    /// Proposals carry what is buffered alone.
    SendsBuffered, RUNS, "calm": |done, lent, said| if done.code == PROPOSE && is_ok(said) {
        let buffered = done.before.proposers.lent()[done.a].buffered;
        change_sent(done, lent, PROPOSAL, |message| message.set = buffered);
    };
    /// Proposals carry the number before.
    SendsTheNumberBefore, RUNS, "calm": |done, lent, said| if done.code == PROPOSE && is_ok(said) {
        change_sent(done, lent, PROPOSAL, |message| message.number = 1.max(message.number - 1));
    };
    /// Learners are told of proposer 0, whoever proposed.
    NamesProposerZero, RUNS, "contention": |done, lent, said| if is_answered(done, said) {
        change_sent(done, lent, ACKNOWLEDGEMENT_TO_LEARNER, |message| message.proposer = 0);
    };
    /// Answers name acceptor 0, whoever answers.
    NamesAcceptorZero, RUNS, "calm": |done, lent, said| if is_answered(done, said) {
        change_sent(done, lent, ACKNOWLEDGEMENT_TO_LEARNER, |message| message.acceptor = 0);
    };
    /// A rejection goes to proposer 0, whoever proposed.
    RejectsToProposerZero, RUNS, "contention": |done, lent, said| if is_answered(done, said) {
        change_sent(done, lent, REJECTION, |message| message.addressee = 0);
    };
    /// A rejection says which proposer it is for in a field that it does not use.
    RejectionNamesProposer, RUNS, "contention": |done, lent, said| if is_answered(done, said) {
        change_sent(done, lent, REJECTION, |message| message.proposer = message.addressee);
    };
    /// A dropped message stays.
    DropsNothing, RUNS, "lossy": |done, lent, said| if done.code == DROP && is_ok(said) {
        *lent = done.before.clone();
    };
    /// A dropped message leaves its set in the slot.
    DropLeavesTheSet, RUNS, "lossy": |done, lent, said| if done.code == DROP && is_ok(said) {
        lent.slots.lent_mut()[done.a].set = done.before.slots.lent()[done.a].set;
    };
    /// A Duplicate moves the message.
    DuplicateMoves, RUNS, "lossy": |done, lent, said| if done.code == DUPLICATE && is_ok(said) {
        lent.slots.lent_mut()[done.a] = Message::FREE;
    };
    /// A Duplicate into a full table says ok.
    DuplicatesIntoAFullTable, RUNS, "full": |done, _lent, said| {
        if done.code == DUPLICATE && said[0] == 8 {
            said.fill(0);
        }
    };
    /// A Receive needs a slot for itself too.
    ReceiveNeedsOneMore, RUNS, "full": |done, lent, said| {
        let is_short = done.free() < done.sizes.proposers.into();
        if done.code == RECEIVE && is_ok(said) && is_short {
            done.refuse(lent, said, 8);
        }
    };
    /// A Deliver does not count the slot that it frees.
    DeliverCountsFreeOnly, RUNS, "full": |done, lent, said| {
        if is_answered(done, said) && done.free() < done.sent(lent).len() {
            done.refuse(lent, said, 8);
        }
    };
    /// A Propose that lacks one slot takes slot 0.
    ProposeTakesSlotZero, RUNS, "full": |done, lent, said| if done.code == PROPOSE && said[0] == 8 {
        let acceptors = usize::from(done.sizes.acceptors);
        if done.free() + 1 == acceptors {
            done.redo(lent, said, |lent| lent.slots.lent_mut()[0] = Message::FREE);
        }
    };
    /// A Receive that lacks room tells as many as there is room for.
    ReceivesWithoutRoom, RUNS, "full": |done, lent, said| if done.code == RECEIVE && said[0] == 8 {
        done.redo_with_room(lent, said);
    };
    /// A proposal that lacks room for the answers is answered to as many as
    /// there is room for.
    AnswersWithoutRoom, RUNS, "full": |done, lent, said| {
        if done.delivered(PROPOSAL).is_some() && said[0] == 8 {
            done.redo_with_room(lent, said);
        }
    };
    /// A Propose that lacks room goes to as many as there is room for.
    ProposesWithoutRoom, RUNS, "full": |done, lent, said| if done.code == PROPOSE && said[0] == 8 {
        done.redo_with_room(lent, said);
    };
    /// A Refine that lacks room goes to as many as there is room for.
    RefinesWithoutRoom, STEPS, "drawn_records": |done, lent, said| {
        if done.code == REFINE && said[0] == 8 {
            done.redo_with_room(lent, said);
        }
    };
    /// Tells a scan to all other proposers but the last.
    TellsAllButTheLast, RUNS, "calm": |done, lent, said| if done.code == RECEIVE && is_ok(said) {
        let last = done.sizes.proposers - 1;
        send_only(done, lent, INTERNAL, |message| u16::from(message.addressee) != last);
    };
    /// Tells no scan that is buffered already.
    TellsOnce, RUNS, "calm": |done, lent, said| {
        let buffered = done.proposer().map_or(0, |was| was.buffered);
        if done.code == RECEIVE && is_ok(said) && buffered & (1 << done.b) != 0 {
            send_only(done, lent, INTERNAL, |_| false);
        }
    };
    /// Refines to all acceptors but the last.
    RefinesToAllButTheLast, RUNS, "contention": |done, lent, said| {
        if done.code == REFINE && is_ok(said) {
            let last = done.sizes.acceptors - 1;
            send_only(done, lent, PROPOSAL, |message| u16::from(message.addressee) != last);
        }
    };
    /// Acknowledges to learners alone.
    AcknowledgesToLearnersAlone, RUNS, "calm": |done, lent, said| if is_answered(done, said) {
        send_only(done, lent, ACKNOWLEDGEMENT, |_| false);
    };
    /// An acknowledgement to the proposer carries no scan.
    AcknowledgesNoSet, RUNS, "calm": |done, lent, said| if is_answered(done, said) {
        change_sent(done, lent, ACKNOWLEDGEMENT, |message| message.set = 0);
    };
    /// Learners are told number 1, whatever the proposal's.
    TellsLearnersNumberOne, RUNS, "lossy": |done, lent, said| if is_answered(done, said) {
        change_sent(done, lent, ACKNOWLEDGEMENT_TO_LEARNER, |message| message.number = 1);
    };
    /// A copy has the number before.
    CopiesTheNumberBefore, RUNS, "lossy": |done, lent, said| if done.code == DUPLICATE && is_ok(said) {
        for at in done.sent(lent) {
            let copy = &mut lent.slots.lent_mut()[at];
            if copy.number > 1 {
                copy.number -= 1;
            }
        }
    };
}
