//! Acceptors that follow another rule.

use reference::machine::{ACKNOWLEDGEMENT, PROPOSAL, REJECTION};

use super::spoilt::{is_ok, Done};
use crate::machine::form::Message;
use crate::machine::lent::Lent;

/// The acceptor rejects the proposal, and keeps this set, which it sends.
fn reject(done: &Done, lent: &mut Lent, said: &mut [u64], proposal: &Message, set: u64) {
    *lent = done.before.clone();
    said.fill(0);
    lent.acceptors.lent_mut()[usize::from(proposal.addressee)].accepted = set;
    let slots = lent.slots.lent_mut();
    slots[done.a] = Message::FREE;
    if let Some(free) = slots.iter_mut().find(|slot| **slot == Message::FREE) {
        *free = Message {
            kind: REJECTION as u8,
            addressee: proposal.proposer,
            proposer: 0,
            acceptor: proposal.addressee,
            number: proposal.number,
            set,
        };
    }
}

/// The rejection that the delivered proposal was answered with.
fn sent_rejection<'a>(done: &Done, lent: &'a mut Lent, said: &[u64]) -> Option<&'a mut Message> {
    done.delivered(PROPOSAL)?;
    let at = *done.sent(lent).first()?;
    let message = &mut lent.slots.lent_mut()[at];
    match is_ok(said) && u32::from(message.kind) == REJECTION {
        true => Some(message),
        false => None,
    }
}

/// The acceptor acknowledges the delivered proposal, which it would reject,
/// where this holds of what it has accepted and the proposal's set.
fn acknowledges_where(done: &Done, lent: &mut Lent, said: &mut [u64], holds: fn(u64, u64) -> bool) {
    if let (Some(proposal), true) = (done.delivered(PROPOSAL), is_ok(said)) {
        let at = usize::from(proposal.addressee);
        let accepted = done.acceptor(proposal.addressee).accepted;
        if accepted & !proposal.set != 0 && holds(accepted, proposal.set) {
            done.redo(lent, said, |lent| {
                lent.acceptors.lent_mut()[at].accepted = 0
            });
        }
    }
}

faults! {
    /// An acceptor rejects the set that it has accepted.
    RejectsTheAccepted, RUNS, "calm": |done, lent, said| {
        if let Some(proposal) = done.delivered(PROPOSAL) {
            let accepted = done.acceptor(proposal.addressee).accepted;
            if accepted == proposal.set && (is_ok(said) || said[0] == 8) {
                reject(done, lent, said, &proposal, accepted);
            }
        }
    };
    /// An acceptor that rejects drops what it had accepted.
    AcceptedIsReplaced, RUNS, "contention": |done, lent, said| {
        if let (Some(proposal), true) = (done.delivered(PROPOSAL), is_ok(said)) {
            lent.acceptors.lent_mut()[usize::from(proposal.addressee)].accepted = proposal.set;
        }
    };
    /// A rejection carries what was accepted before.
    RejectsWithTheOldSet, RUNS, "contention": |done, lent, said| {
        if let Some(message) = sent_rejection(done, lent, said) {
            message.set = done.acceptor(message.acceptor).accepted;
        }
    };
    /// A rejection carries the proposal's own set.
    RejectsWithTheProposal, RUNS, "contention": |done, lent, said| {
        let proposal = done.before.slots.lent().get(done.a).map_or(0, |slot| slot.set);
        if let Some(message) = sent_rejection(done, lent, said) {
            message.set = proposal;
        }
    };
    /// A rejection goes out as an acknowledgement.
    AcknowledgesEverything, RUNS, "contention": |done, lent, said| {
        if let Some(message) = sent_rejection(done, lent, said) {
            message.kind = ACKNOWLEDGEMENT as u8;
        }
    };
    /// An acceptor acknowledges every proposal.
    AcceptsEverything, RUNS, "contention": |done, lent, said| {
        acknowledges_where(done, lent, said, |_, _| true);
    };
    /// An acceptor acknowledges a set that is contained in what it accepted.
    AcceptsSmallerSets, RUNS, "contention": |done, lent, said| {
        acknowledges_where(done, lent, said, |accepted, set| set & !accepted == 0);
    };
    /// An acceptor that acknowledges keeps its set.
    AcceptedStays, RUNS, "calm": |done, lent, said| {
        if let (Some(proposal), true) = (done.delivered(PROPOSAL), is_ok(said)) {
            let was = done.acceptor(proposal.addressee).accepted;
            if was & !proposal.set == 0 {
                lent.acceptors.lent_mut()[usize::from(proposal.addressee)].accepted = was;
            }
        }
    };
}
