//! Faults of any kind: one thing of an event done wrongly.

use reference::machine::{
    ACKNOWLEDGEMENT, ACKNOWLEDGEMENT_TO_LEARNER, DECIDE, DELIVER, DUPLICATE, FREE, INTERNAL,
    PROPOSAL, PROPOSE, RECEIVE, REFINE, REJECTION,
};

use super::spoilt::is_ok;
use crate::machine::form::Message;

faults! {
    /// Refuses every event.
    RefusesAll, RUNS, "calm": |done, lent, said| {
        *lent = done.before.clone();
        said.copy_from_slice(&[6, 0]);
    };
    /// Says ok to every event and does nothing.
    AlwaysOk, RUNS, "wild": |done, lent, said| {
        *lent = done.before.clone();
        said.fill(0);
    };
    /// Answers truly and changes nothing.
    ChangesNothing, RUNS, "calm": |done, lent, _said| *lent = done.before.clone();
    /// Decides proposed and gathered.
    DecidesGathered, RUNS, "contention": |_done, lent, said| if let Some(at) = said[0].checked_sub(512) {
        let proposer = &mut lent.proposers.lent_mut()[at as usize];
        proposer.decided |= proposer.gathered;
        said[1] = proposer.decided;
    };
    /// Empties a proposer's lists when it decides.
    EmptiesListsAtDecide, RUNS, "calm": |_done, lent, said| if let Some(at) = said[0].checked_sub(512) {
        let proposer = &mut lent.proposers.lent_mut()[at as usize];
        proposer.acknowledged = 0;
        proposer.rejected = 0;
    };
    /// Keeps what was gathered when it refines.
    KeepsGatheredAtRefine, RUNS, "contention": |done, lent, said| if done.code == REFINE && is_ok(said) {
        let gathered = done.before.proposers.lent()[done.a].gathered;
        lent.proposers.lent_mut()[done.a].gathered = gathered;
    };
    /// Empties buffered when it refines.
    EmptiesBufferedAtRefine, RUNS, "contention": |done, lent, said| if done.code == REFINE && is_ok(said) {
        lent.proposers.lent_mut()[done.a].buffered = 0;
    };
    /// Proposes what is buffered alone.
    ForgetsProposed, RUNS, "calm": |done, lent, said| if done.code == PROPOSE && is_ok(said) {
        let buffered = done.before.proposers.lent()[done.a].buffered;
        lent.proposers.lent_mut()[done.a].proposed = buffered;
    };
    /// Keeps the acceptors of the proposal before.
    KeepsListsAtPropose, RUNS, "calm": |done, lent, said| if done.code == PROPOSE && is_ok(said) {
        let acknowledged = done.before.proposers.lent()[done.a].acknowledged;
        lent.proposers.lent_mut()[done.a].acknowledged = acknowledged;
    };
    /// Counts an acknowledgement of another number.
    CountsLateAcknowledgements, RUNS, "lossy": |done, lent, said| if is_ok(said) {
        if let Some(message) = done.delivered(ACKNOWLEDGEMENT) {
            let proposer = &mut lent.proposers.lent_mut()[usize::from(message.addressee)];
            if proposer.active.is_set() {
                proposer.acknowledged |= 1 << message.acceptor;
            }
        }
    };
    /// Counts a rejection for a passive proposer.
    CountsRejectionsWhilePassive, RUNS, "contention": |done, lent, said| if is_ok(said) {
        if let Some(message) = done.delivered(REJECTION) {
            let proposer = &mut lent.proposers.lent_mut()[usize::from(message.addressee)];
            if proposer.number == message.number {
                proposer.rejected |= 1 << message.acceptor;
            }
        }
    };
    /// Proposes at once what a rejection brings.
    RefinesAtRejection, RUNS, "contention": |done, lent, said| if is_ok(said) {
        if let Some(message) = done.delivered(REJECTION) {
            let proposer = &mut lent.proposers.lent_mut()[usize::from(message.addressee)];
            if proposer.active.is_set() && proposer.number == message.number {
                proposer.proposed |= message.set;
            }
        }
    };
    /// An acceptor that rejects keeps its set.
    RejectionGrowsNothing, RUNS, "lossy": |done, lent, said| if is_ok(said) {
        if let Some(message) = done.delivered(PROPOSAL) {
            let at = usize::from(message.addressee);
            let accepted = done.before.acceptors.lent()[at].accepted;
            if accepted & !message.set != 0 {
                lent.acceptors.lent_mut()[at].accepted = accepted;
            }
        }
    };
    /// A learner adds up acknowledgements of different numbers.
    AddsUpNumbers, RUNS, "edges": |done, lent, said| if is_ok(said) {
        if let Some(message) = done.delivered(ACKNOWLEDGEMENT_TO_LEARNER) {
            let (at, of) = (usize::from(message.addressee), usize::from(message.proposer));
            let before = done.before.learners.lent()[at].heard[of].acceptors;
            lent.learners.lent_mut()[at].heard[of].acceptors |= before;
        }
    };
    /// A learner takes up a lower number.
    HearsLowerNumbers, RUNS, "lossy": |done, lent, said| if is_ok(said) {
        if let Some(message) = done.delivered(ACKNOWLEDGEMENT_TO_LEARNER) {
            let (at, of) = (usize::from(message.addressee), usize::from(message.proposer));
            lent.learners.lent_mut()[at].heard[of].number = message.number;
        }
    };
    /// Says learnt again where the set is the learnt one.
    LearnsAgain, RUNS, "lossy": |done, lent, said| if is_ok(said) {
        if let Some(message) = done.delivered(ACKNOWLEDGEMENT_TO_LEARNER) {
            let learner = &lent.learners.lent()[usize::from(message.addressee)];
            let heard = learner.heard[usize::from(message.proposer)];
            if heard.set == learner.learnt && heard.number == message.number {
                said.copy_from_slice(&[256 + u64::from(message.addressee), heard.set]);
            }
        }
    };
    /// A copy goes to the highest free slot.
    CopiesToTheHighest, RUNS, "lossy": |done, lent, said| if done.code == DUPLICATE && is_ok(said) {
        let slots = lent.slots.lent_mut();
        let before = done.before.slots.lent();
        let copy = (0..slots.len()).find(|slot| slots[*slot] != before[*slot]);
        let free = (0..slots.len()).rev().find(|slot| u32::from(slots[*slot].kind) == FREE);
        if let (Some(copy), Some(free)) = (copy, free) {
            slots.swap(copy, free);
        }
    };
    /// The slot of a delivered proposal is not there for the answers to it.
    FreesTheSlotLast, RUNS, "edges": |done, lent, said| if is_ok(said) && done.delivered(PROPOSAL).is_some() {
        let slots = lent.slots.lent_mut();
        let free = (0..slots.len()).find(|slot| u32::from(slots[*slot].kind) == FREE);
        if let Some(free) = free {
            slots.swap(done.a, free);
        }
    };
    /// Learners are sent to before the proposer.
    SendsToLearnersFirst, RUNS, "calm": |done, lent, said| if is_ok(said) && done.delivered(PROPOSAL).is_some() {
        let slots = lent.slots.lent_mut();
        let before = done.before.slots.lent();
        let sent: Vec<usize> = (0..slots.len()).filter(|at| slots[*at] != before[*at]).collect();
        if let [first, second, ..] = sent[..] {
            slots.swap(first, second);
        }
    };
    /// Tells a scan to no proposer that has crashed.
    SkipsCrashedProposers, RUNS, "crashes": |done, lent, said| if done.code == RECEIVE && is_ok(said) {
        let before = done.before.slots.lent();
        for (slot, was) in lent.slots.lent_mut().iter_mut().zip(before) {
            let is_sent = *slot != *was && u32::from(slot.kind) == INTERNAL;
            let proposers = done.before.proposers.lent();
            if is_sent && !proposers[usize::from(slot.addressee)].alive.is_set() {
                *slot = Message::FREE;
            }
        }
    };
    /// Uses up a message to a party that has crashed.
    UsesUpRefusedMessages, RUNS, "crashes": |done, lent, said| if done.code == DELIVER && said[0] == 5 {
        lent.slots.lent_mut()[done.a] = Message::FREE;
    };
    /// Buffers a scan although there is no room to tell it.
    BuffersWithoutRoom, RUNS, "full": |done, lent, said| if done.code == RECEIVE && said[0] == 8 {
        lent.proposers.lent_mut()[done.a].buffered |= 1 << done.b;
    };
    /// Refuses 6 where a proposer decides and could refine.
    PrefersRefine, RUNS, "contention": |done, lent, said| {
        let is_decided = done.code == DECIDE && is_ok(said);
        if is_decided && done.before.proposers.lent()[done.a].rejected != 0 {
            *lent = done.before.clone();
            said.copy_from_slice(&[6, 0]);
        }
    };
    /// Leaves the number of a message that is learnt from in its slot.
    LeavesNumberInFreeSlot, RUNS, "full": |done, lent, said| if done.code == DELIVER && said[0] >= 256 {
        lent.slots.lent_mut()[done.a].number = 1;
    };
}
