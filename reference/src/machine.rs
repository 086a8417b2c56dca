//! The step machine over the records of proposers, acceptors and learners and
//! the messages between them.

use std::iter;

use crate::records::{acceptor_within, learner_within, message_within, proposer_within};
use crate::refusal::{Refusal, NO_ROOM, OUTSIDE_RANGE, OUTSIDE_SIZES, SLOT_FREE, UNKNOWN_CODE};
use crate::roles::{self, test_alive};
use crate::schedule::{test_sizes, Event, Sizes};
use crate::sets::scans;

pub use crate::records::{
    Acceptor, Heard, Learner, Message, Proposer, Records, ACKNOWLEDGEMENT,
    ACKNOWLEDGEMENT_TO_LEARNER, FREE, GREATEST_NUMBER, INTERNAL, PROPOSAL, REJECTION,
};

/// The event codes.
pub const RECEIVE: u64 = 1;
pub const DELIVER: u64 = 2;
pub const DROP: u64 = 3;
pub const DUPLICATE: u64 = 4;
pub const PROPOSE: u64 = 5;
pub const REFINE: u64 = 6;
pub const DECIDE: u64 = 7;
pub const CRASH: u64 = 8;

/// The roles as a crash names them.
pub const PROPOSER: u64 = 1;
pub const ACCEPTOR: u64 = 2;
pub const LEARNER: u64 = 3;

/// What an event that is ok gives.
#[derive(Clone, Copy, Debug, PartialEq, Eq)]
pub enum Outcome {
    /// Nothing but the changed records and slots.
    Done,
    /// A Deliver changed this learner's learnt set to `set`.
    Learnt { learner: u64, set: u64 },
    /// A Decide of this proposer decided `set`.
    Decided { proposer: u64, set: u64 },
}

/// How many events of a run were ok and how many refused.
#[derive(Clone, Copy, Debug, Default, PartialEq, Eq)]
pub struct Counts {
    pub ok: u64,
    pub refused: u64,
}

/// The records of a fresh run: all alive, passive, sets empty, numbers 0. It
/// frees every slot.
///
/// Refused 1 where a size is outside its range or the table is not M slots.
pub fn fresh(sizes: &Sizes, slots: &mut [Message]) -> Result<Records, Refusal> {
    test_sizes_and_table(sizes, slots)?;
    let mut records = Records {
        sizes: *sizes,
        proposers: Default::default(),
        acceptors: Default::default(),
        learners: Default::default(),
    };
    for proposer in &mut records.proposers[..sizes.p as usize] {
        proposer.alive = true;
    }
    for acceptor in &mut records.acceptors[..sizes.a as usize] {
        acceptor.alive = true;
    }
    for learner in &mut records.learners[..sizes.l as usize] {
        learner.alive = true;
    }
    slots.fill(Message::FREE);
    Ok(records)
}

/// Refused 1 where a size is outside its range, the table is not M slots, or a
/// field of a record or of a slot is outside its range.
pub fn test_records(records: &Records, slots: &[Message]) -> Result<(), Refusal> {
    let sizes = &records.sizes;
    test_sizes_and_table(sizes, slots)?;
    let p = sizes.p as usize;
    let a = sizes.a as usize;
    let l = sizes.l as usize;
    let within = records.proposers[..p]
        .iter()
        .all(|proposer| proposer_within(sizes, proposer))
        && records.acceptors[..a]
            .iter()
            .all(|acceptor| acceptor_within(sizes, acceptor))
        && records.learners[..l]
            .iter()
            .all(|learner| learner_within(sizes, learner))
        && slots.iter().all(|message| message_within(sizes, message));
    if within {
        Ok(())
    } else {
        Err(OUTSIDE_RANGE)
    }
}

/// One event: the records and slots are tested first, then the event. A
/// refusal changes nothing.
pub fn step(
    records: &mut Records,
    slots: &mut [Message],
    event: &Event,
) -> Result<Outcome, Refusal> {
    test_records(records, slots)?;
    step_tested(records, slots, event)
}

/// One event on records and slots that have passed `test_records`; they pass
/// it afterwards too. A refusal changes nothing.
pub fn step_tested(
    records: &mut Records,
    slots: &mut [Message],
    event: &Event,
) -> Result<Outcome, Refusal> {
    match event.code {
        RECEIVE => receive(records, slots, event),
        DELIVER => deliver(records, slots, event),
        DROP => drop_message(records, slots, event),
        DUPLICATE => duplicate(records, slots, event),
        PROPOSE => propose(records, slots, event),
        REFINE => refine(records, slots, event),
        DECIDE => decide(records, event),
        CRASH => crash(records, event),
        _ => Err(UNKNOWN_CODE),
    }
}

/// All events in their order, each reported with its place from 1. The records
/// and slots are tested once, before the first event.
pub fn run<F>(
    records: &mut Records,
    slots: &mut [Message],
    events: &[Event],
    mut report: F,
) -> Result<Counts, Refusal>
where
    F: FnMut(u64, Result<Outcome, Refusal>),
{
    test_records(records, slots)?;
    let mut counts = Counts::default();
    for (place, event) in (1..).zip(events) {
        let result = step_tested(records, slots, event);
        match result {
            Ok(_) => counts.ok += 1,
            Err(_) => counts.refused += 1,
        }
        report(place, result);
    }
    Ok(counts)
}

// Refusal 1.

fn test_sizes_and_table(sizes: &Sizes, slots: &[Message]) -> Result<(), Refusal> {
    test_sizes(sizes)?;
    if slots.len() as u64 != sizes.m {
        return Err(OUTSIDE_RANGE);
    }
    Ok(())
}

// Refusals 3, 4 and 8.

/// The index that an argument names among `count`; refused 3 where it is not
/// below it.
fn index_below(argument: u64, count: u64) -> Result<usize, Refusal> {
    if argument < count {
        Ok(argument as usize)
    } else {
        Err(OUTSIDE_SIZES)
    }
}

/// Refused 3 where an argument that must be 0 is not.
fn test_zero(argument: u64) -> Result<(), Refusal> {
    if argument == 0 {
        Ok(())
    } else {
        Err(OUTSIDE_SIZES)
    }
}

/// The slot that the event names; refused 3, then 4 where it is free.
fn occupied_slot(records: &Records, slots: &[Message], event: &Event) -> Result<usize, Refusal> {
    let slot = index_below(event.a, records.sizes.m)?;
    test_zero(event.b)?;
    if slots[slot].kind == FREE {
        return Err(SLOT_FREE);
    }
    Ok(slot)
}

/// The proposer that the event names, b being 0; refused 3.
fn acting_proposer(records: &Records, event: &Event) -> Result<usize, Refusal> {
    let proposer = index_below(event.a, records.sizes.p)?;
    test_zero(event.b)?;
    Ok(proposer)
}

/// Refused 8 where fewer slots are free than `needed`.
fn test_free(slots: &[Message], needed: u64) -> Result<(), Refusal> {
    let needed = needed as usize;
    let free = slots.iter().filter(|slot| slot.kind == FREE);
    if free.take(needed).count() < needed {
        return Err(NO_ROOM);
    }
    Ok(())
}

/// Sends the messages in their order, each into the lowest free slot at that
/// moment.
fn send(slots: &mut [Message], messages: impl Iterator<Item = Message>) {
    let free = slots.iter_mut().filter(|slot| slot.kind == FREE);
    for (slot, message) in free.zip(messages) {
        *slot = message;
    }
}

// The events.

fn receive(
    records: &mut Records,
    slots: &mut [Message],
    event: &Event,
) -> Result<Outcome, Refusal> {
    let sizes = records.sizes;
    let receiver = index_below(event.a, sizes.p)?;
    index_below(event.b, sizes.s)?;
    let proposer = &mut records.proposers[receiver];
    test_alive(proposer.alive)?;
    test_free(slots, sizes.p - 1)?;

    let set = scans::one(event.b);
    roles::buffer(proposer, set);
    let others = (0..sizes.p as u32).filter(|other| *other != receiver as u32);
    send(
        slots,
        others.map(|addressee| Message {
            kind: INTERNAL,
            addressee,
            set,
            ..Message::FREE
        }),
    );
    Ok(Outcome::Done)
}

fn deliver(
    records: &mut Records,
    slots: &mut [Message],
    event: &Event,
) -> Result<Outcome, Refusal> {
    let slot = occupied_slot(records, slots, event)?;
    let message = slots[slot];
    match message.kind {
        INTERNAL => {
            let proposer = &mut records.proposers[message.addressee as usize];
            test_alive(proposer.alive)?;
            slots[slot] = Message::FREE;
            roles::buffer(proposer, message.set);
            Ok(Outcome::Done)
        }
        PROPOSAL => deliver_proposal(records, slots, slot),
        ACKNOWLEDGEMENT => {
            let proposer = &mut records.proposers[message.addressee as usize];
            test_alive(proposer.alive)?;
            slots[slot] = Message::FREE;
            roles::acknowledged(proposer, message.acceptor, message.number);
            Ok(Outcome::Done)
        }
        REJECTION => {
            let proposer = &mut records.proposers[message.addressee as usize];
            test_alive(proposer.alive)?;
            slots[slot] = Message::FREE;
            roles::rejected(proposer, message.acceptor, message.number, message.set);
            Ok(Outcome::Done)
        }
        // Every other kind that passes the test of records is kind 5.
        _ => {
            let a = records.sizes.a as u32;
            let learner = &mut records.learners[message.addressee as usize];
            test_alive(learner.alive)?;
            slots[slot] = Message::FREE;
            let Message {
                proposer,
                acceptor,
                number,
                set,
                ..
            } = message;
            if roles::hear(learner, proposer as usize, acceptor, number, set, a) {
                return Ok(Outcome::Learnt {
                    learner: u64::from(message.addressee),
                    set: learner.learnt,
                });
            }
            Ok(Outcome::Done)
        }
    }
}

/// Delivers the proposal in `slot` to its acceptor.
fn deliver_proposal(
    records: &mut Records,
    slots: &mut [Message],
    slot: usize,
) -> Result<Outcome, Refusal> {
    let learners = records.sizes.l;
    let proposal = slots[slot];
    let acceptor = &mut records.acceptors[proposal.addressee as usize];
    test_alive(acceptor.alive)?;
    if roles::accepts(acceptor, proposal.set) {
        // 1 + L messages, one of them into the slot that is freed.
        test_free(slots, learners)?;
    }
    slots[slot] = Message::FREE;
    let acknowledged = roles::answer(acceptor, proposal.set);
    let to_proposer = Message {
        kind: if acknowledged {
            ACKNOWLEDGEMENT
        } else {
            REJECTION
        },
        addressee: proposal.proposer,
        proposer: 0,
        acceptor: proposal.addressee,
        number: proposal.number,
        set: acceptor.accepted,
    };
    let told = if acknowledged { learners as u32 } else { 0 };
    let to_learners = (0..told).map(|learner| Message {
        kind: ACKNOWLEDGEMENT_TO_LEARNER,
        addressee: learner,
        proposer: proposal.proposer,
        ..to_proposer
    });
    send(slots, iter::once(to_proposer).chain(to_learners));
    Ok(Outcome::Done)
}

fn drop_message(
    records: &Records,
    slots: &mut [Message],
    event: &Event,
) -> Result<Outcome, Refusal> {
    let slot = occupied_slot(records, slots, event)?;
    slots[slot] = Message::FREE;
    Ok(Outcome::Done)
}

fn duplicate(records: &Records, slots: &mut [Message], event: &Event) -> Result<Outcome, Refusal> {
    let slot = occupied_slot(records, slots, event)?;
    test_free(slots, 1)?;
    let copy = slots[slot];
    send(slots, iter::once(copy));
    Ok(Outcome::Done)
}

fn propose(
    records: &mut Records,
    slots: &mut [Message],
    event: &Event,
) -> Result<Outcome, Refusal> {
    let a = records.sizes.a;
    let index = acting_proposer(records, event)?;
    let proposer = &mut records.proposers[index];
    roles::test_propose(proposer)?;
    test_free(slots, a)?;

    roles::propose(proposer);
    send_proposals(slots, index, proposer, a);
    Ok(Outcome::Done)
}

fn refine(records: &mut Records, slots: &mut [Message], event: &Event) -> Result<Outcome, Refusal> {
    let a = records.sizes.a;
    let index = acting_proposer(records, event)?;
    let proposer = &mut records.proposers[index];
    roles::test_refine(proposer, a as u32)?;
    test_free(slots, a)?;

    roles::refine(proposer);
    send_proposals(slots, index, proposer, a);
    Ok(Outcome::Done)
}

/// Sends the proposer's proposal to every acceptor.
fn send_proposals(slots: &mut [Message], index: usize, proposer: &Proposer, a: u64) {
    send(
        slots,
        (0..a as u32).map(|addressee| Message {
            kind: PROPOSAL,
            addressee,
            proposer: index as u32,
            acceptor: 0,
            number: proposer.number,
            set: proposer.proposed,
        }),
    );
}

fn decide(records: &mut Records, event: &Event) -> Result<Outcome, Refusal> {
    let a = records.sizes.a as u32;
    let index = acting_proposer(records, event)?;
    let proposer = &mut records.proposers[index];
    roles::test_decide(proposer, a)?;

    roles::decide(proposer);
    Ok(Outcome::Decided {
        proposer: event.a,
        set: proposer.decided,
    })
}

fn crash(records: &mut Records, event: &Event) -> Result<Outcome, Refusal> {
    let sizes = records.sizes;
    let alive = match event.a {
        PROPOSER => &mut records.proposers[index_below(event.b, sizes.p)?].alive,
        ACCEPTOR => &mut records.acceptors[index_below(event.b, sizes.a)?].alive,
        LEARNER => &mut records.learners[index_below(event.b, sizes.l)?].alive,
        _ => return Err(OUTSIDE_SIZES),
    };
    test_alive(*alive)?;
    *alive = false;
    Ok(Outcome::Done)
}

#[cfg(test)]
mod tests;
