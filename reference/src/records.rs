//! The records of a proposer, an acceptor and a learner and the messages
//! between them, and the ranges of their fields.

use crate::schedule::{Sizes, GREATEST_A, GREATEST_L, GREATEST_P};
use crate::sets::{acceptors, scans};

/// The greatest proposal number.
pub const GREATEST_NUMBER: u32 = 1_000;

/// The message kinds.
pub const FREE: u32 = 0;
pub const INTERNAL: u32 = 1;
pub const PROPOSAL: u32 = 2;
pub const ACKNOWLEDGEMENT: u32 = 3;
pub const REJECTION: u32 = 4;
pub const ACKNOWLEDGEMENT_TO_LEARNER: u32 = 5;

/// A proposer's record. It is passive where it is not active.
#[derive(Clone, Copy, Debug, Default, PartialEq, Eq)]
pub struct Proposer {
    pub alive: bool,
    pub active: bool,
    pub buffered: u64,
    pub proposed: u64,
    pub gathered: u64,
    pub number: u32,
    /// The acceptors that acknowledged.
    pub acknowledged: u32,
    /// The acceptors that rejected.
    pub rejected: u32,
    pub decided: u64,
}

/// An acceptor's record.
#[derive(Clone, Copy, Debug, Default, PartialEq, Eq)]
pub struct Acceptor {
    pub alive: bool,
    pub accepted: u64,
}

/// What a learner holds for one proposer: the newest number heard, its set and
/// its acceptors.
#[derive(Clone, Copy, Debug, Default, PartialEq, Eq)]
pub struct Heard {
    pub number: u32,
    pub set: u64,
    pub acceptors: u32,
}

/// A learner's record.
#[derive(Clone, Copy, Debug, Default, PartialEq, Eq)]
pub struct Learner {
    pub alive: bool,
    pub learnt: u64,
    /// One place for each proposer.
    pub heard: [Heard; GREATEST_P as usize],
}

/// A slot of the table of messages in flight.
#[derive(Clone, Copy, Debug, Default, PartialEq, Eq)]
pub struct Message {
    pub kind: u32,
    pub addressee: u32,
    pub proposer: u32,
    pub acceptor: u32,
    pub number: u32,
    pub set: u64,
}

impl Message {
    /// A free slot.
    pub const FREE: Message = Message {
        kind: FREE,
        addressee: 0,
        proposer: 0,
        acceptor: 0,
        number: 0,
        set: scans::EMPTY,
    };
}

/// The sizes of a run and the records of its parties. Places past P, A and L
/// are no records.
#[derive(Clone, Copy, Debug, PartialEq, Eq)]
pub struct Records {
    pub sizes: Sizes,
    pub proposers: [Proposer; GREATEST_P as usize],
    pub acceptors: [Acceptor; GREATEST_A as usize],
    pub learners: [Learner; GREATEST_L as usize],
}

// The ranges.

pub(crate) fn proposer_within(sizes: &Sizes, proposer: &Proposer) -> bool {
    scans::fits(proposer.buffered, sizes.s)
        && scans::fits(proposer.proposed, sizes.s)
        && scans::fits(proposer.gathered, sizes.s)
        && scans::fits(proposer.decided, sizes.s)
        && acceptors::fits(proposer.acknowledged, sizes.a as u32)
        && acceptors::fits(proposer.rejected, sizes.a as u32)
        && proposer.number <= GREATEST_NUMBER
        && (!proposer.active || proposer.number >= 1)
}

pub(crate) fn acceptor_within(sizes: &Sizes, acceptor: &Acceptor) -> bool {
    scans::fits(acceptor.accepted, sizes.s)
}

pub(crate) fn learner_within(sizes: &Sizes, learner: &Learner) -> bool {
    scans::fits(learner.learnt, sizes.s)
        && learner.heard[..sizes.p as usize].iter().all(|heard| {
            heard.number <= GREATEST_NUMBER
                && scans::fits(heard.set, sizes.s)
                && acceptors::fits(heard.acceptors, sizes.a as u32)
        })
}

pub(crate) fn message_within(sizes: &Sizes, message: &Message) -> bool {
    let is_proposer = |number: u32| u64::from(number) < sizes.p;
    let is_acceptor = |number: u32| u64::from(number) < sizes.a;
    let is_learner = |number: u32| u64::from(number) < sizes.l;
    let numbered = (1..=GREATEST_NUMBER).contains(&message.number);
    let set_fits = scans::fits(message.set, sizes.s);
    match message.kind {
        FREE => *message == Message::FREE,
        INTERNAL => {
            is_proposer(message.addressee)
                && message.proposer == 0
                && message.acceptor == 0
                && message.number == 0
                && set_fits
        }
        PROPOSAL => {
            is_acceptor(message.addressee)
                && is_proposer(message.proposer)
                && message.acceptor == 0
                && numbered
                && set_fits
        }
        ACKNOWLEDGEMENT | REJECTION => {
            is_proposer(message.addressee)
                && message.proposer == 0
                && is_acceptor(message.acceptor)
                && numbered
                && set_fits
        }
        ACKNOWLEDGEMENT_TO_LEARNER => {
            is_learner(message.addressee)
                && is_proposer(message.proposer)
                && is_acceptor(message.acceptor)
                && numbered
                && set_fits
        }
        _ => false,
    }
}
