//! The rules of one proposer, one acceptor and one learner, each on its own
//! record.

use crate::records::{Acceptor, Learner, Proposer, GREATEST_NUMBER};
use crate::refusal::{Refusal, CRASHED, NOT_ENABLED, NUMBER_SPENT};
use crate::sets::{acceptors, scans};

/// Refused 5 where the party has crashed.
#[inline]
pub fn test_alive(alive: bool) -> Result<(), Refusal> {
    if alive {
        Ok(())
    } else {
        Err(CRASHED)
    }
}

/// Refused 6 where the event is not enabled.
fn test_enabled(enabled: bool) -> Result<(), Refusal> {
    if enabled {
        Ok(())
    } else {
        Err(NOT_ENABLED)
    }
}

/// Refused 7 where the proposal number is already 1,000.
fn test_number(number: u32) -> Result<(), Refusal> {
    if number >= GREATEST_NUMBER {
        return Err(NUMBER_SPENT);
    }
    Ok(())
}

/// Whether the acceptor would acknowledge a proposal of the set.
#[inline]
pub fn accepts(acceptor: &Acceptor, set: u64) -> bool {
    scans::contained(acceptor.accepted, set)
}

/// The acceptor takes a proposal of the set: whether it is acknowledged. What
/// is accepted afterwards is the set to send.
#[inline]
pub fn answer(acceptor: &mut Acceptor, set: u64) -> bool {
    let acknowledged = accepts(acceptor, set);
    acceptor.accepted = if acknowledged {
        set
    } else {
        scans::union(acceptor.accepted, set)
    };
    acknowledged
}

/// The learner hears that an acceptor acknowledged a proposer's proposal, of
/// `a` acceptors: whether its learnt set changed.
#[inline]
pub fn hear(
    learner: &mut Learner,
    proposer: usize,
    acceptor: u32,
    number: u32,
    set: u64,
    a: u32,
) -> bool {
    let heard = &mut learner.heard[proposer];
    if number < heard.number {
        return false;
    }
    if number > heard.number {
        heard.number = number;
        heard.set = set;
        heard.acceptors = acceptors::EMPTY;
    }
    heard.acceptors = acceptors::with(heard.acceptors, acceptor);
    let learns = acceptors::is_majority(heard.acceptors, a)
        && scans::strictly_contained(learner.learnt, heard.set);
    if learns {
        learner.learnt = heard.set;
    }
    learns
}

/// The proposer's buffered set gains the set.
#[inline]
pub fn buffer(proposer: &mut Proposer, set: u64) {
    proposer.buffered = scans::union(proposer.buffered, set);
}

/// Whether an answer to this number counts.
fn is_current(proposer: &Proposer, number: u32) -> bool {
    proposer.active && number == proposer.number
}

/// The proposer takes an acknowledgement; a late one does nothing.
#[inline]
pub fn acknowledged(proposer: &mut Proposer, acceptor: u32, number: u32) {
    if is_current(proposer, number) {
        proposer.acknowledged = acceptors::with(proposer.acknowledged, acceptor);
    }
}

/// The proposer takes a rejection and the set that it carries; a late one does
/// nothing.
#[inline]
pub fn rejected(proposer: &mut Proposer, acceptor: u32, number: u32, set: u64) {
    if is_current(proposer, number) {
        proposer.rejected = acceptors::with(proposer.rejected, acceptor);
        proposer.gathered = scans::union(proposer.gathered, set);
    }
}

/// Whether the proposer may propose: refused 5, then 6, then 7.
#[inline]
pub fn test_propose(proposer: &Proposer) -> Result<(), Refusal> {
    test_alive(proposer.alive)?;
    test_enabled(!proposer.active && !scans::is_empty(proposer.buffered))?;
    test_number(proposer.number)
}

/// Proposes what was proposed and what is buffered, under the next number.
#[inline]
pub fn propose(proposer: &mut Proposer) {
    proposer.proposed = scans::union(proposer.proposed, proposer.buffered);
    proposer.buffered = scans::EMPTY;
    proposer.active = true;
    begin_next_number(proposer);
}

/// Whether the proposer may refine, of `a` acceptors: refused 5, then 6, then
/// 7.
#[inline]
pub fn test_refine(proposer: &Proposer, a: u32) -> Result<(), Refusal> {
    test_alive(proposer.alive)?;
    let answered = acceptors::union(proposer.acknowledged, proposer.rejected);
    test_enabled(
        proposer.active
            && !acceptors::is_empty(proposer.rejected)
            && acceptors::is_majority(answered, a),
    )?;
    test_number(proposer.number)
}

/// Proposes what was proposed and what was gathered, under the next number.
#[inline]
pub fn refine(proposer: &mut Proposer) {
    proposer.proposed = scans::union(proposer.proposed, proposer.gathered);
    begin_next_number(proposer);
}

/// The next number, to which no acceptor has answered yet.
fn begin_next_number(proposer: &mut Proposer) {
    proposer.number += 1;
    proposer.gathered = scans::EMPTY;
    proposer.acknowledged = acceptors::EMPTY;
    proposer.rejected = acceptors::EMPTY;
}

/// Whether the proposer may decide, of `a` acceptors: refused 5, then 6.
#[inline]
pub fn test_decide(proposer: &Proposer, a: u32) -> Result<(), Refusal> {
    test_alive(proposer.alive)?;
    test_enabled(proposer.active && acceptors::is_majority(proposer.acknowledged, a))
}

/// Decides what is proposed.
#[inline]
pub fn decide(proposer: &mut Proposer) {
    proposer.decided = proposer.proposed;
    proposer.active = false;
}
