//! Proposers that follow another rule.

use reference::machine::{ACKNOWLEDGEMENT, DECIDE, INTERNAL, PROPOSE, RECEIVE, REFINE, REJECTION};

use super::spoilt::{is_ok, Done};
use crate::machine::drawn::all_acceptors;
use crate::machine::form::{Flag, Message, Proposer};
use crate::machine::lent::Lent;

/// The proposer decides what is proposed.
fn decide(lent: &mut Lent, at: usize, said: &mut [u64]) {
    let proposer = &mut lent.proposers.lent_mut()[at];
    proposer.decided = proposer.proposed;
    proposer.active = Flag::CLEAR;
    said.copy_from_slice(&[512 + at as u64, proposer.decided]);
}

/// A Decide that is not enabled is done where the proposer is so.
fn decides_where(
    done: &Done,
    lent: &mut Lent,
    said: &mut [u64],
    enabled: impl Fn(&Proposer) -> bool,
) {
    if done.code == DECIDE && said[0] == 6 && done.proposer().iter().any(enabled) {
        decide(lent, done.a, said);
    }
}

/// The proposer of an event of the code that was ok, with what it was before.
fn changed<'a>(
    done: &Done,
    lent: &'a mut Lent,
    said: &[u64],
    code: u64,
) -> Option<(&'a mut Proposer, Proposer)> {
    let was = done.proposer()?;
    match done.code == code && is_ok(said) {
        true => Some((&mut lent.proposers.lent_mut()[done.a], was)),
        false => None,
    }
}

/// The event of the code, which is not enabled, is done on a proposer changed
/// so.
fn does_where(
    done: &Done,
    lent: &mut Lent,
    said: &mut [u64],
    code: u64,
    change: impl Fn(&mut Proposer),
) {
    if done.code == code && said[0] == 6 {
        done.redo(lent, said, |lent| {
            change(&mut lent.proposers.lent_mut()[done.a])
        });
    }
}

/// The proposer proposes this set under this number instead.
fn propose_instead(done: &Done, lent: &mut Lent, set: u64, number: u16) {
    let proposer = &mut lent.proposers.lent_mut()[done.a];
    proposer.proposed = set;
    proposer.number = number;
    for at in done.sent(lent) {
        let message = &mut lent.slots.lent_mut()[at];
        message.set = set;
        message.number = number;
    }
}

/// The proposer that a delivered answer of the kind is for, with what it was
/// before; current where the answer counts.
fn answered<'a>(
    done: &Done,
    lent: &'a mut Lent,
    said: &[u64],
    kind: u32,
) -> Option<(Message, &'a mut Proposer, Proposer)> {
    let message = done.delivered(kind)?;
    let at = usize::from(message.addressee);
    let was = done.before.proposers.lent()[at];
    match is_ok(said) {
        true => Some((message, &mut lent.proposers.lent_mut()[at], was)),
        false => None,
    }
}

fn is_current(proposer: &Proposer, message: &Message) -> bool {
    proposer.active.is_set() && proposer.number == message.number
}

faults! {
    /// Decides with half of the acceptors.
    DecidesAtHalf, RUNS, "lossy": |done, lent, said| decides_where(done, lent, said, |was| {
        was.active.is_set() && 2 * was.acknowledged.count_ones() >= done.sizes.acceptors.into()
    });
    /// Decides with one acknowledgement.
    DecidesWithOne, RUNS, "calm": |done, lent, said| decides_where(done, lent, said, |was| {
        was.active.is_set() && was.acknowledged != 0
    });
    /// Decides with a majority of acceptors that answered, one way or the other.
    DecidesByAnswers, RUNS, "contention": |done, lent, said| decides_where(done, lent, said, |was| {
        was.active.is_set() && (was.acknowledged | was.rejected).count_ones() >= done.majority()
    });
    /// Decides while passive.
    DecidesWhilePassive, RUNS, "calm": |done, lent, said| decides_where(done, lent, said, |was| {
        !was.active.is_set() && was.acknowledged.count_ones() >= done.majority()
    });
    /// Needs one acknowledgement more than a majority.
    DecidesAboveMajority, RUNS, "calm": |done, lent, said| {
        let count = done.proposer().map(|was| was.acknowledged.count_ones());
        if done.code == DECIDE && is_ok(said) && count == Some(done.majority()) {
            done.refuse(lent, said, 6);
        }
    };
    /// Decided gains proposed.
    DecidedGains, STEPS, "drawn_records": |done, lent, said| {
        if let Some((proposer, was)) = changed(done, lent, said, DECIDE) {
            proposer.decided |= was.decided;
            said[1] = proposer.decided;
        }
    };
    /// Stays active when it decides.
    DecideStaysActive, RUNS, "calm": |done, lent, said| {
        if let Some((proposer, _)) = changed(done, lent, said, DECIDE) {
            proposer.active = Flag::SET;
        }
    };
    /// Empties gathered when it decides.
    DecideEmptiesGathered, RUNS, "contention": |done, lent, said| {
        if let Some((proposer, _)) = changed(done, lent, said, DECIDE) {
            proposer.gathered = 0;
        }
    };
    /// Empties proposed when it decides.
    DecideEmptiesProposed, RUNS, "calm": |done, lent, said| {
        if let Some((proposer, _)) = changed(done, lent, said, DECIDE) {
            proposer.proposed = 0;
        }
    };
    /// Proposes while active.
    ProposesWhileActive, RUNS, "calm": |done, lent, said| {
        does_where(done, lent, said, PROPOSE, |was| was.active = Flag::CLEAR);
    };
    /// Proposes again what it proposed, with nothing buffered.
    ProposesNothingNew, RUNS, "calm": |done, lent, said| {
        does_where(done, lent, said, PROPOSE, |was| was.buffered |= was.proposed);
    };
    /// Keeps buffered when it proposes.
    ProposeKeepsBuffered, RUNS, "calm": |done, lent, said| {
        if let Some((proposer, was)) = changed(done, lent, said, PROPOSE) {
            proposer.buffered = was.buffered;
        }
    };
    /// Keeps gathered when it proposes.
    ProposeKeepsGathered, RUNS, "contention": |done, lent, said| {
        if let Some((proposer, was)) = changed(done, lent, said, PROPOSE) {
            proposer.gathered = was.gathered;
        }
    };
    /// Keeps the acceptors that rejected when it proposes.
    ProposeKeepsRejected, RUNS, "contention": |done, lent, said| {
        if let Some((proposer, was)) = changed(done, lent, said, PROPOSE) {
            proposer.rejected = was.rejected;
        }
    };
    /// Proposes decided and buffered; in a run from fresh that is proposed and
    /// buffered.
    ProposesDecided, STEPS, "drawn_records": |done, lent, said| {
        if let Some((proposer, was)) = changed(done, lent, said, PROPOSE) {
            let number = proposer.number;
            propose_instead(done, lent, was.decided | was.buffered, number);
        }
    };
    /// Skips a proposal number.
    SkipsANumber, RUNS, "calm": |done, lent, said| {
        if let Some((proposer, _)) = changed(done, lent, said, PROPOSE) {
            let (set, number) = (proposer.proposed, proposer.number);
            propose_instead(done, lent, set, (number + 1).min(1_000));
        }
    };
    /// Goes on past 1,000.
    GoesOnPastTheGreatest, STEPS, "numbers_about_1000": |done, lent, said| if said[0] == 7 {
        let number = done.proposer().map_or(0, |was| was.number);
        done.redo(lent, said, |lent| lent.proposers.lent_mut()[done.a].number = 999);
        if is_ok(said) {
            let set = lent.proposers.lent()[done.a].proposed;
            propose_instead(done, lent, set, number + 1);
        }
    };
    /// Refines under the same number.
    RefinesUnderTheSameNumber, RUNS, "contention": |done, lent, said| {
        if let Some((proposer, was)) = changed(done, lent, said, REFINE) {
            let set = proposer.proposed;
            propose_instead(done, lent, set, was.number);
        }
    };
    /// Refines to gathered alone; in a run from fresh gathered has proposed.
    RefinesToGathered, STEPS, "drawn_records": |done, lent, said| {
        if let Some((proposer, was)) = changed(done, lent, said, REFINE) {
            let number = proposer.number;
            propose_instead(done, lent, was.gathered, number);
        }
    };
    /// Adds buffered when it refines.
    RefineAddsBuffered, RUNS, "contention": |done, lent, said| {
        if let Some((proposer, was)) = changed(done, lent, said, REFINE) {
            let (set, number) = (proposer.proposed | was.buffered, proposer.number);
            propose_instead(done, lent, set, number);
        }
    };
    /// Keeps the acceptors that acknowledged when it refines.
    RefineKeepsAcknowledged, RUNS, "contention": |done, lent, said| {
        if let Some((proposer, was)) = changed(done, lent, said, REFINE) {
            proposer.acknowledged = was.acknowledged;
        }
    };
    /// Keeps the acceptors that rejected when it refines.
    RefineKeepsRejected, RUNS, "contention": |done, lent, said| {
        if let Some((proposer, was)) = changed(done, lent, said, REFINE) {
            proposer.rejected = was.rejected;
        }
    };
    /// Refines although no acceptor rejected.
    RefinesWithoutRejection, RUNS, "calm": |done, lent, said| {
        does_where(done, lent, said, REFINE, |was| was.rejected |= was.acknowledged);
    };
    /// Refines while passive.
    RefinesWhilePassive, RUNS, "contention": |done, lent, said| {
        does_where(done, lent, said, REFINE, |was| was.active = Flag::from(was.number != 0));
    };
    /// Counts an acceptor twice that answered both ways.
    RefineCountsTwice, RUNS, "lossy": |done, lent, said| {
        let count = |was: Proposer| was.acknowledged.count_ones() + was.rejected.count_ones();
        if done.proposer().map(count) >= Some(done.majority()) {
            let all = all_acceptors(&done.sizes);
            does_where(done, lent, said, REFINE, |was| was.acknowledged = all);
        }
    };
    /// Refines with a majority of rejections alone.
    RefineCountsRejections, RUNS, "contention": |done, lent, said| {
        let rejected = done.proposer().map(|was| was.rejected.count_ones());
        if done.code == REFINE && is_ok(said) && rejected < Some(done.majority()) {
            done.refuse(lent, said, 6);
        }
    };
    /// A rejection brings nothing to gather.
    GathersNothing, RUNS, "contention": |done, lent, said| {
        if let Some((_, proposer, was)) = answered(done, lent, said, REJECTION) {
            proposer.gathered = was.gathered;
        }
    };
    /// A rejection replaces what was gathered.
    GatheredIsReplaced, RUNS, "contention": |done, lent, said| {
        if let Some((message, proposer, was)) = answered(done, lent, said, REJECTION) {
            if is_current(&was, &message) {
                proposer.gathered = message.set;
            }
        }
    };
    /// A rejecting acceptor counts as an acknowledging one too.
    RejectionAcknowledges, RUNS, "contention": |done, lent, said| {
        if let Some((message, proposer, was)) = answered(done, lent, said, REJECTION) {
            if is_current(&was, &message) {
                proposer.acknowledged |= 1 << message.acceptor;
            }
        }
    };
    /// A late rejection is gathered.
    GathersLateRejections, RUNS, "lossy": |done, lent, said| {
        if let Some((message, proposer, _)) = answered(done, lent, said, REJECTION) {
            proposer.gathered |= message.set;
        }
    };
    /// Counts an acknowledgement for a passive proposer.
    CountsAcknowledgementsWhilePassive, RUNS, "calm": |done, lent, said| {
        if let Some((message, proposer, _)) = answered(done, lent, said, ACKNOWLEDGEMENT) {
            if proposer.number == message.number {
                proposer.acknowledged |= 1 << message.acceptor;
            }
        }
    };
    /// A late acknowledgement stays in its slot.
    KeepsLateAnswers, RUNS, "lossy": |done, lent, said| {
        if let Some((message, _, was)) = answered(done, lent, said, ACKNOWLEDGEMENT) {
            if !is_current(&was, &message) {
                lent.slots.lent_mut()[done.a] = message;
            }
        }
    };
    /// What another proposer was told is proposed at once.
    InternalIsProposed, RUNS, "calm": |done, lent, said| {
        if let Some((message, proposer, _)) = answered(done, lent, said, INTERNAL) {
            proposer.proposed |= message.set;
        }
    };
    /// An active proposer does not buffer what it is told.
    BuffersOnlyWhilePassive, RUNS, "calm": |done, lent, said| {
        if let Some((_, proposer, was)) = answered(done, lent, said, INTERNAL) {
            if was.active.is_set() {
                proposer.buffered = was.buffered;
            }
        }
    };
    /// Tells a scan and does not buffer it.
    ReceiveBuffersNothing, RUNS, "calm": |done, lent, said| {
        if let Some((proposer, was)) = changed(done, lent, said, RECEIVE) {
            proposer.buffered = was.buffered;
        }
    };
    /// What is received replaces what is buffered.
    ReceiveReplacesBuffered, RUNS, "calm": |done, lent, said| {
        if let Some((proposer, _)) = changed(done, lent, said, RECEIVE) {
            proposer.buffered = 1 << done.b;
        }
    };
    /// What another proposer was told replaces what is buffered.
    InternalReplacesBuffered, RUNS, "calm": |done, lent, said| {
        if let Some((message, proposer, _)) = answered(done, lent, said, INTERNAL) {
            proposer.buffered = message.set;
        }
    };
    /// Counts no acknowledgement.
    CountsNoAcknowledgement, RUNS, "calm": |done, lent, said| {
        if let Some((_, proposer, was)) = answered(done, lent, said, ACKNOWLEDGEMENT) {
            proposer.acknowledged = was.acknowledged;
        }
    };
    /// Counts no rejection.
    CountsNoRejection, RUNS, "contention": |done, lent, said| {
        if let Some((_, proposer, was)) = answered(done, lent, said, REJECTION) {
            proposer.rejected = was.rejected;
        }
    };
    /// Gathers what acknowledgements carry.
    GathersAcknowledgements, RUNS, "calm": |done, lent, said| {
        if let Some((message, proposer, was)) = answered(done, lent, said, ACKNOWLEDGEMENT) {
            if is_current(&was, &message) {
                proposer.gathered |= message.set;
            }
        }
    };
    /// Stays passive when it proposes.
    ProposeStaysPassive, RUNS, "calm": |done, lent, said| {
        if let Some((proposer, _)) = changed(done, lent, said, PROPOSE) {
            proposer.active = Flag::CLEAR;
        }
    };
    /// Empties decided when it proposes.
    ProposeEmptiesDecided, RUNS, "calm": |done, lent, said| {
        if let Some((proposer, _)) = changed(done, lent, said, PROPOSE) {
            proposer.decided = 0;
        }
    };
    /// Proposes under the same number from the second proposal on.
    ProposesUnderTheSameNumber, RUNS, "calm": |done, lent, said| {
        if let Some((proposer, was)) = changed(done, lent, said, PROPOSE) {
            let set = proposer.proposed;
            propose_instead(done, lent, set, was.number.max(1));
        }
    };
    /// Refines to what it proposed.
    RefinesToProposed, RUNS, "contention": |done, lent, said| {
        if let Some((proposer, was)) = changed(done, lent, said, REFINE) {
            let number = proposer.number;
            propose_instead(done, lent, was.proposed, number);
        }
    };
    /// Is passive once it refines.
    RefineMakesPassive, RUNS, "contention": |done, lent, said| {
        if let Some((proposer, _)) = changed(done, lent, said, REFINE) {
            proposer.active = Flag::CLEAR;
        }
    };
    /// Refines with half of the acceptors.
    RefinesAtHalf, RUNS, "contention": |done, lent, said| {
        let count = |was: Proposer| (was.acknowledged | was.rejected).count_ones();
        let is_half = |count: u32| 2 * count == done.sizes.acceptors.into();
        if done.proposer().map(count).map_or(false, is_half) {
            let all = all_acceptors(&done.sizes);
            does_where(done, lent, said, REFINE, |was| was.acknowledged = all);
        }
    };
    /// Refines with one rejection.
    RefinesWithOneRejection, RUNS, "contention": |done, lent, said| {
        let all = all_acceptors(&done.sizes);
        does_where(done, lent, said, REFINE, |was| was.acknowledged = all);
    };
    /// Needs one answer more than a majority to refine.
    RefinesAboveMajority, RUNS, "contention": |done, lent, said| {
        let count = |was: Proposer| (was.acknowledged | was.rejected).count_ones();
        let is_majority = done.proposer().map(count) == Some(done.majority());
        if done.code == REFINE && is_ok(said) && is_majority {
            done.refuse(lent, said, 6);
        }
    };
    /// Empties buffered when it decides.
    DecideEmptiesBuffered, RUNS, "calm": |done, lent, said| {
        if let Some((proposer, _)) = changed(done, lent, said, DECIDE) {
            proposer.buffered = 0;
        }
    };
}
