//! Machines that crash a party otherwise, or let a crashed one act.

use reference::machine::{
    ACCEPTOR, ACKNOWLEDGEMENT, ACKNOWLEDGEMENT_TO_LEARNER, CRASH, DECIDE, LEARNER, PROPOSAL,
    PROPOSE, PROPOSER, RECEIVE, REFINE, REJECTION,
};

use super::spoilt::{is_ok, Done};
use crate::machine::form::{Flag, Message};
use crate::machine::lent::Lent;

/// The number of the party of the role that the event crashes.
fn crashed(done: &Done, said: &[u64], role: u64) -> Option<usize> {
    let is_it = done.code == CRASH && done.a as u64 == role && is_ok(said);
    is_it.then_some(done.b)
}

/// The event is done although the party has crashed, which it stays.
fn do_though_crashed(
    done: &Done,
    lent: &mut Lent,
    said: &mut [u64],
    alive: impl Fn(&mut Lent) -> &mut Flag,
) {
    if said[0] != 5 {
        return;
    }
    done.redo(lent, said, |lent| *alive(lent) = Flag::SET);
    if is_ok(said) {
        *alive(lent) = Flag::CLEAR;
    }
}

/// An event of the code is done although the proposer has crashed.
fn acts_though_crashed(done: &Done, lent: &mut Lent, said: &mut [u64], code: u64) {
    if done.code == code {
        do_though_crashed(done, lent, said, |lent| {
            &mut lent.proposers.lent_mut()[done.a].alive
        });
    }
}

/// An answer of the kind is delivered although the proposer has crashed.
fn hears_though_crashed(done: &Done, lent: &mut Lent, said: &mut [u64], kind: u32) {
    if let Some(message) = done.delivered(kind) {
        let at = usize::from(message.addressee);
        do_though_crashed(done, lent, said, |lent| {
            &mut lent.proposers.lent_mut()[at].alive
        });
    }
}

faults! {
    /// A party that crashes stays alive.
    CrashesNothing, RUNS, "crashes": |done, lent, _said| if done.code == CRASH {
        *lent = done.before.clone();
    };
    /// A crash makes a proposer passive.
    CrashMakesPassive, RUNS, "crashes": |done, lent, said| {
        if let Some(at) = crashed(done, said, PROPOSER) {
            lent.proposers.lent_mut()[at].active = Flag::CLEAR;
        }
    };
    /// A crash empties a proposer's buffered set.
    CrashEmptiesBuffered, RUNS, "crashes": |done, lent, said| {
        if let Some(at) = crashed(done, said, PROPOSER) {
            lent.proposers.lent_mut()[at].buffered = 0;
        }
    };
    /// A crash empties what an acceptor has accepted.
    CrashEmptiesAccepted, RUNS, "crashes": |done, lent, said| {
        if let Some(at) = crashed(done, said, ACCEPTOR) {
            lent.acceptors.lent_mut()[at].accepted = 0;
        }
    };
    /// A crash empties what a learner has learnt.
    CrashEmptiesLearnt, RUNS, "crashes": |done, lent, said| {
        if let Some(at) = crashed(done, said, LEARNER) {
            lent.learners.lent_mut()[at].learnt = 0;
        }
    };
    /// A crash of an acceptor hits the proposer of that number.
    CrashesAnotherRole, RUNS, "crashes": |done, lent, said| {
        let acceptor = crashed(done, said, ACCEPTOR);
        if let Some(at) = acceptor.filter(|at| *at < lent.proposers.lent().len()) {
            *lent = done.before.clone();
            lent.proposers.lent_mut()[at].alive = Flag::CLEAR;
        }
    };
    /// A crash of an acceptor loses the proposals to it.
    CrashLosesProposals, RUNS, "crashes": |done, lent, said| {
        if let Some(at) = crashed(done, said, ACCEPTOR) {
            for slot in lent.slots.lent_mut() {
                if u32::from(slot.kind) == PROPOSAL && usize::from(slot.addressee) == at {
                    *slot = Message::FREE;
                }
            }
        }
    };
    /// A party crashes as often as it is asked to.
    CrashesAgain, RUNS, "crashes": |done, _lent, said| if done.code == CRASH && said[0] == 5 {
        said.fill(0);
    };
    /// Role 0 is ok to crash.
    TakesRoleZero, STEPS, "arguments": |done, _lent, said| if done.code == CRASH && done.a == 0 {
        said.fill(0);
    };
    /// A proposer that has crashed receives.
    CrashedReceives, RUNS, "crashes": |done, lent, said| {
        acts_though_crashed(done, lent, said, RECEIVE);
    };
    /// A proposer that has crashed proposes.
    CrashedProposes, RUNS, "crashes": |done, lent, said| {
        acts_though_crashed(done, lent, said, PROPOSE);
    };
    /// A proposer that has crashed refines.
    CrashedRefines, RUNS, "crashes": |done, lent, said| {
        acts_though_crashed(done, lent, said, REFINE);
    };
    /// A proposer that has crashed decides.
    CrashedDecides, RUNS, "crashes": |done, lent, said| {
        acts_though_crashed(done, lent, said, DECIDE);
    };
    /// A proposer that has crashed hears acknowledgements.
    CrashedHearsAcknowledgements, RUNS, "crashes": |done, lent, said| {
        hears_though_crashed(done, lent, said, ACKNOWLEDGEMENT);
    };
    /// A proposer that has crashed hears rejections.
    CrashedHearsRejections, RUNS, "crashes": |done, lent, said| {
        hears_though_crashed(done, lent, said, REJECTION);
    };
    /// An acceptor that has crashed answers.
    CrashedAnswers, RUNS, "crashes": |done, lent, said| {
        if let Some(proposal) = done.delivered(PROPOSAL) {
            let at = usize::from(proposal.addressee);
            do_though_crashed(done, lent, said, |lent| &mut lent.acceptors.lent_mut()[at].alive);
        }
    };
    /// A learner that has crashed learns.
    CrashedLearns, RUNS, "crashes": |done, lent, said| {
        if let Some(message) = done.delivered(ACKNOWLEDGEMENT_TO_LEARNER) {
            let at = usize::from(message.addressee);
            do_though_crashed(done, lent, said, |lent| &mut lent.learners.lent_mut()[at].alive);
        }
    };
}
