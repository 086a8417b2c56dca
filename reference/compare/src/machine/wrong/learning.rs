//! Learners that follow another rule.

use reference::machine::ACKNOWLEDGEMENT_TO_LEARNER;

use super::spoilt::{is_ok, Done};
use crate::machine::form::{Heard, Learner, Message};
use crate::machine::lent::Lent;

/// What a learner heard: the message, the learner before, and what it held for
/// the proposer before.
struct Hearing {
    message: Message,
    was: Learner,
    held: Heard,
}

impl Hearing {
    /// The acknowledgement to a learner that was delivered.
    fn of(done: &Done, said: &[u64]) -> Option<Hearing> {
        let message = done.delivered(ACKNOWLEDGEMENT_TO_LEARNER)?;
        let was = done.learner(message.addressee);
        let held = was.heard[usize::from(message.proposer)];
        is_ok(said).then_some(Hearing { message, was, held })
    }

    fn learner<'a>(&self, lent: &'a mut Lent) -> &'a mut Learner {
        &mut lent.learners.lent_mut()[usize::from(self.message.addressee)]
    }

    /// What the learner holds for the proposer.
    fn heard<'a>(&self, lent: &'a mut Lent) -> &'a mut Heard {
        &mut self.learner(lent).heard[usize::from(self.message.proposer)]
    }

    fn is_lower(&self) -> bool {
        self.message.number < self.held.number
    }

    fn is_equal(&self) -> bool {
        self.message.number == self.held.number
    }

    fn is_higher(&self) -> bool {
        self.message.number > self.held.number
    }

    /// The learner learns the set.
    fn learn(&self, lent: &mut Lent, said: &mut [u64], set: u64) {
        self.learner(lent).learnt = set;
        said.copy_from_slice(&[256 + u64::from(self.message.addressee), set]);
    }

    /// The learner learns nothing.
    fn learn_nothing(&self, lent: &mut Lent, said: &mut [u64]) {
        self.learner(lent).learnt = self.was.learnt;
        said.fill(0);
    }

    /// Learns the set held where it is more than what was learnt and enough
    /// acceptors say so.
    fn learn_with(&self, lent: &mut Lent, said: &mut [u64], enough: impl Fn(u32) -> bool) {
        let heard = *self.heard(lent);
        let is_more = self.was.learnt & !heard.set == 0 && self.was.learnt != heard.set;
        if is_more && enough(heard.acceptors.count_ones()) {
            self.learn(lent, said, heard.set);
        }
    }
}

faults! {
    /// Learns what one acceptor acknowledged.
    LearnsAtOnce, RUNS, "calm": |done, lent, said| if let Some(hearing) = Hearing::of(done, said) {
        if !hearing.is_lower() {
            hearing.learn_with(lent, said, |_| true);
        }
    };
    /// Learns with half of the acceptors.
    LearnsAtHalf, RUNS, "lossy": |done, lent, said| if let Some(hearing) = Hearing::of(done, said) {
        if !hearing.is_lower() {
            hearing.learn_with(lent, said, |count| 2 * count >= done.sizes.acceptors.into());
        }
    };
    /// Learns with one acceptor more than a majority.
    LearnsAboveMajority, RUNS, "calm": |done, lent, said| if let Some(hearing) = Hearing::of(done, said) {
        if said[0] >= 256 && hearing.heard(lent).acceptors.count_ones() == done.majority() {
            hearing.learn_nothing(lent, said);
        }
    };
    /// Learns at the very acknowledgement that makes the majority, and not later.
    LearnsOnlyAtTheMajority, STEPS, "drawn_records": |done, lent, said| {
        if let Some(hearing) = Hearing::of(done, said) {
            if said[0] >= 256 && hearing.heard(lent).acceptors.count_ones() != done.majority() {
                hearing.learn_nothing(lent, said);
            }
        }
    };
    /// Learns a set that does not have what was learnt.
    LearnsSmallerSets, RUNS, "lossy": |done, lent, said| if let Some(hearing) = Hearing::of(done, said) {
        let heard = *hearing.heard(lent);
        let is_majority = heard.acceptors.count_ones() >= done.majority();
        if !hearing.is_lower() && is_majority && heard.set != hearing.was.learnt {
            hearing.learn(lent, said, heard.set);
        }
    };
    /// Learnt gains the set; in a run from fresh one of the two has the other.
    LearntGains, STEPS, "drawn_records": |done, lent, said| if let Some(hearing) = Hearing::of(done, said) {
        let heard = *hearing.heard(lent);
        let is_majority = heard.acceptors.count_ones() >= done.majority();
        if !hearing.is_lower() && is_majority && heard.set & !hearing.was.learnt != 0 {
            hearing.learn(lent, said, heard.set | hearing.was.learnt);
        }
    };
    /// Learns at a lower number what it holds.
    LearnsAtLowerNumbers, STEPS, "drawn_records": |done, lent, said| {
        if let Some(hearing) = Hearing::of(done, said) {
            if hearing.is_lower() {
                hearing.learn_with(lent, said, |count| count >= done.majority());
            }
        }
    };
    /// Keeps the set of the lower number.
    HigherKeepsSet, RUNS, "lossy": |done, lent, said| if let Some(hearing) = Hearing::of(done, said) {
        if hearing.is_higher() && said[0] == 0 {
            hearing.heard(lent).set = hearing.held.set;
        }
    };
    /// Keeps the lower number.
    HigherKeepsNumber, RUNS, "calm": |done, lent, said| if let Some(hearing) = Hearing::of(done, said) {
        if hearing.is_higher() {
            hearing.heard(lent).number = hearing.held.number;
        }
    };
    /// An equal number replaces the set; in a run from fresh it is the same.
    EqualReplacesSet, STEPS, "drawn_records": |done, lent, said| if let Some(hearing) = Hearing::of(done, said) {
        if hearing.is_equal() && said[0] == 0 {
            hearing.heard(lent).set = hearing.message.set;
        }
    };
    /// An equal number replaces the acceptors.
    EqualReplacesAcceptors, RUNS, "calm": |done, lent, said| if let Some(hearing) = Hearing::of(done, said) {
        if hearing.is_equal() {
            hearing.heard(lent).acceptors = 1 << hearing.message.acceptor;
        }
    };
    /// An equal number adds no acceptor.
    EqualAddsNothing, RUNS, "calm": |done, lent, said| if let Some(hearing) = Hearing::of(done, said) {
        if hearing.is_equal() {
            hearing.learn_nothing(lent, said);
            *hearing.heard(lent) = hearing.held;
        }
    };
    /// Holds what it hears of any proposer for proposer 0.
    HearsOfProposerZero, RUNS, "contention": |done, lent, said| {
        if let Some(hearing) = Hearing::of(done, said) {
            let heard = *hearing.heard(lent);
            *hearing.heard(lent) = hearing.held;
            hearing.learner(lent).heard[0] = heard;
        }
    };
    /// Every learner learns what one learns.
    EveryLearnerLearns, RUNS, "calm": |_done, lent, said| if (256..512).contains(&said[0]) {
        for learner in lent.learners.lent_mut() {
            learner.learnt = said[1];
        }
    };
    /// Forgets what it held once it has learnt.
    ForgetsOnceLearnt, RUNS, "calm": |done, lent, said| if let Some(hearing) = Hearing::of(done, said) {
        if said[0] >= 256 {
            hearing.heard(lent).acceptors = 0;
        }
    };
    /// A lower number adds the acceptor.
    LowerAddsAcceptor, RUNS, "lossy": |done, lent, said| if let Some(hearing) = Hearing::of(done, said) {
        if hearing.is_lower() {
            hearing.heard(lent).acceptors |= 1 << hearing.message.acceptor;
        }
    };
    /// Counts the acceptors heard of all proposers together.
    CountsAcceptorsOfAllProposers, RUNS, "contention": |done, lent, said| {
        if let Some(hearing) = Hearing::of(done, said) {
            let heard = hearing.learner(lent).heard[..done.sizes.proposers.into()].iter();
            let acceptors = heard.fold(0, |all, heard| all | heard.acceptors);
            if !hearing.is_lower() && acceptors.count_ones() >= done.majority() {
                hearing.learn_with(lent, said, |_| true);
            }
        }
    };
}
