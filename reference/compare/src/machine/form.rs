//! The records as the proved calls take them, field for field as the crate
//! `model` declares them, and the way from and to the second program's.
//!
//! A set is the word or the byte of its bits.

use reference::machine;
use reference::schedule;
use reference::schedule::GREATEST_P;

/// How many proposers, acceptors, learners, message slots and scans a run has.
#[repr(C)]
#[derive(Clone, Copy, Debug, Default, PartialEq, Eq)]
pub struct Sizes {
    pub proposers: u16,
    pub acceptors: u16,
    pub learners: u16,
    pub slots: u16,
    pub scans: u16,
}

/// A flag: a byte that is given as 0 or 1. What a call leaves in it is compared
/// as a byte.
#[repr(transparent)]
#[derive(Clone, Copy, Debug, Default, PartialEq, Eq)]
pub struct Flag(u8);

impl Flag {
    pub const CLEAR: Flag = Flag(0);
    pub const SET: Flag = Flag(1);

    pub fn is_set(self) -> bool {
        self != Flag::CLEAR
    }
}

impl From<bool> for Flag {
    #[inline]
    fn from(set: bool) -> Flag {
        Flag(set.into())
    }
}

#[repr(C)]
#[derive(Clone, Copy, Debug, Default, PartialEq, Eq)]
pub struct Proposer {
    pub alive: Flag,
    pub active: Flag,
    pub buffered: u64,
    pub proposed: u64,
    pub gathered: u64,
    pub number: u16,
    pub acknowledged: u8,
    pub rejected: u8,
    pub decided: u64,
}

#[repr(C)]
#[derive(Clone, Copy, Debug, Default, PartialEq, Eq)]
pub struct Acceptor {
    pub alive: Flag,
    pub accepted: u64,
}

#[repr(C)]
#[derive(Clone, Copy, Debug, Default, PartialEq, Eq)]
pub struct Heard {
    pub number: u16,
    pub set: u64,
    pub acceptors: u8,
}

#[repr(C)]
#[derive(Clone, Copy, Debug, Default, PartialEq, Eq)]
pub struct Learner {
    pub alive: Flag,
    pub learnt: u64,
    pub heard: [Heard; GREATEST_P as usize],
}

#[repr(C)]
#[derive(Clone, Copy, Debug, Default, PartialEq, Eq)]
pub struct Message {
    pub kind: u8,
    pub addressee: u8,
    pub proposer: u8,
    pub acceptor: u8,
    pub number: u16,
    pub set: u64,
}

#[repr(C)]
#[derive(Clone, Copy, Debug, Default, PartialEq, Eq)]
pub struct Event {
    pub code: u64,
    pub a: u64,
    pub b: u64,
}

/// What a single step says: the two numbers that a log has for its event.
#[repr(C)]
#[derive(Clone, Copy, Debug, Default, PartialEq, Eq)]
pub struct Said {
    pub no: u64,
    pub set: u64,
}

impl Proposer {
    /// A fresh run's: alive, passive, sets empty, number 0.
    pub const FRESH: Proposer = Proposer {
        alive: Flag::SET,
        active: Flag::CLEAR,
        buffered: 0,
        proposed: 0,
        gathered: 0,
        number: 0,
        acknowledged: 0,
        rejected: 0,
        decided: 0,
    };
}

impl Acceptor {
    /// A fresh run's: alive, the set empty.
    pub const FRESH: Acceptor = Acceptor {
        alive: Flag::SET,
        accepted: 0,
    };
}

impl Heard {
    /// A fresh run's: number 0, the sets empty.
    const FRESH: Heard = Heard {
        number: 0,
        set: 0,
        acceptors: 0,
    };
}

impl Learner {
    /// A fresh run's: alive, the set empty, nothing heard.
    pub const FRESH: Learner = Learner {
        alive: Flag::SET,
        learnt: 0,
        heard: [Heard::FRESH; GREATEST_P as usize],
    };
}

impl Message {
    /// A free slot.
    pub const FREE: Message = Message {
        kind: 0,
        addressee: 0,
        proposer: 0,
        acceptor: 0,
        number: 0,
        set: 0,
    };
}

/// A record that both programs have.
pub trait Record: Copy + std::fmt::Debug + Default + PartialEq {
    /// The second program's record.
    type Second;

    /// The second program's record, whose fields are as narrow as this one's.
    fn of(second: &Self::Second) -> Self;

    fn second(&self) -> Self::Second;
}

/// The field of a second program's record, which is wider than the calls'.
fn narrow<T: TryFrom<u32>>(value: u32) -> T {
    match T::try_from(value) {
        Ok(value) => value,
        Err(_) => panic!("{value} is too wide for the calls' field"),
    }
}

impl Sizes {
    /// The second program's sizes; a size too wide for the calls is a size out
    /// of its range, and is given as the widest.
    pub fn of(sizes: &schedule::Sizes) -> Sizes {
        let narrow = |size: u64| u16::try_from(size).unwrap_or(u16::MAX);
        Sizes {
            proposers: narrow(sizes.p),
            acceptors: narrow(sizes.a),
            learners: narrow(sizes.l),
            slots: narrow(sizes.m),
            scans: narrow(sizes.s),
        }
    }

    pub fn second(&self) -> schedule::Sizes {
        schedule::Sizes {
            p: self.proposers.into(),
            a: self.acceptors.into(),
            l: self.learners.into(),
            m: self.slots.into(),
            s: self.scans.into(),
        }
    }
}

impl Record for Proposer {
    type Second = machine::Proposer;

    #[inline]
    fn of(second: &machine::Proposer) -> Proposer {
        Proposer {
            alive: second.alive.into(),
            active: second.active.into(),
            buffered: second.buffered,
            proposed: second.proposed,
            gathered: second.gathered,
            number: narrow(second.number),
            acknowledged: narrow(second.acknowledged),
            rejected: narrow(second.rejected),
            decided: second.decided,
        }
    }

    fn second(&self) -> machine::Proposer {
        machine::Proposer {
            alive: self.alive.is_set(),
            active: self.active.is_set(),
            buffered: self.buffered,
            proposed: self.proposed,
            gathered: self.gathered,
            number: self.number.into(),
            acknowledged: self.acknowledged.into(),
            rejected: self.rejected.into(),
            decided: self.decided,
        }
    }
}

impl Record for Acceptor {
    type Second = machine::Acceptor;

    #[inline]
    fn of(second: &machine::Acceptor) -> Acceptor {
        Acceptor {
            alive: second.alive.into(),
            accepted: second.accepted,
        }
    }

    fn second(&self) -> machine::Acceptor {
        machine::Acceptor {
            alive: self.alive.is_set(),
            accepted: self.accepted,
        }
    }
}

impl Record for Heard {
    type Second = machine::Heard;

    #[inline]
    fn of(second: &machine::Heard) -> Heard {
        Heard {
            number: narrow(second.number),
            set: second.set,
            acceptors: narrow(second.acceptors),
        }
    }

    fn second(&self) -> machine::Heard {
        machine::Heard {
            number: self.number.into(),
            set: self.set,
            acceptors: self.acceptors.into(),
        }
    }
}

impl Record for Learner {
    type Second = machine::Learner;

    #[inline]
    fn of(second: &machine::Learner) -> Learner {
        Learner {
            alive: second.alive.into(),
            learnt: second.learnt,
            heard: second.heard.map(|heard| Heard::of(&heard)),
        }
    }

    fn second(&self) -> machine::Learner {
        machine::Learner {
            alive: self.alive.is_set(),
            learnt: self.learnt,
            heard: self.heard.map(|heard| heard.second()),
        }
    }
}

impl Record for Message {
    type Second = machine::Message;

    #[inline]
    fn of(second: &machine::Message) -> Message {
        Message {
            kind: narrow(second.kind),
            addressee: narrow(second.addressee),
            proposer: narrow(second.proposer),
            acceptor: narrow(second.acceptor),
            number: narrow(second.number),
            set: second.set,
        }
    }

    fn second(&self) -> machine::Message {
        machine::Message {
            kind: self.kind.into(),
            addressee: self.addressee.into(),
            proposer: self.proposer.into(),
            acceptor: self.acceptor.into(),
            number: self.number.into(),
            set: self.set,
        }
    }
}

#[cfg(test)]
mod tests {
    use std::mem::size_of;

    use super::*;
    use crate::machine::drawn;
    use reference::rng::Rng;

    /// How far a field lies from the beginning of its record.
    fn offset<R, F>(record: &R, field: &F) -> usize {
        field as *const F as usize - record as *const R as usize
    }

    #[test]
    fn records_lie_as_in_c() {
        let proposer = Proposer::default();
        assert_eq!(offset(&proposer, &proposer.active), 1);
        assert_eq!(offset(&proposer, &proposer.buffered), 8);
        assert_eq!(offset(&proposer, &proposer.number), 32);
        assert_eq!(offset(&proposer, &proposer.rejected), 35);
        assert_eq!(offset(&proposer, &proposer.decided), 40);
        let heard = Heard::default();
        assert_eq!(offset(&heard, &heard.set), 8);
        assert_eq!(offset(&heard, &heard.acceptors), 16);
        let learner = Learner::default();
        assert_eq!(offset(&learner, &learner.heard), 16);
        let message = Message::default();
        assert_eq!(offset(&message, &message.acceptor), 3);
        assert_eq!(offset(&message, &message.number), 4);
        assert_eq!(offset(&message, &message.set), 8);
        let sizes = [
            size_of::<Sizes>(),
            size_of::<Proposer>(),
            size_of::<Acceptor>(),
            size_of::<Heard>(),
            size_of::<Learner>(),
            size_of::<Message>(),
        ];
        assert_eq!(sizes, [10, 48, 16, 24, 208, 16]);
    }

    #[test]
    fn records_come_back() {
        let rng = &mut Rng::new(31);
        for _ in 0..1_000 {
            let proposer = drawn::any_proposer(rng);
            assert_eq!(Proposer::of(&proposer.second()), proposer);
            let acceptor = drawn::any_acceptor(rng);
            assert_eq!(Acceptor::of(&acceptor.second()), acceptor);
            let learner = drawn::any_learner(rng);
            assert_eq!(Learner::of(&learner.second()), learner);
            let message = drawn::any_message(rng);
            assert_eq!(Message::of(&message.second()), message);
            let sizes = Sizes {
                proposers: rng.draw() as u16,
                acceptors: rng.draw() as u16,
                learners: rng.draw() as u16,
                slots: rng.draw() as u16,
                scans: rng.draw() as u16,
            };
            assert_eq!(Sizes::of(&sizes.second()), sizes);
        }
    }
}
