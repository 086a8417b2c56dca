//! Drawn records: any, and within their ranges.

use reference::machine::{
    ACKNOWLEDGEMENT, ACKNOWLEDGEMENT_TO_LEARNER, INTERNAL, PROPOSAL, REJECTION,
};
use reference::rng::Rng;

use super::form::{Acceptor, Flag, Heard, Learner, Message, Proposer, Record, Sizes};
use super::lent::{Lent, Places};

/// Proposal numbers about both ends of their range.
const NUMBERS: [u16; 8] = [0, 1, 2, 998, 999, 999, 1_000, 1_000];

fn flag(rng: &mut Rng) -> Flag {
    rng.one_in(2).into()
}

fn byte(rng: &mut Rng) -> u8 {
    rng.draw() as u8
}

fn word(rng: &mut Rng) -> u16 {
    rng.draw() as u16
}

// Any records: each field has any value of its type.

pub fn any_proposer(rng: &mut Rng) -> Proposer {
    Proposer {
        alive: flag(rng),
        active: flag(rng),
        buffered: rng.draw(),
        proposed: rng.draw(),
        gathered: rng.draw(),
        number: word(rng),
        acknowledged: byte(rng),
        rejected: byte(rng),
        decided: rng.draw(),
    }
}

pub fn any_acceptor(rng: &mut Rng) -> Acceptor {
    Acceptor {
        alive: flag(rng),
        accepted: rng.draw(),
    }
}

fn any_heard(rng: &mut Rng) -> Heard {
    Heard {
        number: word(rng),
        set: rng.draw(),
        acceptors: byte(rng),
    }
}

pub fn any_learner(rng: &mut Rng) -> Learner {
    Learner {
        alive: flag(rng),
        learnt: rng.draw(),
        heard: [(); 8].map(|()| any_heard(rng)),
    }
}

pub fn any_message(rng: &mut Rng) -> Message {
    Message {
        kind: byte(rng),
        addressee: byte(rng),
        proposer: byte(rng),
        acceptor: byte(rng),
        number: word(rng),
        set: rng.draw(),
    }
}

/// As many places as the sizes say, each of any value.
pub fn any_lent(rng: &mut Rng, sizes: &Sizes) -> Lent {
    Lent {
        proposers: places(rng, sizes.proposers, any_proposer, any_proposer),
        acceptors: places(rng, sizes.acceptors, any_acceptor, any_acceptor),
        learners: places(rng, sizes.learners, any_learner, any_learner),
        slots: places(rng, sizes.slots, any_message, any_message),
    }
}

/// So many places drawn one by one, with guard places of any value.
fn places<T: Record>(
    rng: &mut Rng,
    count: u16,
    guard: fn(&mut Rng) -> T,
    mut draw: impl FnMut(&mut Rng) -> T,
) -> Places<T> {
    let guards = [guard(rng), guard(rng)];
    let lent = (0..count).map(|_| draw(rng)).collect();
    Places::new(lent, guards)
}

// Records within their ranges. Sets are drawn from few, so that one is often
// contained in another, and numbers from few, so that they often agree.

/// What records and messages within their ranges are drawn from.
pub struct Within {
    sizes: Sizes,
    /// Sets within S, the first few each contained in the next.
    sets: [u64; 6],
}

impl Within {
    /// Sizes have to be within their ranges.
    pub fn new(rng: &mut Rng, sizes: &Sizes) -> Within {
        let all = all_scans(sizes);
        let least = rng.draw() & rng.draw() & rng.draw() & all;
        let more = least | (rng.draw() & rng.draw() & all);
        let other = rng.draw() & rng.draw() & all;
        Within {
            sizes: *sizes,
            sets: [0, least, more, more | other, all, other],
        }
    }

    fn set(&self, rng: &mut Rng) -> u64 {
        self.sets[rng.below(self.sets.len() as u64) as usize]
    }

    fn acceptors(&self, rng: &mut Rng) -> u8 {
        let all = all_acceptors(&self.sizes);
        match rng.below(4) {
            0 => 0,
            1 => all,
            _ => byte(rng) & all,
        }
    }

    fn number(&self, rng: &mut Rng) -> u16 {
        NUMBERS[rng.below(NUMBERS.len() as u64) as usize]
    }

    fn proposer(&self, rng: &mut Rng) -> Proposer {
        let number = self.number(rng);
        Proposer {
            alive: mostly(rng),
            active: match number {
                0 => Flag::CLEAR,
                _ => mostly(rng),
            },
            buffered: self.set(rng),
            proposed: self.set(rng),
            gathered: self.set(rng),
            number,
            acknowledged: self.acceptors(rng),
            rejected: self.acceptors(rng),
            decided: self.set(rng),
        }
    }

    fn acceptor(&self, rng: &mut Rng) -> Acceptor {
        Acceptor {
            alive: mostly(rng),
            accepted: self.set(rng),
        }
    }

    /// A learner; places past the proposers are of any value.
    fn learner(&self, rng: &mut Rng) -> Learner {
        let mut learner = any_learner(rng);
        learner.alive = mostly(rng);
        learner.learnt = self.set(rng);
        for heard in &mut learner.heard[..self.sizes.proposers.into()] {
            *heard = Heard {
                number: self.number(rng),
                set: self.set(rng),
                acceptors: self.acceptors(rng),
            };
        }
        learner
    }

    /// A message of a drawn kind that is not free.
    fn message(&self, rng: &mut Rng) -> Message {
        let kind = rng.within(INTERNAL.into(), ACKNOWLEDGEMENT_TO_LEARNER.into()) as u8;
        let mut message = Message {
            kind,
            addressee: below(rng, self.addressees(kind)),
            set: self.set(rng),
            ..Message::default()
        };
        if kind != INTERNAL as u8 {
            message.number = self.number(rng).max(1);
        }
        if [PROPOSAL, ACKNOWLEDGEMENT_TO_LEARNER].contains(&kind.into()) {
            message.proposer = below(rng, self.sizes.proposers);
        }
        if [ACKNOWLEDGEMENT, REJECTION, ACKNOWLEDGEMENT_TO_LEARNER].contains(&kind.into()) {
            message.acceptor = below(rng, self.sizes.acceptors);
        }
        message
    }

    /// How many parties a message of the kind may be addressed to.
    fn addressees(&self, kind: u8) -> u16 {
        addressees(&self.sizes, kind)
    }

    /// Records and slots within their ranges, with few, half, most or all
    /// slots taken.
    pub fn lent(&self, rng: &mut Rng) -> Lent {
        let sizes = self.sizes;
        let free_of_16 = [15, 8, 1, 0][rng.below(4) as usize];
        Lent {
            proposers: places(rng, sizes.proposers, any_proposer, |rng| self.proposer(rng)),
            acceptors: places(rng, sizes.acceptors, any_acceptor, |rng| self.acceptor(rng)),
            learners: places(rng, sizes.learners, any_learner, |rng| self.learner(rng)),
            slots: places(rng, sizes.slots, any_message, |rng| {
                match rng.below(16) < free_of_16 {
                    true => Message::default(),
                    false => self.message(rng),
                }
            }),
        }
    }
}

/// Set seven times of eight.
fn mostly(rng: &mut Rng) -> Flag {
    Flag::from(!rng.one_in(8))
}

fn below(rng: &mut Rng, count: u16) -> u8 {
    rng.below(count.into()) as u8
}

/// The set of all scans of a run.
pub fn all_scans(sizes: &Sizes) -> u64 {
    u64::MAX >> (64 - sizes.scans)
}

/// The set of all acceptors of a run.
pub fn all_acceptors(sizes: &Sizes) -> u8 {
    u8::MAX >> (8 - sizes.acceptors)
}

/// How many parties a message of the kind may be addressed to.
pub fn addressees(sizes: &Sizes, kind: u8) -> u16 {
    match kind.into() {
        PROPOSAL => sizes.acceptors,
        ACKNOWLEDGEMENT_TO_LEARNER => sizes.learners,
        _ => sizes.proposers,
    }
}

#[cfg(test)]
mod tests {
    use super::*;
    use crate::machine::second::Second;
    use crate::machine::Machine;
    use reference::generate::{Style, STYLES};

    #[test]
    fn records_within_their_ranges() {
        let rng = &mut Rng::new(32);
        for (_, style) in STYLES {
            for _ in 0..100 {
                let sizes = Sizes::of(&Style::sizes(style, rng));
                let mut lent = Within::new(rng, &sizes).lent(rng);
                assert!(lent.is_of(&sizes));
                assert_eq!(Second::run(sizes, &mut lent, &[], &mut [], 0), 0);
            }
        }
    }
}
