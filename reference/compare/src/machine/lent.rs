//! The records and slots that a call is lent, with guard places around them.

use std::fmt::{Debug, Display};

use super::form::{Acceptor, Learner, Message, Proposer, Record, Sizes};

/// Lent places between two guard places.
#[derive(Clone, Debug, PartialEq)]
pub struct Places<T> {
    places: Vec<T>,
}

impl<T: Record> Places<T> {
    /// These places, with these guard places before and after them.
    pub fn new(lent: Vec<T>, guards: [T; 2]) -> Places<T> {
        let [before, after] = guards;
        let mut places = vec![before];
        places.extend(lent);
        places.push(after);
        Places { places }
    }

    /// So many places of one value, which the guard places have too.
    fn all(count: u16, value: T) -> Places<T> {
        Places::new(vec![value; count.into()], [value; 2])
    }

    /// The lent places.
    #[inline]
    pub fn lent(&self) -> &[T] {
        &self.places[1..self.places.len() - 1]
    }

    /// The lent places.
    #[inline]
    pub fn lent_mut(&mut self) -> &mut [T] {
        let end = self.places.len() - 1;
        &mut self.places[1..end]
    }

    /// One place more, with this value, or one place less.
    fn resized(&self, change: Change, value: T) -> Places<T> {
        let mut places = self.places.clone();
        let last = places.len() - 1;
        match change {
            Change::More => places.insert(last, value),
            Change::Less => {
                places.remove(last - 1);
            }
        }
        Places { places }
    }

    /// The guard places.
    fn guards(&self) -> [T; 2] {
        [self.places[0], self.places[self.places.len() - 1]]
    }

    /// The guard places, where they differ.
    fn guard_difference(&self, other: &Places<T>, name: &str) -> Option<String> {
        if self.guards() == other.guards() {
            return None;
        }
        Some(differs(
            "the guard places of each",
            name,
            self.guards(),
            other.guards(),
        ))
    }

    /// The first place that differs, guard places counted as -1 and as the one
    /// past the last.
    fn difference(&self, other: &Places<T>, name: &str) -> Option<String> {
        if self.places == other.places {
            return None;
        }
        let mut pairs = self.places.iter().zip(&other.places);
        let place = pairs.position(|(left, right)| left != right)?;
        Some(differs(
            name,
            place as isize - 1,
            self.places[place],
            other.places[place],
        ))
    }
}

/// Whether a slice is lent with a place more or less than there should be.
#[derive(Clone, Copy, Debug)]
enum Change {
    More,
    Less,
}

/// The four slices of a call. Places past a run's own parties are not lent.
#[derive(Clone, Debug, PartialEq)]
pub struct Lent {
    pub proposers: Places<Proposer>,
    pub acceptors: Places<Acceptor>,
    pub learners: Places<Learner>,
    pub slots: Places<Message>,
}

impl Lent {
    /// The records and slots of a fresh run, whatever the sizes.
    pub fn fresh(sizes: &Sizes) -> Lent {
        Lent {
            proposers: Places::all(sizes.proposers, Proposer::FRESH),
            acceptors: Places::all(sizes.acceptors, Acceptor::FRESH),
            learners: Places::all(sizes.learners, Learner::FRESH),
            slots: Places::all(sizes.slots, Message::FREE),
        }
    }

    /// Makes every lent place that of a fresh run.
    pub fn make_fresh(&mut self) {
        self.proposers.lent_mut().fill(Proposer::FRESH);
        self.acceptors.lent_mut().fill(Acceptor::FRESH);
        self.learners.lent_mut().fill(Learner::FRESH);
        self.slots.lent_mut().fill(Message::FREE);
    }

    /// The same with one of the slices a place longer or shorter, each by
    /// name; the place more is as in a fresh run.
    pub fn other_lengths(&self) -> Vec<(String, Lent)> {
        let mut all = Vec::new();
        for change in [Change::More, Change::Less] {
            let mut proposers = self.clone();
            proposers.proposers = self.proposers.resized(change, Proposer::FRESH);
            let mut acceptors = self.clone();
            acceptors.acceptors = self.acceptors.resized(change, Acceptor::FRESH);
            let mut learners = self.clone();
            learners.learners = self.learners.resized(change, Learner::FRESH);
            let mut slots = self.clone();
            slots.slots = self.slots.resized(change, Message::FREE);
            all.extend([
                (format!("{change:?} proposers"), proposers),
                (format!("{change:?} acceptors"), acceptors),
                (format!("{change:?} learners"), learners),
                (format!("{change:?} slots"), slots),
            ]);
        }
        all
    }

    /// Whether as many records and slots are lent as the sizes say.
    pub fn is_of(&self, sizes: &Sizes) -> bool {
        self.proposers.lent().len() == usize::from(sizes.proposers)
            && self.acceptors.lent().len() == usize::from(sizes.acceptors)
            && self.learners.lent().len() == usize::from(sizes.learners)
            && self.slots.lent().len() == usize::from(sizes.slots)
    }

    /// The first place that differs from `expected`.
    pub fn difference(&self, expected: &Lent) -> Option<String> {
        self.proposers
            .difference(&expected.proposers, "proposer")
            .or_else(|| self.acceptors.difference(&expected.acceptors, "acceptor"))
            .or_else(|| self.learners.difference(&expected.learners, "learner"))
            .or_else(|| self.slots.difference(&expected.slots, "slot"))
    }

    /// The first slice whose guard places differ from those of `expected`.
    pub fn guard_difference(&self, expected: &Lent) -> Option<String> {
        self.proposers
            .guard_difference(&expected.proposers, "proposer")
            .or_else(|| {
                self.acceptors
                    .guard_difference(&expected.acceptors, "acceptor")
            })
            .or_else(|| {
                self.learners
                    .guard_difference(&expected.learners, "learner")
            })
            .or_else(|| self.slots.guard_difference(&expected.slots, "slot"))
    }
}

/// How a difference is reported.
pub fn differs(name: &str, place: impl Display, found: impl Debug, expected: impl Debug) -> String {
    format!("{name} {place} is left as {found:?}, and should be {expected:?}")
}

#[cfg(test)]
mod tests {
    use super::*;
    use crate::machine::drawn;
    use reference::rng::Rng;

    const SIZES: Sizes = Sizes {
        proposers: 2,
        acceptors: 3,
        learners: 1,
        slots: 16,
        scans: 4,
    };

    #[test]
    fn a_changed_place_is_found() {
        let lent = drawn::any_lent(&mut Rng::new(33), &SIZES);
        assert_eq!(lent.difference(&lent), None);
        let mut other = lent.clone();
        other.slots.lent_mut()[15].set ^= 1;
        let found = lent.difference(&other).unwrap();
        assert!(found.starts_with("slot 15 is left as Message"), "{found}");
        assert_eq!(lent.guard_difference(&other), None);
    }

    #[test]
    fn a_changed_guard_is_found() {
        let lent = drawn::any_lent(&mut Rng::new(34), &SIZES);
        let mut other = lent.clone();
        other.learners.places[0].learnt ^= 1;
        assert!(lent.difference(&other).is_some());
        assert!(lent.guard_difference(&other).is_some());
        let mut other = lent.clone();
        other.proposers.places[3].number ^= 1;
        let found = lent.difference(&other).unwrap();
        assert!(found.starts_with("proposer 2 is left as"), "{found}");
        assert!(lent.guard_difference(&other).is_some());
    }

    #[test]
    fn a_place_more_or_less() {
        let lent = drawn::any_lent(&mut Rng::new(35), &SIZES);
        assert!(lent.is_of(&SIZES));
        for change in [Change::More, Change::Less] {
            let mut other = lent.clone();
            other.slots = other.slots.resized(change, Message::FREE);
            assert!(!other.is_of(&SIZES));
            assert_eq!(other.slots.lent()[..15], lent.slots.lent()[..15]);
            assert_eq!(other.slots.guards(), lent.slots.guards());
            assert!(lent.difference(&other).is_some());
        }
    }
}
