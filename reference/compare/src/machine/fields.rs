//! Changes of one field of one record or slot: past its range, and to the
//! ends of its range.

use reference::machine::{
    ACKNOWLEDGEMENT, ACKNOWLEDGEMENT_TO_LEARNER, FREE, INTERNAL, PROPOSAL, REJECTION,
};

use super::drawn::{addressees, all_acceptors, all_scans};
use super::form::{Acceptor, Flag, Heard, Learner, Message, Proposer, Sizes};
use super::lent::Lent;

/// The greatest proposal number, and numbers past it.
const GREATEST: u16 = 1_000;
const PAST_GREATEST: [u16; 3] = [1_001, 2_024, u16::MAX];

/// The kinds that have a number.
const NUMBERED: [u8; 4] = [
    PROPOSAL as u8,
    ACKNOWLEDGEMENT as u8,
    REJECTION as u8,
    ACKNOWLEDGEMENT_TO_LEARNER as u8,
];

/// A change of one field.
pub struct Change {
    pub name: String,
    make: Box<dyn Fn(&mut Lent)>,
}

impl Change {
    pub fn make(&self, lent: &mut Lent) {
        (self.make)(lent);
    }
}

/// Changes, as they are listed.
#[derive(Default)]
struct Changes {
    list: Vec<Change>,
}

impl Changes {
    fn proposer(&mut self, at: usize, name: String, make: impl Fn(&mut Proposer) + 'static) {
        self.list.push(Change {
            name: format!("proposer {at}, {name}"),
            make: Box::new(move |lent| make(&mut lent.proposers.lent_mut()[at])),
        });
    }

    fn acceptor(&mut self, at: usize, name: String, make: impl Fn(&mut Acceptor) + 'static) {
        self.list.push(Change {
            name: format!("acceptor {at}, {name}"),
            make: Box::new(move |lent| make(&mut lent.acceptors.lent_mut()[at])),
        });
    }

    fn learner(&mut self, at: usize, name: String, make: impl Fn(&mut Learner) + 'static) {
        self.list.push(Change {
            name: format!("learner {at}, {name}"),
            make: Box::new(move |lent| make(&mut lent.learners.lent_mut()[at])),
        });
    }

    fn heard(&mut self, at: usize, of: usize, name: String, make: impl Fn(&mut Heard) + 'static) {
        self.learner(at, format!("heard of {of}, {name}"), move |learner| {
            make(&mut learner.heard[of])
        });
    }

    fn slot(&mut self, at: usize, message: Message) {
        self.list.push(Change {
            name: format!("slot {at}, {message:?}"),
            make: Box::new(move |lent| lent.slots.lent_mut()[at] = message),
        });
    }

    /// Every field of the proposers, acceptors and learners that is a set of
    /// scans, a set of acceptors or a number, with each of these values.
    fn parties(&mut self, sizes: &Sizes, sets: &[u64], acceptors: &[u8], numbers: &[u16]) {
        for at in 0..sizes.proposers.into() {
            for set in sets.iter().copied() {
                self.proposer(at, format!("buffered {set:#x}"), move |p| p.buffered = set);
                self.proposer(at, format!("proposed {set:#x}"), move |p| p.proposed = set);
                self.proposer(at, format!("gathered {set:#x}"), move |p| p.gathered = set);
                self.proposer(at, format!("decided {set:#x}"), move |p| p.decided = set);
            }
            for set in acceptors.iter().copied() {
                let name = format!("acknowledged {set:#x}");
                self.proposer(at, name, move |p| p.acknowledged = set);
                self.proposer(at, format!("rejected {set:#x}"), move |p| p.rejected = set);
            }
            for number in numbers.iter().copied() {
                self.proposer(at, format!("number {number}"), move |p| p.number = number);
            }
        }
        for at in 0..sizes.acceptors.into() {
            for set in sets.iter().copied() {
                self.acceptor(at, format!("accepted {set:#x}"), move |a| a.accepted = set);
            }
        }
        for at in 0..sizes.learners.into() {
            for set in sets.iter().copied() {
                self.learner(at, format!("learnt {set:#x}"), move |l| l.learnt = set);
            }
            self.heards(at, 0..sizes.proposers.into(), sets, acceptors, numbers);
        }
    }

    /// What a learner heard of these proposers.
    fn heards(
        &mut self,
        at: usize,
        proposers: std::ops::Range<usize>,
        sets: &[u64],
        acceptors: &[u8],
        numbers: &[u16],
    ) {
        for of in proposers {
            for set in sets.iter().copied() {
                self.heard(at, of, format!("set {set:#x}"), move |h| h.set = set);
            }
            for set in acceptors.iter().copied() {
                let name = format!("acceptors {set:#x}");
                self.heard(at, of, name, move |h| h.acceptors = set);
            }
            for number in numbers.iter().copied() {
                self.heard(at, of, format!("number {number}"), move |h| {
                    h.number = number
                });
            }
        }
    }
}

/// Every field of every record and slot past its range.
pub fn past(sizes: &Sizes) -> Vec<Change> {
    let mut changes = Changes::default();
    let acceptors = [1 << sizes.acceptors, 0x80, 0xff];
    changes.parties(sizes, &sets_past(sizes), &acceptors, &PAST_GREATEST);
    for at in 0..sizes.proposers.into() {
        changes.proposer(at, "active at number 0".to_string(), |proposer| {
            proposer.active = Flag::SET;
            proposer.number = 0;
        });
    }
    let messages = messages_past(sizes);
    for at in 0..sizes.slots.into() {
        for message in &messages {
            changes.slot(at, *message);
        }
    }
    changes.list
}

/// Every field of every record and slot at the ends of its range, and places
/// that are no record's with any value.
pub fn at_limits(sizes: &Sizes) -> Vec<Change> {
    let mut changes = Changes::default();
    let sets = [0, all_scans(sizes)];
    let acceptors = [0, all_acceptors(sizes)];
    changes.parties(sizes, &sets, &acceptors, &[GREATEST]);
    for at in 0..sizes.proposers.into() {
        changes.proposer(at, "passive at number 0".to_string(), |proposer| {
            proposer.active = Flag::CLEAR;
            proposer.number = 0;
        });
        changes.proposer(at, "active at number 1".to_string(), |proposer| {
            proposer.active = Flag::SET;
            proposer.number = 1;
        });
    }
    for at in 0..sizes.learners.into() {
        let places = usize::from(sizes.proposers)..8;
        changes.heards(at, places, &[u64::MAX], &[0xff], &[u16::MAX]);
    }
    for at in 0..sizes.slots.into() {
        for kind in FREE as u8..=ACKNOWLEDGEMENT_TO_LEARNER as u8 {
            changes.slot(at, least(kind));
            changes.slot(at, greatest(sizes, kind));
        }
    }
    changes.list
}

/// Sets that hold a scan not below S; none where S is 64.
fn sets_past(sizes: &Sizes) -> Vec<u64> {
    match 1u64.checked_shl(sizes.scans.into()) {
        Some(one_past) => vec![one_past, 1 << 63, u64::MAX],
        None => Vec::new(),
    }
}

/// The message of the kind whose fields are all the least.
fn least(kind: u8) -> Message {
    Message {
        kind,
        number: u16::from(NUMBERED.contains(&kind)),
        ..Message::default()
    }
}

/// The message of the kind whose fields are all the greatest.
fn greatest(sizes: &Sizes, kind: u8) -> Message {
    let mut message = least(kind);
    if kind == FREE as u8 {
        return message;
    }
    message.addressee = last(addressees(sizes, kind));
    message.set = all_scans(sizes);
    if kind != INTERNAL as u8 {
        message.number = GREATEST;
    }
    if has_proposer(kind) {
        message.proposer = last(sizes.proposers);
    }
    if has_acceptor(kind) {
        message.acceptor = last(sizes.acceptors);
    }
    message
}

/// Whether a message of the kind names a proposer beside its addressee.
pub fn has_proposer(kind: u8) -> bool {
    [PROPOSAL, ACKNOWLEDGEMENT_TO_LEARNER].contains(&kind.into())
}

/// Whether a message of the kind names an acceptor beside its addressee.
pub fn has_acceptor(kind: u8) -> bool {
    [ACKNOWLEDGEMENT, REJECTION, ACKNOWLEDGEMENT_TO_LEARNER].contains(&kind.into())
}

/// The last of so many numbers from 0.
fn last(count: u16) -> u8 {
    count as u8 - 1
}

/// Messages with one field past its range.
fn messages_past(sizes: &Sizes) -> Vec<Message> {
    let mut messages = Vec::new();
    for kind in FREE as u8..=ACKNOWLEDGEMENT_TO_LEARNER as u8 {
        for whole in [least(kind), greatest(sizes, kind)] {
            messages.extend(with_one_field_past(sizes, whole));
        }
    }
    for kind in [6, 7, 8, 128, 255] {
        messages.push(least(kind));
        for of in NUMBERED {
            messages.push(Message {
                kind,
                ..greatest(sizes, of)
            });
        }
    }
    messages
}

/// The message with each of its fields past its range in turn; a field that
/// its kind does not use is past its range from 1 on.
fn with_one_field_past(sizes: &Sizes, whole: Message) -> Vec<Message> {
    let kind = whole.kind;
    let counts = |used: bool, count: u16| [if used { count as u8 } else { 1 }, 255];
    let taken = kind != FREE as u8;
    let mut messages = Vec::new();
    for addressee in counts(taken, addressees(sizes, kind)) {
        messages.push(Message { addressee, ..whole });
    }
    for proposer in counts(has_proposer(kind), sizes.proposers) {
        messages.push(Message { proposer, ..whole });
    }
    for acceptor in counts(has_acceptor(kind), sizes.acceptors) {
        messages.push(Message { acceptor, ..whole });
    }
    let numbers = match NUMBERED.contains(&kind) {
        true => [0, PAST_GREATEST[0], PAST_GREATEST[1], PAST_GREATEST[2]],
        false => [1, 2, GREATEST, u16::MAX],
    };
    for number in numbers {
        messages.push(Message { number, ..whole });
    }
    let sets = match taken {
        true => sets_past(sizes),
        false => vec![1, 1 << 63, u64::MAX],
    };
    for set in sets {
        messages.push(Message { set, ..whole });
    }
    messages
}
