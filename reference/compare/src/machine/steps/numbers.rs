//! Numbers about 1,000, which no schedule reaches: what is stated, and what
//! both programs leave.

use reference::machine::{
    ACKNOWLEDGEMENT, ACKNOWLEDGEMENT_TO_LEARNER, DECIDE, DELIVER, INTERNAL, PROPOSE, REFINE,
};
use reference::rng::Rng;

use super::{compare, Call};
use crate::machine::form::{Flag, Message, Proposer};
use crate::machine::lent::Lent;
use crate::machine::sizes::sizes_of;
use crate::machine::{Machine, BEFORE, EVENT, LOG};
use crate::suite::{Comparisons, Outcome};

/// Records of P = 2, A = 3, L = 2, M = 16, S = 4 with a change, an event on
/// them, and what the log says of it.
struct Stated {
    name: &'static str,
    change: fn(&mut Lent),
    event: [u64; EVENT],
    said: [u64; LOG],
}

/// Numbers about 1,000.
const NUMBER_1000: [Stated; 17] = [
    Stated {
        name: "passive at 1,000, buffered not empty",
        change: |lent| passive(lent, 1_000, 0b0001),
        event: [PROPOSE, 1, 0],
        said: [7, 0],
    },
    Stated {
        name: "passive at 1,000, buffered empty",
        change: |lent| passive(lent, 1_000, 0),
        event: [PROPOSE, 1, 0],
        said: [6, 0],
    },
    Stated {
        name: "passive at 999",
        change: |lent| passive(lent, 999, 0b0001),
        event: [PROPOSE, 1, 0],
        said: [0, 0],
    },
    Stated {
        name: "passive at 1,000, crashed",
        change: |lent| {
            passive(lent, 1_000, 0b0001);
            lent.proposers.lent_mut()[1].alive = Flag::CLEAR;
        },
        event: [PROPOSE, 1, 0],
        said: [5, 0],
    },
    Stated {
        name: "passive at 1,000, full table",
        change: |lent| {
            passive(lent, 1_000, 0b0001);
            fill(lent);
        },
        event: [PROPOSE, 1, 0],
        said: [7, 0],
    },
    Stated {
        name: "passive at 999, full table",
        change: |lent| {
            passive(lent, 999, 0b0001);
            fill(lent);
        },
        event: [PROPOSE, 1, 0],
        said: [8, 0],
    },
    Stated {
        name: "active at 1,000, rejected",
        change: |lent| active(lent, 1_000, 0b001, 0b010),
        event: [REFINE, 1, 0],
        said: [7, 0],
    },
    Stated {
        name: "active at 1,000, not rejected",
        change: |lent| active(lent, 1_000, 0b111, 0),
        event: [REFINE, 1, 0],
        said: [6, 0],
    },
    Stated {
        name: "active at 1,000, one acceptor answered both ways",
        change: |lent| active(lent, 1_000, 0b100, 0b100),
        event: [REFINE, 1, 0],
        said: [6, 0],
    },
    Stated {
        name: "active at 999, rejected",
        change: |lent| active(lent, 999, 0b001, 0b010),
        event: [REFINE, 1, 0],
        said: [0, 0],
    },
    Stated {
        name: "active at 1,000, rejected, full table",
        change: |lent| {
            active(lent, 1_000, 0b001, 0b010);
            fill(lent);
        },
        event: [REFINE, 1, 0],
        said: [7, 0],
    },
    Stated {
        name: "active at 999, rejected, full table",
        change: |lent| {
            active(lent, 999, 0b001, 0b010);
            fill(lent);
        },
        event: [REFINE, 1, 0],
        said: [8, 0],
    },
    Stated {
        name: "active at 1,000, acknowledged",
        change: |lent| active(lent, 1_000, 0b101, 0b010),
        event: [DECIDE, 1, 0],
        said: [513, 0b0010],
    },
    Stated {
        name: "an acknowledgement of 1,000",
        change: |lent| {
            active(lent, 1_000, 0b001, 0);
            lent.slots.lent_mut()[3] = answer(ACKNOWLEDGEMENT, 0, 2, 1_000, 0b1111);
        },
        event: [DELIVER, 3, 0],
        said: [0, 0],
    },
    Stated {
        name: "heard 1,000, the same from another acceptor",
        change: |lent| {
            heard(lent, 1_000, 0b001);
            lent.slots.lent_mut()[3] = answer(ACKNOWLEDGEMENT_TO_LEARNER, 1, 2, 1_000, 0b1111);
        },
        event: [DELIVER, 3, 0],
        said: [257, 0b0011],
    },
    Stated {
        name: "heard 1,000, then 999",
        change: |lent| {
            heard(lent, 1_000, 0b001);
            lent.slots.lent_mut()[3] = answer(ACKNOWLEDGEMENT_TO_LEARNER, 1, 2, 999, 0b1111);
        },
        event: [DELIVER, 3, 0],
        said: [0, 0],
    },
    Stated {
        name: "heard 999 from a majority, then 1,000 from one",
        change: |lent| {
            heard(lent, 999, 0b011);
            lent.slots.lent_mut()[3] = answer(ACKNOWLEDGEMENT_TO_LEARNER, 1, 2, 1_000, 0b1111);
        },
        event: [DELIVER, 3, 0],
        said: [0, 0],
    },
];

/// Proposer 1 is passive.
fn passive(lent: &mut Lent, number: u16, buffered: u64) {
    lent.proposers.lent_mut()[1] = Proposer {
        alive: Flag::SET,
        number,
        buffered,
        ..Proposer::default()
    };
}

/// Proposer 1 is active.
fn active(lent: &mut Lent, number: u16, acknowledged: u8, rejected: u8) {
    lent.proposers.lent_mut()[1] = Proposer {
        alive: Flag::SET,
        active: Flag::SET,
        proposed: 0b0010,
        gathered: 0b1000,
        number,
        acknowledged,
        rejected,
        ..Proposer::default()
    };
}

/// Learner 1 has heard of proposer 1.
fn heard(lent: &mut Lent, number: u16, acceptors: u8) {
    let heard = &mut lent.learners.lent_mut()[1].heard[1];
    heard.number = number;
    heard.set = 0b0011;
    heard.acceptors = acceptors;
}

/// An answer to proposer 1, or to learner 1 about it.
fn answer(kind: u32, proposer: u8, acceptor: u8, number: u16, set: u64) -> Message {
    Message {
        kind: kind as u8,
        addressee: 1,
        proposer,
        acceptor,
        number,
        set,
    }
}

/// Every slot holds an internal message.
fn fill(lent: &mut Lent) {
    lent.slots.lent_mut().fill(Message {
        kind: INTERNAL as u8,
        set: 1,
        ..Message::default()
    });
}

/// Each case: what the log says, and that a refusal changes nothing.
pub fn about_1000<M: Machine>(_: &mut Rng) -> Outcome {
    let mut comparisons = Comparisons::new();
    let sizes = sizes_of(2, 3, 2, 16, 4);
    for stated in &NUMBER_1000 {
        let mut lent = Lent::fresh(&sizes);
        (stated.change)(&mut lent);
        let call = Call::one(sizes, &stated.event);
        let left = compare::<M>(&mut comparisons, &call, &lent)?;
        let [first, second] = stated.said;
        comparisons.same(
            format_args!("{}, {call}, against what is stated", stated.name),
            (left.answer, &left.log[..]),
            (0, &[first, second, BEFORE][..]),
        )?;
        if (1..256).contains(&first) {
            comparisons.left(
                format_args!("{}, {call}", stated.name),
                left.lent.difference(&lent),
            )?;
        }
    }
    comparisons.made()
}
