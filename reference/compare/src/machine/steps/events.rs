//! Events of single steps: within the sizes, of other codes, and past the
//! sizes.

use reference::machine::{
    ACCEPTOR, CRASH, DECIDE, DELIVER, DROP, DUPLICATE, FREE, LEARNER, PROPOSE, PROPOSER, RECEIVE,
    REFINE,
};
use reference::rng::Rng;

use crate::machine::form::Sizes;
use crate::machine::lent::Lent;
use crate::machine::EVENT;

/// Codes that are no event's; most are where their low bits are taken for the
/// code.
pub const OTHER_CODES: [u64; 18] = [
    0,
    9,
    10,
    255,
    256,
    257,
    264,
    65_535,
    65_536,
    65_537,
    65_544,
    1 << 32,
    (1 << 32) + 1,
    (1 << 32) + 8,
    1 << 63,
    (1 << 63) + 5,
    u64::MAX - 1,
    u64::MAX,
];

/// Numbers where 0 must be.
const NOT_ZERO: [u64; 8] = [1, 2, 255, 256, 65_535, 65_536, 1 << 32, u64::MAX];

/// An event with arguments within the sizes, a slot that is mostly taken.
pub fn drawn_event(rng: &mut Rng, sizes: &Sizes, lent: &Lent) -> [u64; EVENT] {
    let code = match rng.below(13) {
        0..=4 => DELIVER,
        drawn => drawn - 4,
    };
    let proposer = rng.below(sizes.proposers.into());
    match code {
        RECEIVE => [code, proposer, rng.below(sizes.scans.into())],
        DELIVER | DROP | DUPLICATE => [code, drawn_slot(rng, lent), 0],
        CRASH => {
            let role = rng.within(PROPOSER, LEARNER);
            [code, role, rng.below(parties(sizes, role))]
        }
        _ => [code, proposer, 0],
    }
}

fn drawn_slot(rng: &mut Rng, lent: &Lent) -> u64 {
    let slots = lent.slots.lent();
    let first = rng.below(slots.len() as u64) as usize;
    let mut order = (first..slots.len()).chain(0..first);
    let taken = order.find(|slot| u32::from(slots[*slot].kind) != FREE);
    taken.unwrap_or(first) as u64
}

/// How many parties a role has.
fn parties(sizes: &Sizes, role: u64) -> u64 {
    match role {
        PROPOSER => sizes.proposers.into(),
        ACCEPTOR => sizes.acceptors.into(),
        _ => sizes.learners.into(),
    }
}

/// The Crash of the first party that is alive, which is ok whatever else the
/// records and slots hold; of the first proposer where none is.
pub fn crash_of_alive(lent: &Lent) -> [u64; EVENT] {
    let proposer = lent.proposers.lent().iter().position(|p| p.alive.is_set());
    let acceptor = lent.acceptors.lent().iter().position(|a| a.alive.is_set());
    let learner = lent.learners.lent().iter().position(|l| l.alive.is_set());
    let parties = [
        (PROPOSER, proposer),
        (ACCEPTOR, acceptor),
        (LEARNER, learner),
    ];
    let mut alive = parties
        .iter()
        .filter_map(|(role, at)| at.map(|at| (*role, at)));
    let (role, at) = alive.next().unwrap_or((PROPOSER, 0));
    [CRASH, role, at as u64]
}

/// Any event: within the sizes, of another code, or past them.
pub fn any_event(rng: &mut Rng, sizes: &Sizes, lent: &Lent) -> [u64; EVENT] {
    match rng.below(4) {
        0 => [
            OTHER_CODES[rng.below(OTHER_CODES.len() as u64) as usize],
            0,
            0,
        ],
        1 => [rng.within(RECEIVE, CRASH), u64::MAX, 0],
        _ => drawn_event(rng, sizes, lent),
    }
}

/// Numbers not below the count; most are where their low bits are taken for
/// the number.
fn past(count: u64) -> Vec<u64> {
    let last = count - 1;
    let mut numbers = vec![count, count + 1, u64::MAX, u64::MAX - last];
    for bits in [8, 16, 32, 63] {
        numbers.extend([1 << bits, (1 << bits) + last]);
    }
    numbers.retain(|number| *number >= count);
    numbers
}

/// Events with one argument past the sizes, or not 0 where it must be.
pub fn events_past(sizes: &Sizes) -> Vec<[u64; EVENT]> {
    let p = sizes.proposers.into();
    let mut events = Vec::new();
    events.extend(past(p).into_iter().map(|a| [RECEIVE, a, 0]));
    let scans = past(sizes.scans.into());
    events.extend(scans.into_iter().map(|b| [RECEIVE, p - 1, b]));
    for code in [DELIVER, DROP, DUPLICATE] {
        let slots = past(sizes.slots.into());
        events.extend(slots.into_iter().map(|a| [code, a, 0]));
        events.extend(NOT_ZERO.map(|b| [code, 0, b]));
    }
    for code in [PROPOSE, REFINE, DECIDE] {
        events.extend(past(p).into_iter().map(|a| [code, a, 0]));
        events.extend(NOT_ZERO.map(|b| [code, 0, b]));
    }
    events.push([CRASH, 0, 0]);
    for role in [PROPOSER, ACCEPTOR, LEARNER] {
        events.extend(past(LEARNER + 1).into_iter().map(|a| [CRASH, a, 0]));
        let numbers = past(parties(sizes, role));
        events.extend(numbers.into_iter().map(|b| [CRASH, role, b]));
    }
    events
}
