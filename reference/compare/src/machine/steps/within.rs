//! Events on drawn records within their ranges, whether a run reaches them or
//! not.

use reference::rng::Rng;

use super::events::drawn_event;
use super::{compare, Call};
use crate::machine::drawn::Within;
use crate::machine::sizes::drawn_sizes;
use crate::machine::Machine;
use crate::suite::{Comparisons, Outcome};

/// How many drawn records are compared, and on how many events each.
const DRAWN: u64 = 15_000;
const DRAWN_EVENTS: u64 = 4;

/// A few events on each of the drawn records.
pub fn drawn_records<M: Machine>(rng: &mut Rng) -> Outcome {
    records::<M>(rng, DRAWN)
}

/// A few events on each of so many drawn records.
pub fn records<M: Machine>(rng: &mut Rng, count: u64) -> Outcome {
    let mut comparisons = Comparisons::new();
    for _ in 0..count {
        let sizes = drawn_sizes(rng);
        let mut lent = Within::new(rng, &sizes).lent(rng);
        for _ in 0..DRAWN_EVENTS {
            let event = drawn_event(rng, &sizes, &lent);
            let call = Call::one(sizes, &event);
            lent = compare::<M>(&mut comparisons, &call, &lent)?.lent;
        }
    }
    comparisons.made()
}
