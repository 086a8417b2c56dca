//! Refusals 2 and 3: other codes, and arguments past the sizes.

use reference::refusal::{OUTSIDE_SIZES, UNKNOWN_CODE};
use reference::rng::Rng;

use super::events::{events_past, OTHER_CODES};
use super::{compare_refused, Call, REPEATS};
use crate::machine::drawn::Within;
use crate::machine::sizes::SIZES;
use crate::machine::Machine;
use crate::suite::{Comparisons, Outcome};

/// Codes that are no event's: 2, whatever the arguments.
pub fn codes<M: Machine>(rng: &mut Rng) -> Outcome {
    let mut comparisons = Comparisons::new();
    for sizes in SIZES {
        for code in OTHER_CODES {
            for argument in [0, 1, 65_536, u64::MAX] {
                let lent = Within::new(rng, &sizes).lent(rng);
                let event = [code, argument, argument];
                let call = Call::one(sizes, &event);
                let said = Some(UNKNOWN_CODE);
                compare_refused::<M>(&mut comparisons, &"code", &call, &lent, 0, said)?;
            }
        }
    }
    comparisons.made()
}

/// One argument past the sizes: 3, before the records are looked at.
pub fn arguments<M: Machine>(rng: &mut Rng) -> Outcome {
    let mut comparisons = Comparisons::new();
    for sizes in SIZES {
        for event in events_past(&sizes) {
            for _ in 0..REPEATS {
                let lent = Within::new(rng, &sizes).lent(rng);
                let call = Call::one(sizes, &event);
                let said = Some(OUTSIDE_SIZES);
                compare_refused::<M>(&mut comparisons, &"argument", &call, &lent, 0, said)?;
            }
        }
    }
    comparisons.made()
}
