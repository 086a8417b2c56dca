//! Refusal 1: fields, lengths and sizes outside their ranges, before all else.

use std::fmt::Display;

use reference::refusal::UNKNOWN_CODE;
use reference::rng::Rng;

use super::events::{any_event, crash_of_alive};
use super::{compare_out_of_range, compare_refused, Call, REPEATS};
use crate::machine::drawn::Within;
use crate::machine::fields;
use crate::machine::form::Sizes;
use crate::machine::lent::Lent;
use crate::machine::sizes::{sizes_outside, SIZES};
use crate::machine::{Machine, EVENT};
use crate::suite::{Comparisons, Outcome};

/// A call that would be ok, or be refused for another reason than 1.
fn any_call<'a>(rng: &mut Rng, sizes: Sizes, event: &'a [u64; EVENT]) -> Call<'a> {
    let call = Call::one(sizes, event);
    match rng.below(8) {
        0 => Call { n: 0, ..call },
        1 => Call { n: 2, ..call },
        2 => Call { log: 1, ..call },
        3 => Call {
            events: &event[..2],
            ..call
        },
        4 => Call { n: 4_097, ..call },
        _ => call,
    }
}

/// The lent records are refused 1 by any call, and by a call that would be ok
/// and change a record if they were not.
fn compare_any_call<M: Machine>(
    comparisons: &mut Comparisons,
    rng: &mut Rng,
    name: &dyn Display,
    sizes: Sizes,
    event: &[u64; EVENT],
    lent: &Lent,
) -> Result<(), String> {
    let call = any_call(rng, sizes, event);
    compare_out_of_range::<M>(comparisons, name, &call, lent)?;
    let crash = crash_of_alive(lent);
    compare_out_of_range::<M>(comparisons, name, &Call::one(sizes, &crash), lent)
}

/// Every field of every record and slot past its range: 1, before all else.
pub fn fields_past<M: Machine>(rng: &mut Rng) -> Outcome {
    let mut comparisons = Comparisons::new();
    for sizes in SIZES {
        let base = Within::new(rng, &sizes).lent(rng);
        for change in fields::past(&sizes) {
            let mut lent = base.clone();
            change.make(&mut lent);
            let event = any_event(rng, &sizes, &base);
            compare_any_call::<M>(&mut comparisons, rng, &change.name, sizes, &event, &lent)?;
        }
    }
    comparisons.made()
}

/// Every field of every record and slot at the ends of its range is not 1: a
/// code that is no event's gives 2.
pub fn fields_at_limits<M: Machine>(rng: &mut Rng) -> Outcome {
    let mut comparisons = Comparisons::new();
    for sizes in SIZES {
        let base = Within::new(rng, &sizes).lent(rng);
        for change in fields::at_limits(&sizes) {
            let mut lent = base.clone();
            change.make(&mut lent);
            let event = [9, 0, 0];
            let call = Call::one(sizes, &event);
            compare_refused::<M>(
                &mut comparisons,
                &change.name,
                &call,
                &lent,
                0,
                Some(UNKNOWN_CODE),
            )?;
        }
    }
    comparisons.made()
}

/// A place more or less than the sizes say: 1.
pub fn lengths<M: Machine>(rng: &mut Rng) -> Outcome {
    let mut comparisons = Comparisons::new();
    for sizes in SIZES {
        for _ in 0..REPEATS {
            let base = Within::new(rng, &sizes).lent(rng);
            for (name, lent) in base.other_lengths() {
                let event = any_event(rng, &sizes, &base);
                compare_any_call::<M>(&mut comparisons, rng, &name, sizes, &event, &lent)?;
            }
        }
    }
    comparisons.made()
}

/// A size outside its range, with as many records and slots as it says: 1.
pub fn sizes<M: Machine>(rng: &mut Rng) -> Outcome {
    let mut comparisons = Comparisons::new();
    for sizes in sizes_outside() {
        let lent = Lent::fresh(&sizes);
        for _ in 0..REPEATS {
            let code = rng.within(0, 9);
            let event = [code, rng.below(2), rng.below(2)];
            compare_any_call::<M>(&mut comparisons, rng, &"sizes", sizes, &event, &lent)?;
        }
    }
    comparisons.made()
}
