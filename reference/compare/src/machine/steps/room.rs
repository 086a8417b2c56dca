//! Refusals 3 and 8 of the call: too many events, and too few numbers of events
//! or too little log.

use reference::refusal::{NO_ROOM, OUTSIDE_SIZES};
use reference::rng::Rng;

use super::events::drawn_event;
use super::{compare, compare_refused, Call};
use crate::machine::drawn::Within;
use crate::machine::lent::Lent;
use crate::machine::sizes::SIZES;
use crate::machine::{Machine, EVENT, LOG};
use crate::suite::{Comparisons, Outcome};

/// Counts of events, some above 4,096, and some of those more than 16 bits are
/// needed for three or two numbers each of.
const COUNTS: [u16; 16] = [
    0, 1, 2, 3, 40, 4_095, 4_096, 4_097, 5_000, 8_192, 21_845, 21_846, 32_767, 32_768, 43_691,
    65_535,
];

/// The most events that a run may have.
const MOST: u16 = 4_096;

/// Fewer numbers of events, or fewer numbers of log, than the count asks for:
/// 8. With as many or more, the first events are done. A count above 4,096
/// gives 3, whatever the lengths.
pub fn of_events_and_log<M: Machine>(rng: &mut Rng) -> Outcome {
    let mut comparisons = Comparisons::new();
    let sizes = SIZES[1];
    for n in COUNTS {
        let (events, log) = (EVENT * usize::from(n), LOG * usize::from(n));
        let base = Within::new(rng, &sizes).lent(rng);
        let numbers: Vec<u64> = (0..=events / EVENT)
            .flat_map(|_| drawn_event(rng, &sizes, &base))
            .collect();
        for events in [events, events + 1, events + EVENT] {
            for log in [log, log + 1, log + LOG] {
                let call = Call {
                    sizes,
                    events: &numbers[..events],
                    log,
                    n,
                };
                if n > MOST {
                    compare_too_many::<M>(&mut comparisons, &call, &base)?;
                    continue;
                }
                let left = compare::<M>(&mut comparisons, &call, &base)?;
                comparisons.same(format_args!("{call}"), left.answer, 0)?;
            }
        }
        for (events, log) in short(events, log) {
            let call = Call {
                sizes,
                events: &numbers[..events],
                log,
                n,
            };
            if n > MOST {
                compare_too_many::<M>(&mut comparisons, &call, &base)?;
                continue;
            }
            compare_refused::<M>(&mut comparisons, &"room", &call, &base, NO_ROOM, None)?;
        }
    }
    comparisons.made()
}

/// Refused with 3, by the call itself.
fn compare_too_many<M: Machine>(
    comparisons: &mut Comparisons,
    call: &Call,
    lent: &Lent,
) -> Result<(), String> {
    compare_refused::<M>(comparisons, &"count", call, lent, OUTSIDE_SIZES, None)
}

/// Lengths of events and log of which one at least is too short; some are
/// what 16 bits hold of the length.
fn short(events: usize, log: usize) -> Vec<(usize, usize)> {
    let mut lengths = Vec::new();
    for fewer in [1, 2, 65_536, 131_072, events] {
        if let Some(fewer) = events.checked_sub(fewer) {
            lengths.push((fewer, log));
        }
        if let Some(fewer) = log.checked_sub(fewer) {
            lengths.push((events, fewer));
        }
    }
    lengths.push((events.saturating_sub(1), log.saturating_sub(1)));
    lengths.retain(|(fewer, shorter)| *fewer < events || *shorter < log);
    lengths
}
