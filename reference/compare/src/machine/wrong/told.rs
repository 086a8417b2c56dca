//! What tells a wrong machine apart from the second program: the printed lines
//! of schedules from fresh, records and slots, answers and logs of any call.

use std::ops::RangeInclusive;

use reference::generate::{generate, STYLES};
use reference::machine::{CRASH, PROPOSE, RECEIVE};
use reference::rng::Rng;

use super::{all, Calls, InPlace, Seen, Wrong, SAME};
use crate::machine::drawn::any_lent;
use crate::machine::form::Sizes;
use crate::machine::sizes::sizes_of;
use crate::machine::{runs, steps, BEFORE, EVENT, LOG};

/// The seed of what is drawn.
const SEED: u64 = 44;

/// How many schedules of each style a machine is looked at with, and how many
/// drawn records.
const SCHEDULES: u64 = 30;
const RECORDS: u64 = 600;

/// How many events a drawn schedule that is printed has.
const EVENTS: usize = 100;

/// The sizes of the stated schedules that are printed.
const STATED: Sizes = sizes_of(2, 3, 2, 17, 4);

/// Their codes, to some past the last, and the arguments that a code is given
/// in every pair: the least, and those at and past the ends of the sizes.
const CODES: RangeInclusive<u64> = 0..=12;
const ARGUMENTS: [u64; 8] = [0, 1, 2, 3, 4, 16, 17, 65_535];

/// Another refusal where the number is 1,000, which no schedule reaches.
///
/// A Refine needs a rejection of the current number, whose set is not contained
/// in proposed, which gains it: of 64 scans there are at most 63 Refines of a
/// proposer. Every other number is a Propose. Each but the first needs, after
/// the one before, something buffered, a proposal and an acknowledgement
/// delivered, and a Decide: 5 events. 937 of them take more than 4,096.
const NUMBER_1000: &str = "another refusal of a number that no schedule reaches";

/// Another refusal of a call, which is made before any event.
const CALL: &str = "another refusal of a call, which no schedule meets";

/// Other numbers in places of the log that no line is printed from.
const LOG_ALONE: &str = "other numbers in the log, which no line is printed from";

/// The machines that print the second program's lines for every schedule and
/// leave its records and slots for every input, since a refusal and a log
/// change none; answers or logs tell them apart. Each is by name, with why.
pub const REST: [(&str, &str); 10] = [
    ("NumberBeforeEnabled", NUMBER_1000),
    ("NumberBeforeCrashed", NUMBER_1000),
    ("RoomBeforeNumber", NUMBER_1000),
    ("LeavesASetWithOk", LOG_ALONE),
    ("LeavesASetWithRefusals", LOG_ALONE),
    ("WritesPastTheLog", LOG_ALONE),
    ("TestsRoomFirst", CALL),
    ("TestsRoomBeforeTheCount", CALL),
    ("TestsTheCountFirst", CALL),
    ("StepsSayOk", CALL),
];

/// What tells a machine apart.
#[derive(Clone, Copy, Debug, PartialEq, Eq)]
pub struct Told {
    /// Lines that the run printer would print.
    pub printed: bool,
    /// Answers and logs, with records and slots out of sight.
    pub answers: bool,
    /// Records and slots, with answers and logs out of sight.
    pub records: bool,
}

impl Told {
    /// What tells this machine apart.
    pub fn of(wrong: &Wrong) -> Told {
        Told {
            printed: prints_otherwise(wrong),
            answers: is_seen(wrong, Seen::Answers),
            records: is_seen(wrong, Seen::Records),
        }
    }

    /// Whether anything does.
    pub fn apart(self) -> bool {
        self.printed || self.answers || self.records
    }

    /// Whether records and slots do, and lines do not.
    fn by_records(self) -> bool {
        self.records && !self.printed
    }

    /// Whether answers and logs do, and neither lines nor records and slots do.
    fn by_answers(self) -> bool {
        self.answers && !self.printed && !self.records
    }
}

/// How many machines there are, and how many of them are told apart by what.
#[derive(Clone, Copy, Debug, Default, PartialEq, Eq)]
pub struct Share {
    pub machines: usize,
    pub apart: usize,
    /// Those that print other lines.
    pub printed: usize,
    /// Those that print the same lines and leave other records or slots.
    pub by_records: usize,
    /// Those that print the same lines, leave the same records and slots, and
    /// answer or log otherwise.
    pub by_answers: usize,
}

impl Share {
    pub fn add(&mut self, told: Told) {
        self.machines += 1;
        self.apart += usize::from(told.apart());
        self.printed += usize::from(told.printed);
        self.by_records += usize::from(told.by_records());
        self.by_answers += usize::from(told.by_answers());
    }
}

/// Every machine, those that do the same at the end, with what tells it apart.
pub fn every() -> impl Iterator<Item = (&'static Wrong, Told)> {
    all().chain(SAME).map(|wrong| (wrong, Told::of(wrong)))
}

/// Whether a test fails that sees this much of the machine: the test beside it
/// where that draws neither schedules nor records, schedules of every style, or
/// drawn records.
fn is_seen(wrong: &Wrong, seen: Seen) -> bool {
    InPlace::put(wrong, seen);
    let rng = &mut Rng::new(SEED);
    (!wrong.is_noticed_by_draws() && wrong.test()(rng).is_err())
        || STYLES
            .iter()
            .any(|(_, style)| runs::schedules::<InPlace>(rng, *style, SCHEDULES).is_err())
        || steps::within::records::<InPlace>(rng, RECORDS).is_err()
}

/// Whether a schedule from fresh has another line than the second program's:
/// a stated one, or a drawn one.
fn prints_otherwise(wrong: &Wrong) -> bool {
    let rng = &mut Rng::new(SEED);
    let mut differs = |sizes: Sizes, events: &[u64]| {
        lines(rng, &wrong.calls, sizes, events) != lines(rng, &Calls::TRUE, sizes, events)
    };
    let stated = [from_fresh(), from_a_full_table()];
    stated.iter().any(|events| differs(STATED, events))
        || STYLES.iter().any(|(_, style)| {
            let drawn = &mut Rng::new(SEED);
            (0..SCHEDULES).any(|_| {
                let (sizes, events) = generate(drawn, *style, EVENTS);
                let numbers: Vec<u64> = events
                    .iter()
                    .flat_map(|event| [event.code, event.a, event.b])
                    .collect();
                differs(Sizes::of(&sizes), &numbers)
            })
        })
}

/// The code with every pair of arguments.
fn every_pair(code: u64) -> impl Iterator<Item = u64> {
    let pairs = ARGUMENTS
        .into_iter()
        .flat_map(|a| ARGUMENTS.map(|b| (a, b)));
    pairs.flat_map(move |(a, b)| [code, a, b])
}

/// Every code with every pair of arguments, and again with all crashed.
fn from_fresh() -> Vec<u64> {
    let codes = CODES.chain(CODES);
    codes.flat_map(every_pair).collect()
}

/// Every code with every pair of arguments, once proposals are in the table,
/// the table is full and all have crashed.
fn from_a_full_table() -> Vec<u64> {
    let mut events = vec![[RECEIVE, 0, 0], [PROPOSE, 0, 0]];
    events.resize(usize::from(STATED.slots), [RECEIVE, 0, 0]);
    let mut numbers = events.concat();
    numbers.extend(every_pair(CRASH));
    numbers.extend(CODES.flat_map(every_pair));
    numbers
}

/// What is printed of each event: ok, a refusal's number, or who learnt or
/// decided which set.
fn lines(rng: &mut Rng, calls: &Calls, sizes: Sizes, events: &[u64]) -> Vec<(u64, Option<u64>)> {
    let count = events.len() / EVENT;
    let mut lent = any_lent(rng, &sizes);
    let mut log = vec![BEFORE; LOG * count];
    (calls.fresh)(sizes, &mut lent);
    (calls.run)(sizes, &mut lent, events, &mut log, count as u16);
    let said = log.chunks_exact(LOG);
    said.map(|said| (said[0], (said[0] >= 256).then_some(said[1])))
        .collect()
}

#[cfg(test)]
mod tests {
    use reference::numbers::SCHEDULE_LIMIT;
    use reference::schedule::GREATEST_E;

    use super::*;

    /// The names of the machines of which this holds, in their order.
    fn names(every: &[(&'static Wrong, Told)], holds: fn(Told) -> bool) -> Vec<&'static str> {
        let of = every.iter().filter(|(_, told)| holds(*told));
        of.map(|(wrong, _)| wrong.name).collect()
    }

    #[test]
    fn the_share_that_is_told_apart() {
        let every: Vec<(&Wrong, Told)> = every().collect();
        let same: Vec<&str> = SAME.iter().map(|wrong| wrong.name).collect();
        assert_eq!(names(&every, |told| !told.apart()), same);
        assert_eq!(
            names(&every, Told::by_answers),
            REST.map(|(name, _)| name).to_vec()
        );
        let mut share = Share::default();
        for (_, told) in every {
            share.add(told);
        }
        assert_eq!(
            share,
            Share {
                machines: 271,
                apart: 267,
                printed: 154,
                by_records: 103,
                by_answers: REST.len(),
            }
        );
    }

    #[test]
    fn the_stated_schedules_are_schedules() {
        for numbers in [from_fresh(), from_a_full_table()] {
            assert!((numbers.len() / EVENT) as u64 <= GREATEST_E);
            assert!(numbers.iter().all(|number| *number <= SCHEDULE_LIMIT));
        }
    }
}
