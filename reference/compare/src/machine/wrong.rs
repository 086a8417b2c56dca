//! Wrong machines: the second program with one thing changed, in the archive's
//! place. Each is noticed by the test that stands beside it; what tells it
//! apart, `told` says. The second program itself passes.

use std::cell::Cell;

use super::form::Sizes;
use super::lent::Lent;
use super::second::Second;
use super::{Machine, Suites, EVENT, LOG};
use crate::suite::{Test, Tests};

/// Machines that are the second program but in doing events, each with the
/// suite and the test that notices it.
macro_rules! wrong_run {
    ($($(#[doc = $meaning:literal])* $name:ident, $suite:ident, $test:literal:
        |$sizes:ident, $lent:ident, $events:ident, $log:ident, $n:ident| $body:expr;)*) => {
        pub const LIST: &[$crate::machine::wrong::Wrong] = &[$(
            $crate::machine::wrong::Wrong {
                name: stringify!($name),
                meaning: concat!($($meaning),*),
                calls: $crate::machine::wrong::Calls {
                    run: |$sizes, $lent, $events, $log, $n| $body,
                    ..$crate::machine::wrong::Calls::TRUE
                },
                noticed_by: ($crate::machine::wrong::$suite, $test),
            },
        )*];
    };
}

#[macro_use]
mod spoilt;

mod acceptors;
mod crashes;
mod faults;
mod fresh;
mod learning;
mod limits;
mod logs;
mod order;
mod proposers;
mod ranges;
mod runs;
mod same;
mod sending;
mod sizes;
mod steps;
pub mod told;
mod untested;

/// Changes that leave the machine as document 01 has it, for every input.
pub use same::LIST as SAME;

/// A machine's call that makes a run fresh.
type Fresh = fn(Sizes, &mut Lent) -> u8;

/// A machine's call that does events.
type Run = fn(Sizes, &mut Lent, &[u64], &mut [u64], u16) -> u8;

/// A machine's call that does one event, of its call that does events.
type Step = fn(Run, Sizes, &mut Lent, [u64; EVENT]) -> [u64; LOG];

/// One event by the call that does events.
fn by_run(run: Run, sizes: Sizes, lent: &mut Lent, event: [u64; EVENT]) -> [u64; LOG] {
    let mut log = [0; LOG];
    match run(sizes, lent, &event, &mut log, 1) {
        0 => log,
        refusal => [refusal.into(), 0],
    }
}

/// The calls of a machine.
#[derive(Clone, Copy)]
struct Calls {
    fresh: Fresh,
    run: Run,
    step: Step,
}

impl Calls {
    /// The second program's.
    const TRUE: Calls = Calls {
        fresh: Second::fresh,
        run: Second::run,
        step: by_run,
    };
}

/// A wrong machine.
pub struct Wrong {
    pub name: &'static str,
    /// What it does.
    pub meaning: &'static str,
    calls: Calls,
    /// The suite and the test that notice it.
    noticed_by: (Tests, &'static str),
}

impl Wrong {
    /// The test that stands beside the machine.
    fn test(&self) -> Test {
        let (suite, name) = self.noticed_by;
        let found = suite.iter().find(|(known, _)| *known == name);
        found.expect("the suite has a test of the name").1
    }

    /// Whether that test draws schedules from fresh or records.
    fn is_noticed_by_draws(&self) -> bool {
        let (_, name) = self.noticed_by;
        name == "drawn_records" || RUNS.iter().any(|(known, _)| *known == name)
    }
}

/// All wrong machines that do something else than document 01 says.
pub fn all() -> impl Iterator<Item = &'static Wrong> {
    let lists = [
        faults::LIST,
        proposers::LIST,
        acceptors::LIST,
        learning::LIST,
        crashes::LIST,
        sending::LIST,
        order::LIST,
        logs::LIST,
        runs::LIST,
        steps::LIST,
        ranges::LIST,
        limits::LIST,
        sizes::LIST,
        fresh::LIST,
    ];
    lists.into_iter().flatten()
}

/// What is seen of the machine in the archive's place; the rest is the second
/// program's.
#[derive(Clone, Copy)]
enum Seen {
    All,
    /// Answers and logs, not the records and slots that calls leave.
    Answers,
    /// Records and slots, not answers and logs.
    Records,
}

thread_local! {
    static IN_PLACE: Cell<(Calls, Seen)> = const { Cell::new((Calls::TRUE, Seen::All)) };
}

/// The machine that this thread put into the archive's place.
struct InPlace;

impl InPlace {
    fn put(wrong: &Wrong, seen: Seen) {
        IN_PLACE.with(|place| place.set((wrong.calls, seen)));
    }
}

impl Machine for InPlace {
    fn fresh(sizes: Sizes, lent: &mut Lent) -> u8 {
        let (calls, seen) = IN_PLACE.with(Cell::get);
        let mut truly = lent.clone();
        match seen {
            Seen::All => (calls.fresh)(sizes, lent),
            Seen::Answers => {
                let answer = (calls.fresh)(sizes, &mut truly);
                Second::fresh(sizes, lent);
                answer
            }
            Seen::Records => {
                (calls.fresh)(sizes, lent);
                Second::fresh(sizes, &mut truly)
            }
        }
    }

    fn step(sizes: Sizes, lent: &mut Lent, event: [u64; EVENT]) -> [u64; LOG] {
        let (calls, seen) = IN_PLACE.with(Cell::get);
        let mut other = lent.clone();
        match seen {
            Seen::All => (calls.step)(calls.run, sizes, lent, event),
            Seen::Answers => {
                Second::step(sizes, lent, event);
                (calls.step)(calls.run, sizes, &mut other, event)
            }
            Seen::Records => {
                (calls.step)(calls.run, sizes, lent, event);
                Second::step(sizes, &mut other, event)
            }
        }
    }

    fn run(sizes: Sizes, lent: &mut Lent, events: &[u64], log: &mut [u64], n: u16) -> u8 {
        let (calls, seen) = IN_PLACE.with(Cell::get);
        match seen {
            Seen::All => (calls.run)(sizes, lent, events, log, n),
            Seen::Answers => {
                let mut hidden = lent.clone();
                Second::run(sizes, lent, events, &mut log.to_vec(), n);
                (calls.run)(sizes, &mut hidden, events, log, n)
            }
            Seen::Records => {
                let mut truly = lent.clone();
                (calls.run)(sizes, lent, events, &mut log.to_vec(), n);
                Second::run(sizes, &mut truly, events, log, n)
            }
        }
    }
}

/// The suites of the machine in the archive's place.
const RUNS: Tests = Suites::<InPlace>::RUNS;
const STEPS: Tests = Suites::<InPlace>::STEPS;
const FRESH: Tests = Suites::<InPlace>::FRESH;

#[cfg(test)]
mod tests {
    use reference::rng::Rng;

    use super::*;

    #[test]
    fn every_wrong_machine_is_noticed_by_its_test() {
        for wrong in all() {
            InPlace::put(wrong, Seen::All);
            assert!(wrong.test()(&mut Rng::new(41)).is_err(), "{}", wrong.name);
        }
    }

    #[test]
    fn names_are_distinct() {
        let mut names: Vec<&str> = all().map(|wrong| wrong.name).collect();
        names.extend(SAME.iter().map(|wrong| wrong.name));
        names.sort_unstable();
        let count = names.len();
        names.dedup();
        assert_eq!(names.len(), count);
    }

    #[test]
    fn the_second_program_passes_runs() {
        for (name, test) in Suites::<Second>::RUNS {
            let comparisons =
                test(&mut Rng::new(42)).unwrap_or_else(|error| panic!("{name}: {error}"));
            println!("{name}: {comparisons} comparisons");
        }
    }

    #[test]
    fn the_second_program_passes_steps_and_fresh() {
        for suite in [Suites::<Second>::STEPS, Suites::<Second>::FRESH] {
            for (name, test) in suite {
                let comparisons =
                    test(&mut Rng::new(43)).unwrap_or_else(|error| panic!("{name}: {error}"));
                println!("{name}: {comparisons} comparisons");
                assert!(comparisons > 0);
            }
        }
    }
}
