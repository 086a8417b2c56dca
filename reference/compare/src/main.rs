//! Compares the proved functions with the second program.
//!
//! Each suite prints how many comparisons it made, each failed test its first
//! difference. The last line counts the tests passed and failed.

#![deny(unsafe_code)]

use std::panic::catch_unwind;
use std::process::ExitCode;

use compare::forms;
use compare::machine::Suites;
use compare::printed;
use compare::suite::{self, Outcome, Test, Tests};
use reference::rng::Rng;

use proved::Proved;

#[allow(unsafe_code)]
mod calls;
mod clock;
mod examples;
mod numbers;
mod proved;
mod schedules;
mod sets;
mod shelf;
mod tables;

/// The seed of every test's generator.
const SEED: u64 = 0x5ca9_7ab1_e0d0_c001;

/// The suites, by name.
const SUITES: &[(&str, Tests)] = &[
    ("numbers", numbers::TESTS),
    ("sets", sets::TESTS),
    ("clock", clock::TESTS),
    ("tables", tables::TESTS),
    ("schedules", schedules::TESTS),
    ("shelf", shelf::TESTS),
    ("examples", examples::TESTS),
    ("machine, runs", Suites::<Proved>::RUNS),
    ("machine, steps", Suites::<Proved>::STEPS),
    ("machine, fresh", Suites::<Proved>::FRESH),
    ("printed text", printed::Suite::<Proved>::TESTS),
];

/// Counts over tests.
#[derive(Default)]
struct Totals {
    comparisons: u64,
    passed: u64,
    failed: u64,
}

fn main() -> ExitCode {
    println!("seed {SEED:#018x}");
    let mut passed = 0;
    let mut failed = 0;
    for (name, tests) in SUITES {
        let totals = run_suite(name, tests);
        println!("{name}: {} comparisons", totals.comparisons);
        passed += totals.passed;
        failed += totals.failed;
    }
    println!("{passed} passed, {failed} failed");
    if failed == 0 {
        ExitCode::SUCCESS
    } else {
        ExitCode::FAILURE
    }
}

/// Runs every test of a suite and prints the difference of each that fails.
fn run_suite(name: &str, tests: Tests) -> Totals {
    let mut totals = Totals::default();
    for (test_name, test) in tests {
        match run_test(*test) {
            Ok(comparisons) => {
                totals.comparisons += comparisons;
                totals.passed += 1;
            }
            Err(difference) => {
                println!("{name}, {test_name}, seed {SEED:#018x}: {difference}");
                totals.failed += 1;
            }
        }
    }
    totals
}

/// Runs a test. One that panics or compares nothing fails.
fn run_test(test: Test) -> Outcome {
    match catch_unwind(|| test(&mut Rng::new(SEED))) {
        Ok(Ok(0)) => Err("nothing was compared".to_string()),
        Ok(outcome) => outcome,
        Err(_) => Err("the test panicked".to_string()),
    }
}
