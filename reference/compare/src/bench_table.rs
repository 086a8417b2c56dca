//! Times the proved calls beside the second program's functions, prints a
//! table of ratios, and writes it as a plot.
//!
//! A ratio is the best time of the proved call divided by the best time of the
//! second program, both on the same input in one process. `bench_table FILE`
//! writes the plot to that file.

#![deny(unsafe_code)]

use std::env;
use std::fs;
use std::process::ExitCode;

use reference::rng::Rng;

use measure::Measured;
use runs::{whole_runs, WholeRun};

#[allow(dead_code, unsafe_code)]
mod calls;
#[path = "bench_table/forms.rs"]
mod forms;
#[path = "bench_table/measure.rs"]
mod measure;
#[path = "bench_table/plot.rs"]
mod plot;
#[path = "bench_table/runs.rs"]
mod runs;
#[path = "bench_table/site.rs"]
mod site;

/// The seed of the inputs.
const SEED: u64 = 0x5ca9_7ab1_e0d0_c002;

/// What a job gives where its program refuses.
const REFUSED: u64 = u64::MAX;

fn main() -> ExitCode {
    let rng = &mut Rng::new(SEED);
    let noise = runs::noise(rng);
    println!("{}", measure::HOW);
    println!(
        "noise, the second program against itself: {}",
        noise.ratios()
    );
    println!();
    let runs = whole_runs(rng);
    print_runs(&runs);
    let mut others = runs::single_steps(rng);
    others.extend(forms::all(rng));
    others.extend(site::all(rng));
    print_others(&others);
    print_growth(&runs);
    match env::args().nth(1) {
        Some(file) => write_plot(&file, &runs, &others, &noise),
        None => ExitCode::SUCCESS,
    }
}

fn print_runs(runs: &[WholeRun]) {
    println!("whole run, {}", runs::SIZES_AND_STYLE);
    println!(
        "{:>4} {:>5} {:>12} {:>12} {:>6} {:>13}",
        "M", "E", "proved us", "second us", "ratio", "spread"
    );
    for run in runs {
        println!(
            "{:>4} {:>5} {:>12.2} {:>12.2} {:>6.2} {:>13}",
            run.m,
            run.e,
            run.measured.proved_us(),
            run.measured.second_us(),
            run.measured.ratio(),
            run.measured.spread()
        );
    }
    println!();
}

fn print_others(others: &[(String, Measured)]) {
    println!("{:<44} {:>6} {:>13}", "call", "ratio", "spread");
    for (name, measured) in others {
        println!(
            "{name:<44} {:>6.2} {:>13}",
            measured.ratio(),
            measured.spread()
        );
    }
    println!();
}

/// How the time of a whole run grows with E and with M.
fn print_growth(runs: &[WholeRun]) {
    println!("growth of a whole run's time, proved and second program");
    for m in runs::SLOTS {
        for pair in runs::EVENTS.windows(2) {
            print_step(runs, [m, pair[0]], [m, pair[1]]);
        }
    }
    for e in runs::EVENTS {
        for pair in runs::SLOTS.windows(2) {
            print_step(runs, [pair[0], e], [pair[1], e]);
        }
    }
}

/// By how much the time grows from one M and E to another.
fn print_step(runs: &[WholeRun], from: [usize; 2], to: [usize; 2]) {
    let find = |[m, e]: [usize; 2]| runs.iter().find(|run| run.m == m && run.e == e);
    if let (Some(less), Some(more)) = (find(from), find(to)) {
        println!(
            "M {:>3} to {:>3}, E {:>4} to {:>4}: {:>6.2} and {:>6.2} times",
            from[0],
            to[0],
            from[1],
            to[1],
            more.measured.proved_us() / less.measured.proved_us(),
            more.measured.second_us() / less.measured.second_us()
        );
    }
}

fn write_plot(
    file: &str,
    runs: &[WholeRun],
    others: &[(String, Measured)],
    noise: &Measured,
) -> ExitCode {
    match fs::write(file, plot::svg(runs, others, noise)) {
        Ok(()) => ExitCode::SUCCESS,
        Err(error) => {
            eprintln!("{file}: {error}");
            ExitCode::FAILURE
        }
    }
}
