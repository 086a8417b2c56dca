//! Times whole runs of the greatest sizes on both programs: the functions on
//! the same events, then the two programs as whole processes.
//!
//! Each line is a ratio: the best time of the proved side divided by the best
//! time of the second program, and how far it spreads. Given are the run
//! printer, the second program and a schedule's file, on which whole processes
//! are timed; without them functions alone are.

#![deny(unsafe_code)]

use std::env;
use std::ffi::OsString;
use std::fs;
use std::io;
use std::path::Path;
use std::process::Command;

use reference::generate::{events_on, Style};
use reference::printer;
use reference::rng::Rng;
use reference::schedule::{self, Event, Sizes, GREATEST_E, LONGEST};

use measure::Measured;
use runs::{ProvedRun, SecondRun};

#[allow(dead_code, unsafe_code)]
mod calls;
#[allow(dead_code)]
#[path = "bench_table/measure.rs"]
mod measure;
mod program;
#[allow(dead_code)]
#[path = "bench_table/runs.rs"]
mod runs;

/// The seed of the inputs.
const SEED: u64 = 0x5ca9_7ab1_e0d0_c002;

/// Room for the longest text: 40 bytes for each event, and 19.
const LONGEST_TEXT: usize = 40 * GREATEST_E as usize + 19;

/// The greatest sizes.
const GREATEST: Sizes = Sizes {
    p: 8,
    a: 7,
    l: 8,
    m: 512,
    s: 64,
};

/// What a job gives where its program refuses.
const REFUSED: u64 = u64::MAX;

fn main() -> io::Result<()> {
    let rng = &mut Rng::new(SEED);
    machine_ratios(rng, "contention", Style::Contention);
    machine_ratios(rng, "lossy", Style::Lossy);
    let arguments: Vec<OsString> = env::args_os().skip(1).collect();
    match &arguments[..] {
        [] => Ok(()),
        [proved, second, schedule] => {
            let commands = [program::proved(proved), program::second(second)];
            program_ratios(commands, Path::new(schedule))
        }
        _ => panic!("usage: bench [RUN_PRINTER SECOND_PROGRAM SCHEDULE]"),
    }
}

/// Prints the ratio of two jobs, which give the same number, and its spread.
fn ratio(name: &str, proved: impl FnMut() -> u64, second: impl FnMut() -> u64) {
    println!("{name}: {}", Measured::of(name, proved, second).ratios());
}

/// The longest run on the most slots, from fresh: tested once, and tested at
/// each event.
fn machine_ratios(rng: &mut Rng, name: &str, style: Style) {
    let events = events_on(rng, style, &GREATEST, GREATEST_E as usize);
    let mut proved = ProvedRun::new(&GREATEST, &events);
    let mut second = SecondRun::new(&GREATEST, &events);
    ratio(
        &format!("run, 4,096 events on 512 slots, {name}"),
        || proved.run_at_once(),
        || second.run_at_once(),
    );
    ratio(
        &format!("4,096 single steps on 512 slots, {name}"),
        || proved.run_by_steps(),
        || second.run_by_steps(),
    );
    text_ratio(name, &events);
}

/// The text of the same schedule.
fn text_ratio(name: &str, events: &[Event]) {
    let mut bytes = vec![0; LONGEST];
    let length = schedule::write(&GREATEST, events, &mut bytes).expect("the events are accepted");
    bytes.truncate(length);
    let mut text = vec![0; LONGEST_TEXT];
    let mut printed = 0;
    ratio(
        &format!("text, 4,096 events on 512 slots, {name}"),
        || match calls::run_text(&mut text, &bytes, &mut printed) {
            0 => printed as u64,
            _ => REFUSED,
        },
        || printer::print(&bytes).len() as u64,
    );
}

/// Whole processes on a schedule: the best times, and the peak memory.
fn program_ratios(mut commands: [Command; 2], file: &Path) -> io::Result<()> {
    let mut events = vec![Event::default(); GREATEST_E as usize];
    let (sizes, e) =
        schedule::read(&fs::read(file)?, &mut events).expect("the schedule is accepted");
    let name = format!("whole program, {e} events on {} slots", sizes.m);
    let times = program::best_times(&mut commands, file)?;
    let [proved, second] = times.map(|time| 1_000.0 * time.as_secs_f64());
    println!(
        "{name}: {:.2} ({proved:.2} ms and {second:.2} ms)",
        proved / second
    );
    let [proved, second] = &mut commands;
    println!(
        "{name}, peak memory: {} kB and {} kB",
        program::peak_memory(proved, file)?,
        program::peak_memory(second, file)?
    );
    Ok(())
}
