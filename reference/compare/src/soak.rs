//! Runs both programs over random schedules, steps, files, texts and questions
//! for a time or a count of rounds.
//!
//! `soak 60s` goes on for 60 seconds, `soak 5000` for 5,000 rounds; a second
//! argument is the first round's seed. Each round has a seed of its own, one
//! more than the round before; a mismatch names it.

#![deny(unsafe_code)]

use std::env;
use std::process::ExitCode;
use std::time::{Duration, Instant};

use compare::forms::{self, damage, reading, writing, Form};
use compare::machine::{runs, steps};
use compare::suite::{self, Comparisons};
use reference::generate::{generate, Style, STYLES};
use reference::rng::Rng;
use reference::schedule;

use proved::Proved;

#[allow(dead_code, unsafe_code)]
mod calls;
#[allow(dead_code)]
mod clock;
mod proved;
#[allow(dead_code)]
mod schedules;
#[allow(dead_code)]
mod shelf;
#[allow(dead_code)]
mod tables;

/// The first round's seed where none is given.
const SEED: u64 = 1;

/// How long a round's schedule is; a long one comes once in so many rounds.
const SHORTEST: u64 = 20;
const LONGEST: u64 = 160;
const LONG: u64 = 4_096;
const LONG_ONE_IN: u64 = 64;

/// How many drawn records, damages of a file and clock questions a round has.
const RECORDS: u64 = 4;
const RECORD_EVENTS: u64 = 4;
const DAMAGES: u64 = 8;
const CLOCKS: u64 = 16;

/// No text of a run is longer.
const MOST_TEXT: usize = 163_859;

/// What the place of the text's end holds before a call.
const LENGTH_BEFORE: usize = 0xa5a5_a5a5;

/// When the soak ends.
enum End {
    After(Duration),
    Rounds(u64),
}

impl End {
    /// `60s` is a time, `5000` a count of rounds.
    fn of(argument: &str) -> Option<End> {
        match argument.strip_suffix('s') {
            Some(seconds) => seconds
                .parse()
                .ok()
                .map(Duration::from_secs)
                .map(End::After),
            None => argument.parse().ok().map(End::Rounds),
        }
    }

    fn is_reached(&self, begin: Instant, rounds: u64) -> bool {
        match self {
            End::After(time) => begin.elapsed() >= *time,
            End::Rounds(count) => rounds >= *count,
        }
    }
}

/// What was done so far.
#[derive(Default)]
struct Tally {
    rounds: u64,
    schedules: u64,
    events: u64,
    calls: u64,
    comparisons: u64,
    mismatches: u64,
}

fn main() -> ExitCode {
    let arguments: Vec<String> = env::args().skip(1).collect();
    let end = arguments.first().and_then(|argument| End::of(argument));
    let seed = match arguments.get(1) {
        Some(seed) => seed.parse().ok(),
        None => Some(SEED),
    };
    match (end, seed, arguments.len()) {
        (Some(end), Some(seed), 1 | 2) => soak(&end, seed),
        _ => {
            eprintln!("soak SECONDSs|ROUNDS [SEED]");
            ExitCode::from(2)
        }
    }
}

/// Rounds until the end; a mismatch does not stop them.
fn soak(end: &End, seed: u64) -> ExitCode {
    let begin = Instant::now();
    let mut tally = Tally::default();
    while !end.is_reached(begin, tally.rounds) {
        let seed = seed.wrapping_add(tally.rounds);
        if let Err(difference) = round(&mut tally, &mut Rng::new(seed)) {
            tally.mismatches += 1;
            println!("seed {seed} (tools/soak 1 {seed} repeats it): {difference}");
        }
        tally.rounds += 1;
    }
    let Tally {
        rounds,
        schedules,
        events,
        calls,
        comparisons,
        mismatches,
    } = tally;
    println!(
        "seed {seed}, {rounds} rounds: {schedules} schedules, {events} events, {calls} calls, \
         {comparisons} comparisons, {mismatches} mismatches"
    );
    match mismatches {
        0 => ExitCode::SUCCESS,
        _ => ExitCode::FAILURE,
    }
}

/// One round: a schedule, its text, steps on drawn records, both file forms,
/// questions about a table, clock questions.
fn round(tally: &mut Tally, rng: &mut Rng) -> Result<(), String> {
    let mut comparisons = Comparisons::new();
    schedule(tally, &mut comparisons, rng)?;
    text(tally, &mut comparisons, rng)?;
    tally.comparisons += steps::within::records::<Proved>(rng, RECORDS)?;
    tally.events += RECORDS * RECORD_EVENTS;
    tally.calls += RECORDS * RECORD_EVENTS;
    files::<tables::Table>(tally, &mut comparisons, rng)?;
    files::<schedules::Schedule>(tally, &mut comparisons, rng)?;
    tally.calls += shelf::random::table_questions(&mut comparisons, rng)?;
    for _ in 0..CLOCKS {
        clock::random_scan(&mut comparisons, rng)?;
    }
    tally.calls += CLOCKS;
    tally.comparisons += comparisons.made()?;
    Ok(())
}

fn drawn_style(rng: &mut Rng) -> Style {
    STYLES[rng.below(STYLES.len() as u64) as usize].1
}

fn drawn_length(rng: &mut Rng) -> usize {
    match rng.one_in(LONG_ONE_IN) {
        true => LONG as usize,
        false => rng.within(SHORTEST, LONGEST) as usize,
    }
}

/// A schedule from fresh, event by event and by one call: answers, log, every
/// record and slot.
fn schedule(tally: &mut Tally, comparisons: &mut Comparisons, rng: &mut Rng) -> Result<(), String> {
    let style = drawn_style(rng);
    let length = drawn_length(rng);
    runs::schedule::<Proved>(comparisons, rng, style, length)?;
    tally.schedules += 1;
    tally.events += length as u64;
    // Fresh twice, once for each event, once for all.
    tally.calls += length as u64 + 3;
    Ok(())
}

/// The text of a schedule, and of damaged ones.
fn text(tally: &mut Tally, comparisons: &mut Comparisons, rng: &mut Rng) -> Result<(), String> {
    let style = drawn_style(rng);
    let length = rng.within(SHORTEST, LONGEST) as usize;
    let (sizes, events) = generate(rng, style, length);
    let mut bytes = vec![0; schedule::LONGEST];
    let end = schedule::write(&sizes, &events, &mut bytes)
        .map_err(|refusal| format!("writing a drawn schedule is refused {refusal}"))?;
    bytes.truncate(end);
    same_text(comparisons, rng, &bytes)?;
    tally.schedules += 1;
    tally.events += length as u64;
    let damaged = damage::damaged(rng, &bytes);
    same_text(comparisons, rng, &damaged)?;
    tally.calls += 2;
    Ok(())
}

/// Both programs print the same for these bytes, into a buffer that is long
/// enough or, once in eight times, of any length.
fn same_text(comparisons: &mut Comparisons, rng: &mut Rng, bytes: &[u8]) -> Result<(), String> {
    let length = match rng.one_in(8) {
        true => rng.below(4_000) as usize,
        false => 40 * bytes.len() + 19,
    };
    let mut proved = vec![0xa5; length.min(MOST_TEXT)];
    let mut second = proved.clone();
    let mut lengths = [LENGTH_BEFORE; 2];
    let answer = calls::run_text(&mut proved, bytes, &mut lengths[0]);
    let given = reference::calls::run_text(&mut second, bytes, &mut lengths[1]);
    comparisons.same(
        format_args!("run_text, {}", forms::shown::Bytes(bytes)),
        (answer, lengths[0], proved),
        (given.err().unwrap_or(0), lengths[1], second),
    )
}

/// A form written and read back, and its file damaged.
fn files<F: Form>(
    tally: &mut Tally,
    comparisons: &mut Comparisons,
    rng: &mut Rng,
) -> Result<(), String> {
    let form = F::random(rng);
    writing::compare_both_ways(comparisons, rng, &form)?;
    for _ in 0..DAMAGES {
        let bytes = damage::damaged(rng, &form.file());
        let room = reading::random_room(rng, form.fields().len(), &bytes);
        reading::compare::<F>(comparisons, &bytes, &room)?;
    }
    // Six buffers and six rooms, then the damaged files.
    tally.calls += 12 + DAMAGES;
    Ok(())
}
