//! The clock rule: the answer and the time. On a refusal the cell keeps what
//! it held.

use reference::clock;
use reference::rng::Rng;

use crate::calls;
use crate::suite::{Comparisons, Outcome, Tests};

pub const TESTS: Tests = &[
    ("edges", edges),
    ("times_about_the_age", times_about_the_age),
    ("random_times", random_times),
];

/// Ticks about both ends and the middle of their range.
const TICKS: [u32; 18] = [
    0,
    1,
    2,
    5,
    10,
    11,
    999,
    1_000,
    65_535,
    65_536,
    (1 << 31) - 1,
    1 << 31,
    (1 << 31) + 1,
    4_294_967_285,
    4_294_967_290,
    4_294_967_291,
    u32::MAX - 1,
    u32::MAX,
];

/// Times about the greatest age and the greatest time, and at both ends of the
/// range.
const TIMES: [u64; 24] = [
    0,
    1,
    5,
    10,
    11,
    12,
    999,
    1_000,
    (1 << 31) - 1,
    1 << 31,
    (1 << 32) - 2,
    (1 << 32) - 1,
    1 << 32,
    (1 << 32) + 1,
    (1 << 47) - 1,
    1 << 47,
    (1 << 48) - 2,
    (1 << 48) - 1,
    1 << 48,
    (1 << 48) + 1,
    (1 << 48) + (1 << 32),
    1 << 63,
    u64::MAX - 1,
    u64::MAX,
];

/// How many random times are compared.
const RANDOM_TIMES: u64 = 1_000_000;

/// What the cell holds before a call; no time that a call may give.
const BEFORE: u64 = 0xa5c3_9617_e4d2_b80f;

/// The answer of the clock rule and what was written to the cell.
#[derive(Clone, Copy, Debug, PartialEq, Eq)]
pub struct ScanTime {
    pub answer: u8,
    pub time: Option<u64>,
}

/// The proved function's answer.
pub fn proved(dock: u32, scan: u32, time: u64) -> ScanTime {
    let mut out = BEFORE;
    let answer = calls::site::clock(dock, scan, time, &mut out);
    ScanTime {
        answer,
        time: if out == BEFORE { None } else { Some(out) },
    }
}

/// The second program's answer.
pub fn second(dock: u32, scan: u32, time: u64) -> ScanTime {
    let given = clock::scan_time(dock, scan, time);
    ScanTime {
        answer: given.err().unwrap_or(0),
        time: given.ok(),
    }
}

fn compare(comparisons: &mut Comparisons, dock: u32, scan: u32, time: u64) -> Result<(), String> {
    comparisons.same(
        format_args!("scan_time, dock tick {dock}, scan tick {scan}, dock time {time}"),
        proved(dock, scan, time),
        second(dock, scan, time),
    )
}

/// All ticks and times in all combinations.
fn edges(_: &mut Rng) -> Outcome {
    let mut comparisons = Comparisons::new();
    for dock in TICKS {
        for scan in TICKS {
            for time in TIMES {
                compare(&mut comparisons, dock, scan, time)?;
            }
        }
    }
    comparisons.made()
}

/// Each pair of ticks with the times about its age, with and without the
/// wrap.
fn times_about_the_age(_: &mut Rng) -> Outcome {
    let mut comparisons = Comparisons::new();
    for dock in TICKS {
        for scan in TICKS {
            for age in [dock.wrapping_sub(scan), scan.wrapping_sub(dock)] {
                let age = u64::from(age);
                for time in [age.saturating_sub(1), age, age + 1] {
                    compare(&mut comparisons, dock, scan, time)?;
                }
            }
        }
    }
    comparisons.made()
}

fn random_times(rng: &mut Rng) -> Outcome {
    let mut comparisons = Comparisons::new();
    for _ in 0..RANDOM_TIMES {
        random_scan(&mut comparisons, rng)?;
    }
    comparisons.made()
}

/// The time of a scan of random ticks.
pub fn random_scan(comparisons: &mut Comparisons, rng: &mut Rng) -> Result<(), String> {
    let dock = random_tick(rng);
    let scan = random_tick(rng);
    let time = random_time(rng);
    compare(comparisons, dock, scan, time)
}

/// A tick, an edge of its range half of the time.
fn random_tick(rng: &mut Rng) -> u32 {
    match rng.one_in(2) {
        true => TICKS[rng.below(TICKS.len() as u64) as usize],
        false => rng.draw() as u32,
    }
}

/// A time as long as an age, of a random count of bits, or about the greatest.
fn random_time(rng: &mut Rng) -> u64 {
    match rng.below(3) {
        0 => rng.below(1 << 33),
        1 => {
            let dropped = rng.below(64);
            rng.draw() >> dropped
        }
        _ => (1 << 48) - 500 + rng.below(1_000),
    }
}
