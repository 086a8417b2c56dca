//! The document's examples at the edges, executed on both programs and
//! compared with the document's answers.

use compare::machine::form::Sizes;
use compare::machine::lent::Lent;
use compare::machine::second::Second;
use compare::machine::Machine;
use reference::rng::Rng;
use reference::sets::acceptors;

use crate::calls;
use crate::clock::{self, ScanTime};
use crate::numbers::reading::{self, Reading};
use crate::numbers::{Limit, LIMITS, SCHEDULE};
use crate::proved::Proved;
use crate::suite::{Comparisons, Outcome, Tests};

pub const TESTS: Tests = &[
    ("majorities", majorities),
    ("age_past_the_wrap", age_past_the_wrap),
    ("age_above_the_dock_time", age_above_the_dock_time),
    ("last_group_of_zero", last_group_of_zero),
    ("greatest_schedule_number", greatest_schedule_number),
    ("above_the_schedule_limit", above_the_schedule_limit),
    ("input_ends_in_a_number", input_ends_in_a_number),
    ("last_scan_and_one_past_it", last_scan_and_one_past_it),
    ("fifteen_slots", fifteen_slots),
];

/// A = 1, 2, 3, 7: majority 1, 2, 2, 4. A set of so many acceptors is a
/// majority exactly from that size on.
fn majorities(_: &mut Rng) -> Outcome {
    let mut comparisons = Comparisons::new();
    for (count, majority) in [(1, 1), (2, 2), (3, 2), (7, 4)] {
        for size in 0..=7 {
            let set = (1u8 << size) - 1;
            comparisons.stated(
                format_args!("acceptors_majority, {size} acceptors {set:#04x} of {count}"),
                calls::acceptors_majority(set, count),
                u32::from(acceptors::is_majority(u32::from(set), count)),
                u32::from(size >= majority),
            )?;
        }
    }
    comparisons.made()
}

/// Dock tick 5, scan tick 4,294,967,290, dock time 1,000: 989.
fn age_past_the_wrap(_: &mut Rng) -> Outcome {
    let stated = ScanTime {
        answer: 0,
        time: Some(989),
    };
    scan_time_example(5, 4_294_967_290, 1_000, stated)
}

/// The same ticks, dock time 10: 9.
fn age_above_the_dock_time(_: &mut Rng) -> Outcome {
    let stated = ScanTime {
        answer: 9,
        time: None,
    };
    scan_time_example(5, 4_294_967_290, 10, stated)
}

/// Bytes 80 00: 12.
fn last_group_of_zero(_: &mut Rng) -> Outcome {
    reading_example(&[0x80, 0x00], &LIMITS, Reading::refused(12))
}

/// Bytes FF FF 03: 65,535.
fn greatest_schedule_number(_: &mut Rng) -> Outcome {
    reading_example(&[0xff, 0xff, 0x03], &LIMITS, Reading::number(65_535, 3))
}

/// Bytes FF FF 04: 12.
fn above_the_schedule_limit(_: &mut Rng) -> Outcome {
    reading_example(&[0xff, 0xff, 0x04], &[SCHEDULE], Reading::refused(12))
}

/// Byte 80 alone: 11.
fn input_ends_in_a_number(_: &mut Rng) -> Outcome {
    reading_example(&[0x80], &LIMITS, Reading::refused(11))
}

/// S = 64, Receive scan 63: ok; 64: 3.
fn last_scan_and_one_past_it(_: &mut Rng) -> Outcome {
    let mut comparisons = Comparisons::new();
    for (scan, stated) in [(63, 0), (64, 3)] {
        comparisons.stated(
            format_args!("Receive of scan {scan}"),
            received::<Proved>(scan),
            received::<Second>(scan),
            stated,
        )?;
    }
    comparisons.made()
}

/// M = 15: 1.
fn fifteen_slots(_: &mut Rng) -> Outcome {
    let mut comparisons = Comparisons::new();
    let sizes = Sizes {
        slots: 15,
        ..ONE_OF_EACH
    };
    comparisons.stated(
        format_args!("fresh, M = 15"),
        Proved::fresh(sizes, &mut Lent::fresh(&sizes)),
        Second::fresh(sizes, &mut Lent::fresh(&sizes)),
        1,
    )?;
    comparisons.made()
}

/// One party of each role, and 64 scans.
const ONE_OF_EACH: Sizes = Sizes {
    proposers: 1,
    acceptors: 1,
    learners: 1,
    slots: 16,
    scans: 64,
};

/// What Receive of a scan answers on fresh records.
fn received<M: Machine>(scan: u64) -> u64 {
    let mut log = [0; 2];
    let mut lent = Lent::fresh(&ONE_OF_EACH);
    M::run(ONE_OF_EACH, &mut lent, &[1, 0, scan], &mut log, 1);
    log[0]
}

fn scan_time_example(dock: u32, scan: u32, time: u64, stated: ScanTime) -> Outcome {
    let mut comparisons = Comparisons::new();
    comparisons.stated(
        format_args!("scan_time, dock tick {dock}, scan tick {scan}, dock time {time}"),
        clock::proved(dock, scan, time),
        clock::second(dock, scan, time),
        stated,
    )?;
    comparisons.made()
}

fn reading_example(bytes: &[u8], limits: &[Limit], stated: Reading) -> Outcome {
    let mut comparisons = Comparisons::new();
    for limit in limits {
        comparisons.stated(
            format_args!(
                "read_number, bytes {bytes:02x?}, at 0, limit {}",
                limit.argument
            ),
            reading::proved(bytes, 0, *limit),
            reading::second(bytes, 0, *limit),
            stated,
        )?;
    }
    comparisons.made()
}
