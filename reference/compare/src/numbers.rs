//! The number coding: reading, writing and widths.

use reference::numbers::{SCHEDULE_LIMIT, TABLE_LIMIT};
use reference::rng::Rng;

use crate::suite::Tests;

pub mod reading;
mod widths;
mod writing;

pub const TESTS: Tests = &[
    ("read_empty_input", reading::empty_input),
    ("read_one_byte_inputs", reading::one_byte_inputs),
    ("read_two_byte_inputs", reading::two_byte_inputs),
    ("read_three_byte_inputs", reading::three_byte_inputs),
    ("read_edge_bytes", reading::edge_bytes),
    ("read_random_inputs", reading::random_inputs),
    ("read_other_limits", reading::other_limits),
    ("write_edges", writing::edges),
    ("write_random_values", writing::random_values),
    ("write_other_limits", writing::other_limits),
    ("width_edges", widths::edges),
    ("width_random_values", widths::random_values),
];

/// A limit: the call's argument for it and the greatest number within it.
#[derive(Clone, Copy)]
pub struct Limit {
    pub argument: u32,
    pub greatest: u64,
}

pub const SCHEDULE: Limit = Limit {
    argument: 0,
    greatest: SCHEDULE_LIMIT,
};

const TABLE: Limit = Limit {
    argument: 1,
    greatest: TABLE_LIMIT,
};

pub const LIMITS: [Limit; 2] = [SCHEDULE, TABLE];

/// Arguments above 1; each means the table's limit.
const OTHER_ARGUMENTS: [u32; 6] = [2, 255, 256, 65_536, 1 << 31, u32::MAX];

/// The table's limit by its other arguments.
fn table_by_other_arguments() -> impl Iterator<Item = Limit> {
    OTHER_ARGUMENTS.iter().map(|argument| Limit {
        argument: *argument,
        ..TABLE
    })
}

/// What a cell holds before a call; no place or value that a call may give.
const VALUE_BEFORE: u64 = 0xa5c3_9617_e4d2_b80f;
const NEXT_BEFORE: usize = 0xa5a5_a5a5;

/// A cell after a call: none where it holds what it held before.
fn changed<T: PartialEq>(cell: T, before: T) -> Option<T> {
    if cell == before {
        None
    } else {
        Some(cell)
    }
}

/// The values around every edge of a group, around both limits and at both
/// ends of the range.
fn edge_values() -> Vec<u64> {
    let mut values = vec![0, 1, 2, 63, 64, 65, 1 << 63, u64::MAX - 1, u64::MAX];
    for groups in 1..=9 {
        let least = 1 << (7 * groups);
        values.extend([least - 2, least - 1, least, least + 1]);
    }
    for greatest in [SCHEDULE_LIMIT, TABLE_LIMIT] {
        values.extend([greatest - 1, greatest, greatest + 1, greatest + 2]);
    }
    values.sort_unstable();
    values.dedup();
    values
}

/// A value of a random count of bits.
fn random_value(rng: &mut Rng) -> u64 {
    let dropped = rng.below(64);
    rng.draw() >> dropped
}
