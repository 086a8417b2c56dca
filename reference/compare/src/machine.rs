//! The machine: what is compared of any machine behind the proved calls' form.

use std::marker::PhantomData;

use crate::suite::Tests;
use form::Sizes;
use lent::Lent;

pub mod drawn;
mod fields;
pub mod form;
mod fresh;
pub mod lent;
pub mod runs;
pub mod second;
mod sizes;
pub mod steps;
pub mod wrong;

/// How many numbers an event has: code, a, b.
pub const EVENT: usize = 3;

/// How many numbers a log has for an event: what was answered, and the set.
pub const LOG: usize = 2;

/// What a log holds before a call; no number that a call may leave there.
const BEFORE: u64 = 0xa5c3_9617_e4d2_b80f;

/// The calls of a machine. Those of a fresh run and of events answer 0 or a
/// refusal's number.
pub trait Machine: 'static {
    /// Makes the lent records those of a fresh run.
    fn fresh(sizes: Sizes, lent: &mut Lent) -> u8;

    /// Does one event on the lent records, and says the two numbers that a log
    /// has for it; 1 where a size, a length or a field is outside its range.
    fn step(sizes: Sizes, lent: &mut Lent, event: [u64; EVENT]) -> [u64; LOG];

    /// Does the first `n` of the events on the lent records and leaves two
    /// numbers of the log for each.
    fn run(sizes: Sizes, lent: &mut Lent, events: &[u64], log: &mut [u64], n: u16) -> u8;
}

/// The suites of a machine.
pub struct Suites<M>(PhantomData<M>);

impl<M: Machine> Suites<M> {
    /// Whole schedules from fresh, in each style.
    pub const RUNS: Tests = &[
        ("calm", runs::calm::<M>),
        ("contention", runs::contention::<M>),
        ("lossy", runs::lossy::<M>),
        ("crashes", runs::crashes::<M>),
        ("full", runs::full::<M>),
        ("edges", runs::edges::<M>),
        ("wild", runs::wild::<M>),
    ];

    /// Single events on lent records.
    pub const STEPS: Tests = &[
        ("numbers_about_1000", steps::numbers::about_1000::<M>),
        ("drawn_records", steps::within::drawn_records::<M>),
        ("fields_past_their_ranges", steps::outside::fields_past::<M>),
        (
            "fields_at_their_limits",
            steps::outside::fields_at_limits::<M>,
        ),
        ("lengths", steps::outside::lengths::<M>),
        ("sizes", steps::outside::sizes::<M>),
        ("codes", steps::refused::codes::<M>),
        ("arguments", steps::refused::arguments::<M>),
        (
            "room_of_events_and_log",
            steps::room::of_events_and_log::<M>,
        ),
    ];

    /// Fresh runs.
    pub const FRESH: Tests = &[
        ("fresh_runs", fresh::runs::<M>),
        ("sizes", fresh::sizes::<M>),
        ("lengths", fresh::lengths::<M>),
    ];
}
