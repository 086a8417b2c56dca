//! Machines that do events with sizes outside their ranges, or with more or
//! fewer records than the sizes say.

use reference::refusal::OUTSIDE_RANGE;

use super::untested::run_resized;
use crate::machine::form::Sizes;
use crate::machine::lent::Lent;
use crate::machine::second::State;

/// Does the events where the records and slots that there are are within their
/// ranges; how many records are lent is not tested.
fn run_of_any_length(sizes: Sizes, lent: &mut Lent, events: &[u64], log: &mut [u64], n: u16) -> u8 {
    let state = State::of(&sizes, lent);
    match state.test() {
        Err(refusal) => refusal,
        Ok(()) => state.run(lent, events, log, n, State::step),
    }
}

/// Whether as many proposers, acceptors and learners are lent as the sizes say,
/// or more.
fn has_enough(sizes: &Sizes, lent: &Lent) -> bool {
    lent.proposers.lent().len() >= sizes.proposers.into()
        && lent.acceptors.lent().len() >= sizes.acceptors.into()
        && lent.learners.lent().len() >= sizes.learners.into()
}

/// Whether as many proposers, acceptors and learners are lent as the sizes say,
/// or fewer.
fn has_no_more(sizes: &Sizes, lent: &Lent) -> bool {
    lent.proposers.lent().len() <= sizes.proposers.into()
        && lent.acceptors.lent().len() <= sizes.acceptors.into()
        && lent.learners.lent().len() <= sizes.learners.into()
}

wrong_run! {
    /// Takes more records than the sizes say.
    TakesMoreRecords, STEPS, "lengths": |sizes, lent, events, log, n| {
        match has_enough(&sizes, lent) {
            true => run_of_any_length(sizes, lent, events, log, n),
            false => OUTSIDE_RANGE,
        }
    };
    /// Takes fewer records than the sizes say, those that lack as crashed.
    TakesFewerRecords, STEPS, "lengths": |sizes, lent, events, log, n| {
        match has_no_more(&sizes, lent) {
            true => run_of_any_length(sizes, lent, events, log, n),
            false => OUTSIDE_RANGE,
        }
    };
    /// Takes 513 slots.
    TakesMoreSlots, STEPS, "sizes": |sizes, lent, events, log, n| {
        let slots = if sizes.slots == 513 { 512 } else { sizes.slots };
        run_resized(Sizes { slots, ..sizes }, sizes, lent, events, log, n)
    };
    /// Takes 15 slots.
    RunsWithFewerSlots, STEPS, "sizes": |sizes, lent, events, log, n| {
        let slots = if sizes.slots == 15 { 16 } else { sizes.slots };
        run_resized(Sizes { slots, ..sizes }, sizes, lent, events, log, n)
    };
    /// Takes 65 scans.
    RunsWithMoreScans, STEPS, "sizes": |sizes, lent, events, log, n| {
        let scans = if sizes.scans == 65 { 64 } else { sizes.scans };
        run_resized(Sizes { scans, ..sizes }, sizes, lent, events, log, n)
    };
    /// Takes no scan.
    RunsWithNoScan, STEPS, "sizes": |sizes, lent, events, log, n| {
        let scans = sizes.scans.max(1);
        run_resized(Sizes { scans, ..sizes }, sizes, lent, events, log, n)
    };
    /// Takes no proposer.
    RunsWithNoProposer, STEPS, "sizes": |sizes, lent, events, log, n| {
        let proposers = sizes.proposers.max(1);
        run_resized(Sizes { proposers, ..sizes }, sizes, lent, events, log, n)
    };
    /// Takes no acceptor.
    RunsWithNoAcceptor, STEPS, "sizes": |sizes, lent, events, log, n| {
        let acceptors = sizes.acceptors.max(1);
        run_resized(Sizes { acceptors, ..sizes }, sizes, lent, events, log, n)
    };
    /// Takes no learner.
    RunsWithNoLearner, STEPS, "sizes": |sizes, lent, events, log, n| {
        let learners = sizes.learners.max(1);
        run_resized(Sizes { learners, ..sizes }, sizes, lent, events, log, n)
    };
}
