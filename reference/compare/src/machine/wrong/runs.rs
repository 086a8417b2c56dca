//! Machines that take, count or log events wrongly.

use crate::machine::second::Second;
use crate::machine::{Machine, EVENT, LOG};

/// The events with each number cut to so many bits.
fn cut(events: &[u64], bits: u32) -> Vec<u64> {
    let mask = u64::MAX >> (64 - bits);
    events.iter().map(|number| number & mask).collect()
}

wrong_run! {
    /// Does the first event truly and pretends after it.
    PretendsAfterTheFirst, RUNS, "calm": |sizes, lent, events, log, n| {
        let answer = Second::run(sizes, lent, events, log, n.min(1));
        if answer == 0 {
            log[LOG.min(LOG * usize::from(n))..LOG * usize::from(n)].fill(0);
        }
        answer
    };
    /// Does every event that is lent, whatever the count.
    DoesEveryEvent, RUNS, "calm": |sizes, lent, events, log, _n| {
        let all = (events.len() / EVENT).min(log.len() / LOG) as u16;
        let mut more = vec![0; events.len()];
        let answer = Second::run(sizes, lent, events, &mut more, (events.len() / EVENT) as u16);
        let length = log.len().min(LOG * usize::from(all.max(1)));
        log[..length].copy_from_slice(&more[..length]);
        answer
    };
    /// Leaves something in the log past the answers.
    WritesPastTheLog, RUNS, "calm": |sizes, lent, events, log, n| {
        let answer = Second::run(sizes, lent, events, log, n);
        if let Some(past) = log.get_mut(LOG * usize::from(n)) {
            *past = 0;
        }
        answer
    };
    /// Takes the low 8 bits of each number.
    TakesEightBits, STEPS, "arguments": |sizes, lent, events, log, n| {
        Second::run(sizes, lent, &cut(events, 8), log, n)
    };
    /// Takes the low 16 bits of each number.
    TakesSixteenBits, STEPS, "codes": |sizes, lent, events, log, n| {
        Second::run(sizes, lent, &cut(events, 16), log, n)
    };
    /// Takes the low 32 bits of each number.
    TakesThirtyTwoBits, STEPS, "arguments": |sizes, lent, events, log, n| {
        Second::run(sizes, lent, &cut(events, 32), log, n)
    };
    /// Counts the numbers of events in 8 bits, and does the events that are
    /// there.
    CountsInEightBits, STEPS, "room_of_events_and_log": |sizes, lent, events, log, n| {
        let wrapped = usize::from((n as u8).wrapping_mul(EVENT as u8));
        let there = n.min((events.len() / EVENT) as u16);
        match events.len() >= wrapped && log.len() >= LOG * usize::from(n) {
            true => Second::run(sizes, lent, events, log, there),
            false => Second::run(sizes, lent, events, log, n),
        }
    };
    /// Tests the room before the records.
    TestsRoomFirst, STEPS, "fields_past_their_ranges": |sizes, lent, events, log, n| {
        match events.len() < EVENT * usize::from(n) {
            true => 8,
            false => Second::run(sizes, lent, events, log, n),
        }
    };
    /// Takes 4,097 events, and does as many as a schedule has.
    TakesOneMore, STEPS, "room_of_events_and_log": |sizes, lent, events, log, n| {
        Second::run(sizes, lent, events, log, if n == 4_097 { 4_096 } else { n })
    };
    /// Tests the room before the count.
    TestsRoomBeforeTheCount, STEPS, "room_of_events_and_log": |sizes, lent, events, log, n| {
        let answer = Second::run(sizes, lent, events, log, n);
        match answer == 3 && events.len() < EVENT * usize::from(n) {
            true => 8,
            false => answer,
        }
    };
    /// Tests the count before the records.
    TestsTheCountFirst, STEPS, "fields_past_their_ranges": |sizes, lent, events, log, n| {
        match n > 4_096 {
            true => 3,
            false => Second::run(sizes, lent, events, log, n),
        }
    };
    /// Stops at 999.
    StopsTooSoon, STEPS, "drawn_records": |sizes, lent, events, log, n| {
        let before = lent.clone();
        let answer = Second::run(sizes, lent, events, log, n);
        if lent.proposers.lent().iter().any(|p| p.number == 1_000)
            && before.proposers.lent().iter().all(|p| p.number != 1_000)
        {
            *lent = before;
            log[0] = 7;
        }
        answer
    };
    /// Leaves the answers in the log last event first.
    LogsBackwards, RUNS, "calm": |sizes, lent, events, log, n| {
        let answer = Second::run(sizes, lent, events, log, n);
        if answer == 0 {
            let mut answers: Vec<u64> = Vec::new();
            for said in log[..LOG * usize::from(n)].chunks_exact(LOG).rev() {
                answers.extend(said);
            }
            log[..answers.len()].copy_from_slice(&answers);
        }
        answer
    };
}
