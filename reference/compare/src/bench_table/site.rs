//! The site server's calls, on bytes.

use reference::calls::{self as second, Acknowledgement};
use reference::generate::{events_on, Style};
use reference::refusal::Refusal;
use reference::rng::Rng;
use reference::schedule::{self, Sizes, LONGEST};

use super::calls::{self, site};
use super::forms::{file_of, typical_record};
use super::measure::Measured;
use super::REFUSED;

/// How many calls a job makes of a call that takes few nanoseconds.
const CALLS: u64 = 100;

/// Room for the text of 4,096 events.
const LONGEST_TEXT: usize = 163_859;

pub fn all(rng: &mut Rng) -> Vec<(String, Measured)> {
    let mut all = vec![clock(), answer_proposal(), hear(), where_is(rng)];
    for e in [64, 4_096] {
        all.push(run_text(rng, e));
    }
    all
}

/// A call's number, as the proved calls give it.
fn number_of(given: Result<(), Refusal>) -> u8 {
    given.err().unwrap_or(0)
}

/// The second program's clock rule, as a call.
#[inline(never)]
fn second_clock(dock: u32, scan: u32, dock_time: u64, time: &mut u64) -> u8 {
    number_of(second::clock(dock, scan, dock_time, time))
}

/// The sum of what a clock rule gives. Each call is made directly, since the rule takes few nanoseconds.
fn times(call: impl Fn(u32, u32, u64, &mut u64) -> u8) -> u64 {
    let mut sum: u64 = 0;
    let mut time = 0;
    for tick in 0..CALLS as u32 {
        let answer = call(tick, tick.wrapping_mul(0x9e37_79b9), 1 << 40, &mut time);
        sum = sum.wrapping_add(time + u64::from(answer));
    }
    sum
}

fn clock() -> (String, Measured) {
    Measured::named("C, clock", || times(site::clock), || times(second_clock))
}

/// The second program's acceptor, as a call.
#[inline(never)]
fn second_answer(scans: u64, record: &mut [u8], set: &[u8; 8], reply: &mut [u8; 9]) -> u8 {
    number_of(second::answer_proposal(scans, record, set, reply))
}

/// Proposals to one acceptor, some acknowledged and some rejected.
fn answer_proposal() -> (String, Measured) {
    let proposals = |call: fn(u64, &mut [u8], &[u8; 8], &mut [u8; 9]) -> u8| {
        let mut record = [1, 0, 0, 0, 0, 0, 0, 0, 0];
        let mut reply = [0; 9];
        let mut sum: u64 = 0;
        for scan in 0..CALLS {
            let set = ((2u64 << (scan % 63)) - 1 - (scan & 1)).to_le_bytes();
            let answer = call(64, &mut record, &set, &mut reply);
            sum += u64::from(answer) + u64::from(reply[0]) + u64::from(reply[1]);
        }
        sum
    };
    Measured::named(
        "C, answer proposal",
        || proposals(site::answer_proposal),
        || proposals(second_answer),
    )
}

/// A learner's call: P, A, S; its record; proposer, acceptor, number; the set;
/// whether it learns.
type Hear = fn([u64; 3], &mut [u8], [u64; 3], &[u8; 8], &mut u8) -> u8;

/// The second program's learner, as a call.
#[inline(never)]
fn second_hear(
    [p, a, s]: [u64; 3],
    record: &mut [u8],
    [proposer, acceptor, number]: [u64; 3],
    set: &[u8; 8],
    learns: &mut u8,
) -> u8 {
    let heard = Acknowledgement {
        proposer,
        acceptor,
        number,
        set,
    };
    number_of(second::hear((p, a, s), record, &heard, learns))
}

/// Acknowledgements of rising numbers and sets to one learner.
fn hear() -> (String, Measured) {
    let acknowledgements = |call: Hear| {
        let mut record = [0; 9 + 11 * 4];
        record[0] = 1;
        let mut learns = 0;
        let mut sum: u64 = 0;
        for at in 0..CALLS {
            let set = ((2u64 << (at / 5)) - 1).to_le_bytes();
            let heard = [0, at % 5, 1 + at / 5];
            let answer = call([4, 5, 64], &mut record, heard, &set, &mut learns);
            sum += u64::from(answer) + u64::from(learns);
        }
        sum
    };
    Measured::named(
        "C, hear",
        || acknowledgements(site::hear),
        || acknowledgements(second_hear),
    )
}

/// The shelf question about all scans of a written table.
fn where_is(rng: &mut Rng) -> (String, Measured) {
    let records: Vec<_> = (0..64).map(|_| typical_record(rng)).collect();
    let table = file_of(&records);
    let tag = records[0].tag;
    let set = [0xff; 8];
    let mut found = [0; 4];
    let mut second_found = [0; 4];
    Measured::named(
        "C, where is, 64 scans",
        || match site::where_is(&table, &set, tag, &mut found) {
            0 => found[3],
            _ => REFUSED,
        },
        || match second::where_is(&table, &set, tag, &mut second_found) {
            Ok(()) => second_found[3],
            Err(_) => REFUSED,
        },
    )
}

/// The text of a schedule's run.
fn run_text(rng: &mut Rng, e: usize) -> (String, Measured) {
    let sizes = Sizes {
        p: 4,
        a: 5,
        l: 3,
        m: 64,
        s: 64,
    };
    let events = events_on(rng, Style::Contention, &sizes, e);
    let mut bytes = vec![0; LONGEST];
    let end = schedule::write(&sizes, &events, &mut bytes).expect("the schedule is accepted");
    bytes.truncate(end);
    let mut text = vec![0; LONGEST_TEXT];
    let mut second_text = text.clone();
    let mut lengths = [0; 2];
    let [length, second_length] = &mut lengths;
    Measured::named(
        &format!("C, run text, M = 64, E = {e}"),
        || match calls::run_text(&mut text, &bytes, length) {
            0 => *length as u64,
            _ => REFUSED,
        },
        || match second::run_text(&mut second_text, &bytes, second_length) {
            Ok(()) => *second_length as u64,
            Err(_) => REFUSED,
        },
    )
}
