//! The calls that a C program makes, on numbers and bytes. A refusal leaves
//! every lent byte as it was.

use crate::clock::scan_time;
use crate::layout;
use crate::printer;
use crate::records::GREATEST_NUMBER;
use crate::refusal::{Refusal, NO_ROOM, OUTSIDE_SIZES};
use crate::roles::{self, test_alive};
use crate::scan_table::{self, Record};
use crate::schedule::{self, Event, Sizes, GREATEST_E, LEAST_M};
use crate::shelf;

/// The clock rule: the scan's time.
pub fn clock(
    dock_tick: u32,
    scan_tick: u32,
    dock_time: u64,
    time: &mut u64,
) -> Result<(), Refusal> {
    *time = scan_time(dock_tick, scan_tick, dock_time)?;
    Ok(())
}

/// The shelf question: whether a scan is shown (0 or 1), its number, its shelf
/// and its time. The table is read first; a set that is not 8 bytes is not
/// within S.
pub fn where_is(table: &[u8], set: &[u8], tag: u64, found: &mut [u64; 4]) -> Result<(), Refusal> {
    let answer = match layout::word(set) {
        Some(set) => shelf::ask_written(table, set, tag)?,
        None => {
            check_table(table)?;
            return Err(OUTSIDE_SIZES);
        }
    };
    *found = match answer {
        Some(newest) => [1, newest.scan, newest.shelf, newest.time],
        None => [0; 4],
    };
    Ok(())
}

/// The acceptor's rule: whether the proposal's set is acknowledged, and the
/// set to send.
pub fn answer_proposal(
    scans: u64,
    kept: &mut [u8],
    set: &[u8],
    reply: &mut [u8; layout::ACCEPTOR],
) -> Result<(), Refusal> {
    let sizes = sizes(1, 1, scans);
    let mut acceptor = layout::acceptor(kept, &sizes)?;
    let set = layout::set(set, sizes.s)?;
    test_alive(acceptor.alive)?;
    let acknowledged = roles::answer(&mut acceptor, set);
    kept.copy_from_slice(&layout::acceptor_bytes(&acceptor));
    *reply = layout::flagged_bytes(acknowledged, acceptor.accepted);
    Ok(())
}

/// An acknowledgement as a learner hears it.
#[derive(Clone, Copy, Debug)]
pub struct Acknowledgement<'a> {
    pub proposer: u64,
    pub acceptor: u64,
    pub number: u64,
    pub set: &'a [u8],
}

/// The learner's rule: whether the learnt set changed, 0 or 1.
pub fn hear(
    run: (u64, u64, u64),
    kept: &mut [u8],
    heard: &Acknowledgement,
    learns: &mut u8,
) -> Result<(), Refusal> {
    let (proposers, acceptors, scans) = run;
    let sizes = sizes(proposers, acceptors, scans);
    let mut learner = layout::learner(kept, &sizes)?;
    if heard.proposer >= sizes.p {
        return Err(OUTSIDE_SIZES);
    }
    let (acceptor, number) = test_answer(&sizes, heard.acceptor, heard.number)?;
    let set = layout::set(heard.set, sizes.s)?;
    test_alive(learner.alive)?;
    let a = sizes.a as u32;
    let learnt = roles::hear(
        &mut learner,
        heard.proposer as usize,
        acceptor,
        number,
        set,
        a,
    );
    layout::put_learner(kept, &learner);
    *learns = u8::from(learnt);
    Ok(())
}

/// The proposer's buffered set gains a set.
pub fn buffer(acceptors: u64, scans: u64, kept: &mut [u8], set: &[u8]) -> Result<(), Refusal> {
    let sizes = sizes(1, acceptors, scans);
    let mut proposer = layout::proposer(kept, &sizes)?;
    let set = layout::set(set, sizes.s)?;
    test_alive(proposer.alive)?;
    roles::buffer(&mut proposer, set);
    kept.copy_from_slice(&layout::proposer_bytes(&proposer));
    Ok(())
}

/// The proposer takes an acknowledgement.
pub fn acknowledged(
    acceptors: u64,
    scans: u64,
    kept: &mut [u8],
    acceptor: u64,
    number: u64,
) -> Result<(), Refusal> {
    let sizes = sizes(1, acceptors, scans);
    let mut proposer = layout::proposer(kept, &sizes)?;
    let (acceptor, number) = test_answer(&sizes, acceptor, number)?;
    test_alive(proposer.alive)?;
    roles::acknowledged(&mut proposer, acceptor, number);
    kept.copy_from_slice(&layout::proposer_bytes(&proposer));
    Ok(())
}

/// The proposer takes a rejection.
pub fn rejected(
    acceptors: u64,
    scans: u64,
    kept: &mut [u8],
    acceptor: u64,
    number: u64,
    set: &[u8],
) -> Result<(), Refusal> {
    let sizes = sizes(1, acceptors, scans);
    let mut proposer = layout::proposer(kept, &sizes)?;
    let (acceptor, number) = test_answer(&sizes, acceptor, number)?;
    let set = layout::set(set, sizes.s)?;
    test_alive(proposer.alive)?;
    roles::rejected(&mut proposer, acceptor, number, set);
    kept.copy_from_slice(&layout::proposer_bytes(&proposer));
    Ok(())
}

/// Propose.
pub fn propose(acceptors: u64, scans: u64, kept: &mut [u8]) -> Result<(), Refusal> {
    let mut proposer = layout::proposer(kept, &sizes(1, acceptors, scans))?;
    roles::test_propose(&proposer)?;
    roles::propose(&mut proposer);
    kept.copy_from_slice(&layout::proposer_bytes(&proposer));
    Ok(())
}

/// Refine.
pub fn refine(acceptors: u64, scans: u64, kept: &mut [u8]) -> Result<(), Refusal> {
    let mut proposer = layout::proposer(kept, &sizes(1, acceptors, scans))?;
    roles::test_refine(&proposer, acceptors as u32)?;
    roles::refine(&mut proposer);
    kept.copy_from_slice(&layout::proposer_bytes(&proposer));
    Ok(())
}

/// Decide.
pub fn decide(acceptors: u64, scans: u64, kept: &mut [u8]) -> Result<(), Refusal> {
    let mut proposer = layout::proposer(kept, &sizes(1, acceptors, scans))?;
    roles::test_decide(&proposer, acceptors as u32)?;
    roles::decide(&mut proposer);
    kept.copy_from_slice(&layout::proposer_bytes(&proposer));
    Ok(())
}

/// The schedule reader's verdict.
pub fn check_schedule(bytes: &[u8]) -> Result<(), Refusal> {
    let mut room = vec![Event::default(); GREATEST_E as usize];
    schedule::read(bytes, &mut room)?;
    Ok(())
}

/// The scan table reader's verdict.
pub fn check_table(bytes: &[u8]) -> Result<(), Refusal> {
    let mut room = [Record::default(); scan_table::GREATEST_S as usize];
    scan_table::read(bytes, &mut room)?;
    Ok(())
}

/// The text of a schedule's run and its length; a refused schedule is a text
/// too. Refused 8 where the buffer is shorter than the text.
pub fn run_text(text: &mut [u8], schedule: &[u8], length: &mut usize) -> Result<(), Refusal> {
    let printed = printer::print(schedule);
    let room = text.get_mut(..printed.len()).ok_or(NO_ROOM)?;
    room.copy_from_slice(&printed);
    *length = printed.len();
    Ok(())
}

/// The sizes that a call on one record is given; the others are the least.
fn sizes(proposers: u64, acceptors: u64, scans: u64) -> Sizes {
    Sizes {
        p: proposers,
        a: acceptors,
        l: 1,
        m: LEAST_M,
        s: scans,
    }
}

/// The acceptor and the number of an answer to a proposal: refused 3 where the
/// acceptor does not exist or the number is not 1 to 1,000.
fn test_answer(sizes: &Sizes, acceptor: u64, number: u64) -> Result<(u32, u32), Refusal> {
    let numbered = (1..=u64::from(GREATEST_NUMBER)).contains(&number);
    if acceptor >= sizes.a || !numbered {
        return Err(OUTSIDE_SIZES);
    }
    Ok((acceptor as u32, number as u32))
}

#[cfg(test)]
mod tests;
