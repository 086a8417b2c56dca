//! The proved machine and the proved printer, through the archives' calls.

use compare::machine::form::{Event, Sizes};
use compare::machine::lent::Lent;
use compare::machine::{Machine, EVENT, LOG};
use compare::printed::Printer;

use crate::calls;

/// The archives' machine and printer.
pub struct Proved;

impl Machine for Proved {
    fn fresh(sizes: Sizes, lent: &mut Lent) -> u8 {
        calls::fresh(
            sizes,
            lent.proposers.lent_mut(),
            lent.acceptors.lent_mut(),
            lent.learners.lent_mut(),
            lent.slots.lent_mut(),
        )
    }

    fn step(sizes: Sizes, lent: &mut Lent, [code, a, b]: [u64; EVENT]) -> [u64; LOG] {
        let said = calls::step(
            sizes,
            lent.proposers.lent_mut(),
            lent.acceptors.lent_mut(),
            lent.learners.lent_mut(),
            lent.slots.lent_mut(),
            Event { code, a, b },
        );
        [said.no, said.set]
    }

    fn run(sizes: Sizes, lent: &mut Lent, events: &[u64], log: &mut [u64], n: u16) -> u8 {
        calls::run(
            sizes,
            lent.proposers.lent_mut(),
            lent.acceptors.lent_mut(),
            lent.learners.lent_mut(),
            lent.slots.lent_mut(),
            events,
            log,
            n,
        )
    }
}

impl Printer for Proved {
    fn print(output: &mut [u8], bytes: &[u8], length: &mut usize) -> u8 {
        calls::run_text(output, bytes, length)
    }
}
