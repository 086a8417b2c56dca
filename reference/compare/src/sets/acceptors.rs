//! Sets of acceptors: every 8-bit mask.

use reference::rng::Rng;
use reference::sets::acceptors;

use crate::calls;
use crate::suite::{Comparisons, Outcome};

/// Counts of acceptors about the greatest and the masks' widths.
const COUNTS: [u32; 14] = [0, 1, 2, 3, 4, 5, 6, 7, 8, 9, 31, 32, 33, u32::MAX];

/// All masks in all pairs.
pub fn union(_: &mut Rng) -> Outcome {
    let mut comparisons = Comparisons::new();
    for q in 0..=u8::MAX {
        for r in 0..=u8::MAX {
            comparisons.same(
                format_args!("acceptors_union, sets {q:#04x} and {r:#04x}"),
                u32::from(calls::acceptors_union(q, r)),
                acceptors::union(u32::from(q), u32::from(r)),
            )?;
        }
    }
    comparisons.made()
}

/// All masks with all 8-bit acceptor numbers.
pub fn with(_: &mut Rng) -> Outcome {
    let mut comparisons = Comparisons::new();
    for q in 0..=u8::MAX {
        for acceptor in 0..=u8::MAX {
            comparisons.same(
                format_args!("acceptors_with, set {q:#04x}, acceptor {acceptor}"),
                u32::from(calls::acceptors_with(q, acceptor)),
                acceptors::with(u32::from(q), u32::from(acceptor)),
            )?;
        }
    }
    comparisons.made()
}

pub fn size(_: &mut Rng) -> Outcome {
    let mut comparisons = Comparisons::new();
    for q in 0..=u8::MAX {
        comparisons.same(
            format_args!("acceptors_size, set {q:#04x}"),
            calls::acceptors_size(q),
            acceptors::size(u32::from(q)),
        )?;
    }
    comparisons.made()
}

pub fn fits(_: &mut Rng) -> Outcome {
    let mut comparisons = Comparisons::new();
    for q in 0..=u8::MAX {
        for count in COUNTS {
            comparisons.same(
                format_args!("acceptors_fits, set {q:#04x}, acceptors {count}"),
                calls::acceptors_fits(q, count),
                u32::from(acceptors::fits(u32::from(q), count)),
            )?;
        }
    }
    comparisons.made()
}

pub fn majority(_: &mut Rng) -> Outcome {
    let mut comparisons = Comparisons::new();
    for q in 0..=u8::MAX {
        for count in COUNTS {
            comparisons.same(
                format_args!("acceptors_majority, set {q:#04x}, acceptors {count}"),
                calls::acceptors_majority(q, count),
                u32::from(acceptors::is_majority(u32::from(q), count)),
            )?;
        }
    }
    comparisons.made()
}
