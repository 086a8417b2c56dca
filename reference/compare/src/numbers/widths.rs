//! How many bytes the shortest form of a number takes.

use reference::numbers;
use reference::rng::Rng;

use super::{edge_values, random_value};
use crate::calls;
use crate::suite::{Comparisons, Outcome};

/// How many random values are compared.
const RANDOM_VALUES: u64 = 1_000_000;

fn compare(comparisons: &mut Comparisons, value: u64) -> Result<(), String> {
    comparisons.same(
        format_args!("number_width, value {value}"),
        calls::number_width(value),
        numbers::width(value),
    )
}

/// The edges of groups, and around every power of two.
pub fn edges(_: &mut Rng) -> Outcome {
    let mut comparisons = Comparisons::new();
    for value in edge_values() {
        compare(&mut comparisons, value)?;
    }
    for bit in 0..u64::BITS {
        let power = 1u64 << bit;
        for value in [power - 1, power, power + 1] {
            compare(&mut comparisons, value)?;
        }
    }
    comparisons.made()
}

pub fn random_values(rng: &mut Rng) -> Outcome {
    let mut comparisons = Comparisons::new();
    for _ in 0..RANDOM_VALUES {
        compare(&mut comparisons, random_value(rng))?;
    }
    comparisons.made()
}
