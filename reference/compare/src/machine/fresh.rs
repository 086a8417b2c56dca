//! Fresh runs, of good and bad sizes and lengths, on records and slots of any
//! values.

use reference::refusal::OUTSIDE_RANGE;
use reference::rng::Rng;

use super::drawn;
use super::form::Sizes;
use super::lent::Lent;
use super::second::Second;
use super::sizes::{drawn_sizes, sizes_outside, SIZES};
use super::Machine;
use crate::suite::{Comparisons, Outcome};

/// How many fresh runs are compared.
const RUNS: u64 = 3_000;

/// How often a refusal is compared, on other records each time.
const REPEATS: u64 = 4;

/// Compares with what is stated: the answer and what is left.
fn compare<M: Machine>(
    comparisons: &mut Comparisons,
    sizes: Sizes,
    lent: &Lent,
    answer: u8,
    expected: &Lent,
) -> Result<(), String> {
    let mut proved = lent.clone();
    let mut second = lent.clone();
    comparisons.stated(
        format_args!("fresh, {sizes:?}"),
        M::fresh(sizes, &mut proved),
        Second::fresh(sizes, &mut second),
        answer,
    )?;
    for left in [&proved, &second] {
        comparisons.left(
            format_args!("fresh, {sizes:?}, {lent:?}"),
            left.difference(expected),
        )?;
    }
    Ok(())
}

/// The lent places as a fresh run has them: all alive, passive, sets empty,
/// numbers 0, slots free.
fn made_fresh(lent: &Lent) -> Lent {
    let mut fresh = lent.clone();
    fresh.make_fresh();
    fresh
}

/// Sizes within their ranges: what was lent does not matter.
pub fn runs<M: Machine>(rng: &mut Rng) -> Outcome {
    let mut comparisons = Comparisons::new();
    for _ in 0..RUNS {
        let sizes = drawn_sizes(rng);
        let lent = drawn::any_lent(rng, &sizes);
        compare::<M>(&mut comparisons, sizes, &lent, 0, &made_fresh(&lent))?;
    }
    comparisons.made()
}

/// A size outside its range, with as many records and slots as it says: 1, and
/// all is left as it was.
pub fn sizes<M: Machine>(rng: &mut Rng) -> Outcome {
    let mut comparisons = Comparisons::new();
    for sizes in sizes_outside() {
        for _ in 0..REPEATS {
            let lent = drawn::any_lent(rng, &sizes);
            compare::<M>(&mut comparisons, sizes, &lent, OUTSIDE_RANGE, &lent)?;
        }
    }
    comparisons.made()
}

/// A place more or less than the sizes say: 1, and all is left as it was.
pub fn lengths<M: Machine>(rng: &mut Rng) -> Outcome {
    let mut comparisons = Comparisons::new();
    for sizes in SIZES {
        for _ in 0..REPEATS {
            let base = drawn::any_lent(rng, &sizes);
            for (_, lent) in base.other_lengths() {
                compare::<M>(&mut comparisons, sizes, &lent, OUTSIDE_RANGE, &lent)?;
            }
        }
    }
    comparisons.made()
}
