//! Sets of scans: edges in all pairs, and random ones.

use reference::rng::Rng;
use reference::sets::scans;

use crate::calls;
use crate::suite::{Comparisons, Outcome};

/// How many random pairs and sets are compared.
const RANDOM_PAIRS: u64 = 300_000;
const RANDOM_SETS: u64 = 20_000;

/// Scan numbers about the greatest, and at the edges of a byte and of 16 bits.
fn scan_numbers() -> impl Iterator<Item = u16> {
    (0..=70).chain([255, 256, 257, 65_535])
}

/// Counts of scans about the greatest, and at the edges of a byte and of 32
/// bits.
fn scan_counts() -> impl Iterator<Item = u32> {
    (0..=70).chain([255, 256, 257, 1 << 31, u32::MAX])
}

/// The empty set, the full set, every single scan, every pair of neighbours,
/// all scans below one, and the sets of what these leave out.
fn edge_sets() -> Vec<u64> {
    let mut sets = vec![0];
    for scan in 0..u64::BITS {
        let one = 1u64 << scan;
        sets.extend([one, one | one << 1, one - 1]);
    }
    for index in 0..sets.len() {
        sets.push(!sets[index]);
    }
    sets.sort_unstable();
    sets.dedup();
    sets
}

/// A set that holds few, half or most scans.
fn random_set(rng: &mut Rng) -> u64 {
    let set = rng.draw();
    match rng.below(4) {
        0 => set & rng.draw(),
        1 => set | rng.draw(),
        2 => set & rng.draw() & rng.draw() & rng.draw(),
        _ => set,
    }
}

/// A set near another: the same, more, less, one scan apart, or unrelated.
fn random_partner(rng: &mut Rng, set: u64) -> u64 {
    match rng.below(5) {
        0 => set,
        1 => set | random_set(rng),
        2 => set & random_set(rng),
        3 => set ^ 1 << rng.below(64),
        _ => random_set(rng),
    }
}

fn compare_pair(comparisons: &mut Comparisons, a: u64, b: u64) -> Result<(), String> {
    comparisons.same(
        format_args!("scans_union, sets {a:#018x} and {b:#018x}"),
        calls::scans_union(a, b),
        scans::union(a, b),
    )?;
    comparisons.same(
        format_args!("scans_contained, set {a:#018x} in {b:#018x}"),
        calls::scans_contained(a, b),
        u32::from(scans::contained(a, b)),
    )?;
    comparisons.same(
        format_args!("scans_strictly_contained, set {a:#018x} in {b:#018x}"),
        calls::scans_strictly_contained(a, b),
        u32::from(scans::strictly_contained(a, b)),
    )
}

fn compare_set(comparisons: &mut Comparisons, set: u64) -> Result<(), String> {
    comparisons.same(
        format_args!("scans_is_empty, set {set:#018x}"),
        calls::scans_is_empty(set),
        u32::from(scans::is_empty(set)),
    )?;
    for scan in scan_numbers() {
        comparisons.same(
            format_args!("scans_holds, set {set:#018x}, scan {scan}"),
            calls::scans_holds(set, scan),
            u32::from(scans::holds(set, u64::from(scan))),
        )?;
    }
    for count in scan_counts() {
        comparisons.same(
            format_args!("scans_fits, set {set:#018x}, scans {count}"),
            calls::scans_fits(set, count),
            u32::from(scans::fits(set, u64::from(count))),
        )?;
    }
    Ok(())
}

/// Every 16-bit scan number.
pub fn of_one(_: &mut Rng) -> Outcome {
    let mut comparisons = Comparisons::new();
    for scan in 0..=u16::MAX {
        comparisons.same(
            format_args!("scans_of_one, scan {scan}"),
            calls::scans_of_one(scan),
            scans::one(u64::from(scan)),
        )?;
    }
    comparisons.made()
}

pub fn edge_pairs(_: &mut Rng) -> Outcome {
    let mut comparisons = Comparisons::new();
    let sets = edge_sets();
    for a in &sets {
        for b in &sets {
            compare_pair(&mut comparisons, *a, *b)?;
        }
    }
    comparisons.made()
}

pub fn random_pairs(rng: &mut Rng) -> Outcome {
    let mut comparisons = Comparisons::new();
    for _ in 0..RANDOM_PAIRS {
        let a = random_set(rng);
        let b = random_partner(rng, a);
        compare_pair(&mut comparisons, a, b)?;
        compare_pair(&mut comparisons, b, a)?;
    }
    comparisons.made()
}

/// The functions of one set, on the edges.
pub fn single_edges(_: &mut Rng) -> Outcome {
    let mut comparisons = Comparisons::new();
    for set in edge_sets() {
        compare_set(&mut comparisons, set)?;
    }
    comparisons.made()
}

/// The functions of one set, on random sets cut to a random count of scans.
pub fn single_random(rng: &mut Rng) -> Outcome {
    let mut comparisons = Comparisons::new();
    for _ in 0..RANDOM_SETS {
        let cut = rng.below(64);
        compare_set(&mut comparisons, random_set(rng) >> cut)?;
    }
    comparisons.made()
}
