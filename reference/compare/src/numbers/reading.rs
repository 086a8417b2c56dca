//! Reading: the answer, the value and the next place. On a refusal both cells
//! keep what they held.

use reference::numbers;
use reference::rng::Rng;

use super::{
    changed, edge_values, table_by_other_arguments, Limit, LIMITS, NEXT_BEFORE, TABLE, VALUE_BEFORE,
};
use crate::calls;
use crate::suite::{Comparisons, Outcome};

/// The places read at: inside, at and past the end of short inputs.
const PLACES: [usize; 5] = [0, 1, 2, 3, usize::MAX];

/// Bytes at the edges of a group.
const EDGE_BYTES: [u8; 7] = [0x00, 0x01, 0x3f, 0x40, 0x7f, 0x80, 0xff];

/// The longest sequence of edge bytes, one more than the table's groups.
const LONGEST_SEQUENCE: usize = 8;

/// The longest random input, and how many there are.
const LONGEST_RANDOM: usize = 12;
const RANDOM_INPUTS: u64 = 1_000_000;

/// A byte that ends a number. It stands behind every input here, so that a
/// call that reads past the end of the input answers otherwise.
const BEHIND: u8 = 0x01;

/// The answer to a reading and what was written to the cells.
#[derive(Clone, Copy, Debug, PartialEq, Eq)]
pub struct Reading {
    pub answer: u8,
    pub value: Option<u64>,
    pub next: Option<usize>,
}

impl Reading {
    /// A number read.
    pub fn number(value: u64, next: usize) -> Reading {
        Reading {
            answer: 0,
            value: Some(value),
            next: Some(next),
        }
    }

    /// A refusal, the cells as they were.
    pub fn refused(answer: u8) -> Reading {
        Reading {
            answer,
            value: None,
            next: None,
        }
    }
}

/// What the proved function reads.
#[inline]
pub fn proved(bytes: &[u8], at: usize, limit: Limit) -> Reading {
    let mut value = VALUE_BEFORE;
    let mut next = NEXT_BEFORE;
    let answer = calls::read_number(bytes, at, limit.argument, &mut value, &mut next);
    Reading {
        answer,
        value: changed(value, VALUE_BEFORE),
        next: changed(next, NEXT_BEFORE),
    }
}

/// What the second program reads.
#[inline]
pub fn second(bytes: &[u8], at: usize, limit: Limit) -> Reading {
    match numbers::read(bytes, at, limit.greatest) {
        Ok((value, next)) => Reading::number(value, next),
        Err(refusal) => Reading::refused(refusal),
    }
}

#[inline]
fn compare(
    comparisons: &mut Comparisons,
    bytes: &[u8],
    at: usize,
    limit: Limit,
) -> Result<(), String> {
    comparisons.same(
        format_args!(
            "read_number, bytes {bytes:02x?}, at {at}, limit {}",
            limit.argument
        ),
        proved(bytes, at, limit),
        second(bytes, at, limit),
    )
}

/// Compares at every place and both limits.
fn compare_everywhere(comparisons: &mut Comparisons, bytes: &[u8]) -> Result<(), String> {
    for at in PLACES {
        for limit in LIMITS {
            compare(comparisons, bytes, at, limit)?;
        }
    }
    Ok(())
}

pub fn empty_input(_: &mut Rng) -> Outcome {
    let mut comparisons = Comparisons::new();
    compare_everywhere(&mut comparisons, &[BEHIND; 4][..0])?;
    comparisons.made()
}

pub fn one_byte_inputs(_: &mut Rng) -> Outcome {
    let mut comparisons = Comparisons::new();
    for byte in 0..=u8::MAX {
        compare_everywhere(&mut comparisons, &[byte, BEHIND, BEHIND, BEHIND][..1])?;
    }
    comparisons.made()
}

pub fn two_byte_inputs(_: &mut Rng) -> Outcome {
    let mut comparisons = Comparisons::new();
    for input in 0..=u16::MAX {
        let [first, second] = input.to_le_bytes();
        compare_everywhere(&mut comparisons, &[first, second, BEHIND, BEHIND][..2])?;
    }
    comparisons.made()
}

/// All three-byte inputs, at both limits.
pub fn three_byte_inputs(_: &mut Rng) -> Outcome {
    let mut comparisons = Comparisons::new();
    for input in 0..1u32 << 24 {
        let [first, second, third, _] = input.to_le_bytes();
        let room = [first, second, third, BEHIND];
        for limit in LIMITS {
            compare(&mut comparisons, &room[..3], 0, limit)?;
        }
    }
    comparisons.made()
}

/// All sequences of edge bytes up to one byte more than the table's groups, at
/// the table's limit.
pub fn edge_bytes(_: &mut Rng) -> Outcome {
    let mut comparisons = Comparisons::new();
    for length in 0..=LONGEST_SEQUENCE {
        for index in 0..EDGE_BYTES.len().pow(length as u32) {
            let mut room = [BEHIND; LONGEST_SEQUENCE + 1];
            fill_with_edge_bytes(&mut room[..length], index);
            compare(&mut comparisons, &room[..length], 0, TABLE)?;
        }
    }
    comparisons.made()
}

/// The sequence of edge bytes that has this index among those of its length.
fn fill_with_edge_bytes(bytes: &mut [u8], index: usize) {
    let mut rest = index;
    for byte in bytes {
        *byte = EDGE_BYTES[rest % EDGE_BYTES.len()];
        rest /= EDGE_BYTES.len();
    }
}

/// Random inputs of mostly continued groups, at a random place up to one past
/// the end.
pub fn random_inputs(rng: &mut Rng) -> Outcome {
    let mut comparisons = Comparisons::new();
    for _ in 0..RANDOM_INPUTS {
        let mut room = [BEHIND; LONGEST_RANDOM + 1];
        let length = rng.within(0, LONGEST_RANDOM as u64) as usize;
        for byte in &mut room[..length] {
            *byte = random_byte(rng);
        }
        let at = match rng.one_in(4) {
            true => rng.within(0, length as u64 + 1) as usize,
            false => 0,
        };
        for limit in LIMITS {
            compare(&mut comparisons, &room[..length], at, limit)?;
        }
    }
    comparisons.made()
}

/// A byte whose top bit is set most of the time.
fn random_byte(rng: &mut Rng) -> u8 {
    let byte = rng.draw() as u8;
    match rng.below(8) {
        0 => byte & 0x7f,
        1 => EDGE_BYTES[rng.below(EDGE_BYTES.len() as u64) as usize],
        _ => byte | 0x80,
    }
}

/// The table's limit by every other argument, on written forms.
pub fn other_limits(_: &mut Rng) -> Outcome {
    let mut comparisons = Comparisons::new();
    for value in edge_values() {
        let mut room = [BEHIND; 11];
        let length = numbers::write(&mut room, 0, u64::MAX, value)
            .map_err(|refusal| format!("writing {value} is refused {refusal}"))?;
        for limit in table_by_other_arguments() {
            compare(&mut comparisons, &room[..length], 0, limit)?;
        }
    }
    comparisons.made()
}
