//! Writing: the answer, the next place, every byte of the buffer and the bytes
//! around it. What is written is read back, and read cut short.

use std::fmt;

use reference::numbers;
use reference::refusal::INPUT_ENDS;
use reference::rng::Rng;

use super::reading::{self, Reading};
use super::{
    changed, edge_values, random_value, table_by_other_arguments, Limit, LIMITS, NEXT_BEFORE,
};
use crate::calls;
use crate::suite::{Comparisons, Outcome};

/// The longest buffer. Places run to one past it.
const LONGEST: usize = 12;

/// The guard bytes before a buffer, and after the longest. Those after it take
/// the widest number at the greatest place.
const BEFORE: usize = 8;
const AFTER: usize = 12;
const ROOM: usize = BEFORE + LONGEST + AFTER;

/// How many random values are written.
const RANDOM_VALUES: u64 = 1_000;

/// A buffer with the guard bytes around it.
#[derive(Clone, Copy, PartialEq, Eq)]
struct Room([u8; ROOM]);

impl fmt::Debug for Room {
    fn fmt(&self, formatter: &mut fmt::Formatter) -> fmt::Result {
        write!(formatter, "{:02x?}", self.0)
    }
}

impl Room {
    /// A room of random bytes.
    fn random(rng: &mut Rng) -> Room {
        let mut room = [0; ROOM];
        for bytes in room.chunks_mut(8) {
            let drawn = rng.draw().to_le_bytes();
            bytes.copy_from_slice(&drawn[..bytes.len()]);
        }
        Room(room)
    }

    fn buffer(&self, length: usize) -> &[u8] {
        &self.0[BEFORE..BEFORE + length]
    }

    fn buffer_mut(&mut self, length: usize) -> &mut [u8] {
        &mut self.0[BEFORE..BEFORE + length]
    }
}

/// A number to write: into a buffer of this length, at this place.
#[derive(Clone, Copy)]
struct Order {
    value: u64,
    length: usize,
    at: usize,
    limit: Limit,
}

impl fmt::Display for Order {
    fn fmt(&self, formatter: &mut fmt::Formatter) -> fmt::Result {
        write!(
            formatter,
            "value {}, buffer of {} bytes, at {}, limit {}",
            self.value, self.length, self.at, self.limit.argument
        )
    }
}

/// The answer to a writing, what was written to the cell, and the room after.
#[derive(Clone, Copy, Debug, PartialEq, Eq)]
struct Writing {
    answer: u8,
    next: Option<usize>,
    room: Room,
}

/// What the proved function writes.
fn proved(mut room: Room, order: Order) -> Writing {
    let mut next = NEXT_BEFORE;
    let answer = calls::write_number(
        room.buffer_mut(order.length),
        order.at,
        order.value,
        order.limit.argument,
        &mut next,
    );
    Writing {
        answer,
        next: changed(next, NEXT_BEFORE),
        room,
    }
}

/// What the second program writes.
fn second(mut room: Room, order: Order) -> Writing {
    let written = numbers::write(
        room.buffer_mut(order.length),
        order.at,
        order.limit.greatest,
        order.value,
    );
    Writing {
        answer: written.err().unwrap_or(0),
        next: written.ok(),
        room,
    }
}

fn compare(comparisons: &mut Comparisons, rng: &mut Rng, order: Order) -> Result<(), String> {
    let room = Room::random(rng);
    let writing = proved(room, order);
    comparisons.same(
        format_args!("write_number, {order}, with {BEFORE} guard bytes before it in {room:?}"),
        writing,
        second(room, order),
    )?;
    match writing.next {
        Some(next) => read_back(comparisons, &writing.room, order, next),
        None => Ok(()),
    }
}

/// Reads what was written, whole and cut short.
fn read_back(
    comparisons: &mut Comparisons,
    room: &Room,
    order: Order,
    next: usize,
) -> Result<(), String> {
    let buffer = room.buffer(order.length);
    let Order { at, limit, .. } = order;
    comparisons.stated(
        format_args!("read_number after write_number, {order}, from {buffer:02x?}"),
        reading::proved(buffer, at, limit),
        reading::second(buffer, at, limit),
        Reading::number(order.value, next),
    )?;
    for end in at..next {
        let cut = &buffer[..end];
        comparisons.stated(
            format_args!("read_number after write_number, {order}, cut to {cut:02x?}"),
            reading::proved(cut, at, limit),
            reading::second(cut, at, limit),
            Reading::refused(INPUT_ENDS),
        )?;
    }
    Ok(())
}

/// Compares in buffers of every length, at every place.
fn compare_everywhere(
    comparisons: &mut Comparisons,
    rng: &mut Rng,
    value: u64,
    limit: Limit,
) -> Result<(), String> {
    for length in 0..=LONGEST {
        for at in (0..=LONGEST + 1).chain([usize::MAX]) {
            let order = Order {
                value,
                length,
                at,
                limit,
            };
            compare(comparisons, rng, order)?;
        }
    }
    Ok(())
}

pub fn edges(rng: &mut Rng) -> Outcome {
    let mut comparisons = Comparisons::new();
    for value in edge_values() {
        for limit in LIMITS {
            compare_everywhere(&mut comparisons, rng, value, limit)?;
        }
    }
    comparisons.made()
}

pub fn random_values(rng: &mut Rng) -> Outcome {
    let mut comparisons = Comparisons::new();
    for _ in 0..RANDOM_VALUES {
        let value = random_value(rng);
        for limit in LIMITS {
            compare_everywhere(&mut comparisons, rng, value, limit)?;
        }
    }
    comparisons.made()
}

/// The table's limit by every other argument.
pub fn other_limits(rng: &mut Rng) -> Outcome {
    let mut comparisons = Comparisons::new();
    for value in edge_values() {
        for limit in table_by_other_arguments() {
            compare_everywhere(&mut comparisons, rng, value, limit)?;
        }
    }
    comparisons.made()
}
