//! Schedules: reading and writing.

use std::fmt::{Display, Formatter};

use reference::numbers::SCHEDULE_LIMIT;
use reference::refusal::{Refusal, BAD_NUMBER, OUTSIDE_RANGE};
use reference::rng::Rng;
use reference::schedule::{
    self, Event, Sizes, GREATEST_A, GREATEST_L, GREATEST_M, GREATEST_P, GREATEST_S, LEAST_M,
};

use crate::calls;
use crate::forms::shown::Numbers;
use crate::forms::{answer, random_within, reading, writing, Form};
use crate::suite::Tests;

mod edges;
mod long;

pub const TESTS: Tests = &[
    ("random_schedules", writing::random_forms::<Schedule>),
    ("write_other_fields", writing::other_fields::<Schedule>),
    ("write_partial_events", writing::partial_rows::<Schedule>),
    ("write_event_counts", long::event_counts),
    ("read_prefixes", reading::prefixes::<Schedule>),
    ("read_changed_bytes", reading::changed_bytes::<Schedule>),
    ("read_longer_files", reading::longer_files::<Schedule>),
    ("read_padded_numbers", reading::padded_numbers::<Schedule>),
    ("read_other_numbers", reading::other_numbers::<Schedule>),
    ("read_damaged_files", reading::damaged_files::<Schedule>),
    ("read_random_files", reading::random_files::<Schedule>),
    ("read_order", edges::order),
    ("size_limits", edges::size_limits),
    ("two_sizes", edges::two_sizes),
    ("long_schedules", long::long_schedules),
    ("longest_schedule", long::longest_schedule),
    ("prefixes_of_the_longest", long::prefixes_of_the_longest),
];

/// How many numbers an event has: code, a, b.
pub const EVENT: usize = 3;

/// A schedule: the sizes P, A, L, M, S and the numbers of its events.
pub struct Schedule {
    pub sizes: [u16; 5],
    pub fields: Vec<u64>,
}

impl Schedule {
    /// A schedule of random sizes and so many random events.
    pub fn of_events(rng: &mut Rng, events: usize) -> Schedule {
        let sizes = random_sizes(rng);
        let fields = (0..events * EVENT)
            .map(|_| random_within(rng, 0, SCHEDULE_LIMIT))
            .collect();
        Schedule { sizes, fields }
    }

    /// How many whole events there are.
    pub fn events(&self) -> usize {
        self.fields.len() / EVENT
    }
}

impl Display for Schedule {
    fn fmt(&self, formatter: &mut Formatter) -> std::fmt::Result {
        write!(
            formatter,
            "a schedule of sizes {:?}, {}",
            self.sizes,
            Numbers(&self.fields)
        )
    }
}

impl Form for Schedule {
    const NAME: &'static str = "schedule";
    const ROW: usize = EVENT;
    type Header = [u16; 6];
    const HEADER_BEFORE: [u16; 6] = [0xa5a5; 6];

    fn random(rng: &mut Rng) -> Schedule {
        let events = match rng.below(8) {
            0 => 0,
            1 => 1,
            _ => rng.within(0, 40),
        };
        Schedule::of_events(rng, events as usize)
    }

    fn head(&self) -> Vec<u64> {
        let mut head: Vec<u64> = self.sizes.iter().map(|size| u64::from(*size)).collect();
        head.push(self.events() as u64);
        head
    }

    fn header(&self) -> [u16; 6] {
        let [p, a, l, m, s] = self.sizes;
        [p, a, l, m, s, self.events() as u16]
    }

    fn fields(&self) -> &[u64] {
        &self.fields
    }

    fn fields_mut(&mut self) -> &mut Vec<u64> {
        &mut self.fields
    }

    fn read_proved(room: &mut [u64], bytes: &[u8], header: &mut [u16; 6]) -> u8 {
        calls::read_schedule(room, bytes, header)
    }

    fn read_second(room: &mut [u64], bytes: &[u8], header: &mut [u16; 6]) -> u8 {
        let mut events = events_of(room);
        let given = schedule::read(bytes, &mut events);
        for (numbers, event) in room.chunks_exact_mut(EVENT).zip(&events) {
            numbers.copy_from_slice(&[event.code, event.a, event.b]);
        }
        answer(given.map(header_of), header)
    }

    fn write_proved(&self, buffer: &mut [u8], next: &mut usize) -> u8 {
        calls::write_schedule(buffer, &self.fields, &self.sizes, next)
    }

    fn write_second(&self, buffer: &mut [u8], next: &mut usize) -> u8 {
        let given = match whole_events(&self.fields) {
            Ok(events) => schedule::write(&sizes_of(self.sizes), &events, buffer),
            Err(refusal) => Err(refusal),
        };
        answer(given, next)
    }
}

/// Sizes within their ranges.
fn random_sizes(rng: &mut Rng) -> [u16; 5] {
    [
        random_within(rng, 1, GREATEST_P) as u16,
        random_within(rng, 1, GREATEST_A) as u16,
        random_within(rng, 1, GREATEST_L) as u16,
        random_within(rng, LEAST_M, GREATEST_M) as u16,
        random_within(rng, 1, GREATEST_S) as u16,
    ]
}

/// The header that the second program's reader gives.
fn header_of((sizes, events): (Sizes, usize)) -> [u16; 6] {
    let Sizes { p, a, l, m, s } = sizes;
    [
        p as u16,
        a as u16,
        l as u16,
        m as u16,
        s as u16,
        events as u16,
    ]
}

fn sizes_of([p, a, l, m, s]: [u16; 5]) -> Sizes {
    Sizes {
        p: p.into(),
        a: a.into(),
        l: l.into(),
        m: m.into(),
        s: s.into(),
    }
}

/// The whole events. Where a part of one is left, 12 if they are too many for
/// the coding, otherwise 1.
fn whole_events(fields: &[u64]) -> Result<Vec<Event>, Refusal> {
    let events = events_of(fields);
    if fields.len() % EVENT == 0 {
        return Ok(events);
    }
    if events.len() as u64 > SCHEDULE_LIMIT {
        return Err(BAD_NUMBER);
    }
    Err(OUTSIDE_RANGE)
}

/// The whole events among the numbers.
fn events_of(fields: &[u64]) -> Vec<Event> {
    let events = fields.chunks_exact(EVENT);
    events
        .map(|numbers| Event {
            code: numbers[0],
            a: numbers[1],
            b: numbers[2],
        })
        .collect()
}
