//! Schedules of about 4,096 events and more.

use reference::refusal::{
    Refusal, BAD_NUMBER, BYTES_FOLLOW, INPUT_ENDS, OUTSIDE_RANGE, OUTSIDE_SIZES,
};
use reference::rng::Rng;
use reference::schedule::LONGEST;

use super::{Schedule, EVENT};
use crate::forms::lent::Lent;
use crate::forms::reading::{self, random_room};
use crate::forms::{self, damage, writing, Form};
use crate::suite::{Comparisons, Outcome};

/// The greatest count of events, and of the coding's numbers.
const MOST_EVENTS: usize = 4_096;
const MOST_OF_CODING: usize = 65_535;

/// Counts of events about both.
const EVENT_COUNTS: [usize; 7] = [4_095, 4_096, 4_097, 8_192, 65_535, 65_536, 65_537];

/// How often what the writer is given is made of other random numbers.
const REPEATS: usize = 3;

/// How many random schedules of each length are compared, and how many
/// damages of each.
const LONG_SCHEDULES: usize = 8;
const DAMAGES: usize = 100;

/// The longest schedule: each number takes as many bytes as it may.
fn longest() -> Schedule {
    Schedule {
        sizes: [8, 7, 8, 512, 64],
        fields: vec![65_535; MOST_EVENTS * EVENT],
    }
}

/// What the writer is given: a count of whole events and how many numbers of a
/// part of one, with sizes and numbers within their ranges or not.
struct Given {
    events: usize,
    part: usize,
    sizes_within: bool,
    numbers_within: bool,
}

impl Given {
    /// Everything that so many events are given with.
    fn all_of(events: usize) -> Vec<Given> {
        let mut all = Vec::new();
        for part in 0..EVENT {
            for sizes_within in [true, false] {
                for numbers_within in [true, false] {
                    all.push(Given {
                        events,
                        part,
                        sizes_within,
                        numbers_within,
                    });
                }
            }
        }
        all
    }

    fn schedule(&self, rng: &mut Rng) -> Schedule {
        let mut schedule = Schedule::of_events(rng, self.events);
        schedule.fields.resize(self.events * EVENT + self.part, 0);
        if !self.sizes_within {
            schedule.sizes[0] = 0;
        }
        if !self.numbers_within {
            let place = rng.below(schedule.fields.len() as u64) as usize;
            schedule.fields[place] = 65_536;
        }
        schedule
    }

    /// The writer's answer: E too large for the coding, then a part of an
    /// event, sizes, E, numbers.
    fn answer(&self) -> Refusal {
        if self.events > MOST_OF_CODING {
            BAD_NUMBER
        } else if self.part != 0 || !self.sizes_within {
            OUTSIDE_RANGE
        } else if self.events > MOST_EVENTS {
            OUTSIDE_SIZES
        } else if !self.numbers_within {
            BAD_NUMBER
        } else {
            0
        }
    }
}

/// Numbers of many events, given to the writer.
pub fn event_counts(rng: &mut Rng) -> Outcome {
    let mut comparisons = Comparisons::new();
    for events in EVENT_COUNTS {
        for given in Given::all_of(events) {
            for _ in 0..REPEATS {
                let schedule = given.schedule(rng);
                writing::compare_answer(&mut comparisons, rng, &schedule, given.answer())?;
            }
        }
    }
    comparisons.made()
}

/// Random schedules of 4,095 and 4,096 events are written and read back, and
/// their files damaged. Those of 4,097 are refused 3.
pub fn long_schedules(rng: &mut Rng) -> Outcome {
    let mut comparisons = Comparisons::new();
    for _ in 0..LONG_SCHEDULES {
        for events in [MOST_EVENTS - 1, MOST_EVENTS] {
            let schedule = Schedule::of_events(rng, events);
            writing::compare_both_ways(&mut comparisons, rng, &schedule)?;
            compare_damaged(&mut comparisons, rng, &schedule)?;
        }
        let schedule = Schedule::of_events(rng, MOST_EVENTS + 1);
        forms::compare_answer(&mut comparisons, rng, &schedule, OUTSIDE_SIZES)?;
    }
    comparisons.made()
}

fn compare_damaged(
    comparisons: &mut Comparisons,
    rng: &mut Rng,
    schedule: &Schedule,
) -> Result<(), String> {
    let file = schedule.file();
    for _ in 0..DAMAGES {
        let bytes = damage::damaged(rng, &file);
        let room = random_room(rng, schedule.fields.len(), &bytes);
        reading::compare::<Schedule>(comparisons, &bytes, &room)?;
    }
    Ok(())
}

/// The longest schedule is 36,872 bytes long and accepted; one byte more is
/// refused 13.
pub fn longest_schedule(rng: &mut Rng) -> Outcome {
    let mut comparisons = Comparisons::new();
    let schedule = longest();
    let mut file = schedule.file();
    if file.len() != LONGEST {
        return Err(format!("the longest schedule has {} bytes", file.len()));
    }
    writing::compare_both_ways(&mut comparisons, rng, &schedule)?;
    compare_damaged(&mut comparisons, rng, &schedule)?;
    for byte in [0x00, 0x01, 0x7f, 0x80, 0xff] {
        file.push(byte);
        let room = random_room(rng, schedule.fields.len(), &file);
        reading::compare_refused::<Schedule>(&mut comparisons, &file, &room, BYTES_FOLLOW)?;
    }
    comparisons.made()
}

/// Every prefix of the longest schedule is refused 11.
pub fn prefixes_of_the_longest(rng: &mut Rng) -> Outcome {
    let mut comparisons = Comparisons::new();
    let file = longest().file();
    for end in 0..file.len() {
        let room = Lent::random(rng, EVENT, EVENT);
        reading::compare_refused::<Schedule>(&mut comparisons, &file[..end], &room, INPUT_ENDS)?;
    }
    comparisons.made()
}
