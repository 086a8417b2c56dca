//! Schedules: P, A, L, M, S, E, then E events of code, a and b.

use crate::numbers::{self, SCHEDULE_LIMIT};
use crate::refusal::{Refusal, BAD_NUMBER, BYTES_FOLLOW, NO_ROOM, OUTSIDE_RANGE, OUTSIDE_SIZES};

/// The greatest number of proposers.
pub const GREATEST_P: u64 = 8;
/// The greatest number of acceptors.
pub const GREATEST_A: u64 = 7;
/// The greatest number of learners.
pub const GREATEST_L: u64 = 8;
/// The least number of message slots.
pub const LEAST_M: u64 = 16;
/// The greatest number of message slots.
pub const GREATEST_M: u64 = 512;
/// The greatest number of scans.
pub const GREATEST_S: u64 = 64;
/// The greatest number of events.
pub const GREATEST_E: u64 = 4_096;
/// The length of the longest accepted schedule.
pub const LONGEST: usize = 36_872;

/// The sizes of a run.
#[derive(Clone, Copy, Debug, Default, PartialEq, Eq)]
pub struct Sizes {
    pub p: u64,
    pub a: u64,
    pub l: u64,
    pub m: u64,
    pub s: u64,
}

/// An event: its code and its arguments.
#[derive(Clone, Copy, Debug, Default, PartialEq, Eq)]
pub struct Event {
    pub code: u64,
    pub a: u64,
    pub b: u64,
}

/// Refused 1 where a size is outside its range.
pub fn test_sizes(sizes: &Sizes) -> Result<(), Refusal> {
    let within = (1..=GREATEST_P).contains(&sizes.p)
        && (1..=GREATEST_A).contains(&sizes.a)
        && (1..=GREATEST_L).contains(&sizes.l)
        && (LEAST_M..=GREATEST_M).contains(&sizes.m)
        && (1..=GREATEST_S).contains(&sizes.s);
    if within {
        Ok(())
    } else {
        Err(OUTSIDE_RANGE)
    }
}

/// Reads a schedule's events into the lent room and gives the sizes and E. The
/// room past the E events stays as it was; a refusal stores nothing.
pub fn read(bytes: &[u8], room: &mut [Event]) -> Result<(Sizes, usize), Refusal> {
    let (sizes, e, first) = read_header(bytes)?;
    let mut place = first;
    for _ in 0..e {
        place = read_event(bytes, place)?.1;
    }
    if place < bytes.len() {
        return Err(BYTES_FOLLOW);
    }
    if room.len() < e {
        return Err(NO_ROOM);
    }
    place = first;
    for event in &mut room[..e] {
        let (read, next) = read_event(bytes, place)?;
        *event = read;
        place = next;
    }
    Ok((sizes, e))
}

/// Writes a schedule and gives its length. Bytes past the written ones stay as
/// they were; a refusal writes nothing.
pub fn write(sizes: &Sizes, events: &[Event], buffer: &mut [u8]) -> Result<usize, Refusal> {
    let e = events.len() as u64;
    let header = [sizes.p, sizes.a, sizes.l, sizes.m, sizes.s, e];
    let mut length = 0;
    for value in header {
        test_coding(value)?;
        length += numbers::width(value);
    }
    test_sizes(sizes)?;
    test_e(e)?;
    for event in events {
        for value in [event.code, event.a, event.b] {
            test_coding(value)?;
            length += numbers::width(value);
        }
    }
    if buffer.len() < length {
        return Err(NO_ROOM);
    }
    let mut place = 0;
    for value in header {
        place = numbers::write(buffer, place, SCHEDULE_LIMIT, value)?;
    }
    for event in events {
        for value in [event.code, event.a, event.b] {
            place = numbers::write(buffer, place, SCHEDULE_LIMIT, value)?;
        }
    }
    Ok(place)
}

/// Refused 3 where E is above 4,096.
fn test_e(e: u64) -> Result<(), Refusal> {
    if e > GREATEST_E {
        return Err(OUTSIDE_SIZES);
    }
    Ok(())
}

/// Refused 12 where the value is too large for the coding.
fn test_coding(value: u64) -> Result<(), Refusal> {
    if value > SCHEDULE_LIMIT {
        return Err(BAD_NUMBER);
    }
    Ok(())
}

/// Reads the six numbers, then tests the sizes and E: the sizes, E and the
/// place of the first event.
fn read_header(bytes: &[u8]) -> Result<(Sizes, usize, usize), Refusal> {
    let (p, place) = numbers::read(bytes, 0, SCHEDULE_LIMIT)?;
    let (a, place) = numbers::read(bytes, place, SCHEDULE_LIMIT)?;
    let (l, place) = numbers::read(bytes, place, SCHEDULE_LIMIT)?;
    let (m, place) = numbers::read(bytes, place, SCHEDULE_LIMIT)?;
    let (s, place) = numbers::read(bytes, place, SCHEDULE_LIMIT)?;
    let (e, place) = numbers::read(bytes, place, SCHEDULE_LIMIT)?;
    let sizes = Sizes { p, a, l, m, s };
    test_sizes(&sizes)?;
    test_e(e)?;
    Ok((sizes, e as usize, place))
}

/// Reads one event: the event and the place after it. Its code and arguments
/// are not tested.
#[inline]
fn read_event(bytes: &[u8], place: usize) -> Result<(Event, usize), Refusal> {
    let (code, place) = numbers::read(bytes, place, SCHEDULE_LIMIT)?;
    let (a, place) = numbers::read(bytes, place, SCHEDULE_LIMIT)?;
    let (b, place) = numbers::read(bytes, place, SCHEDULE_LIMIT)?;
    Ok((Event { code, a, b }, place))
}

#[cfg(test)]
mod tests {
    use super::*;
    use crate::rng::Rng;

    const OTHER: Event = Event {
        code: 9,
        a: 9,
        b: 9,
    };

    const LEAST: Sizes = Sizes {
        p: 1,
        a: 1,
        l: 1,
        m: 16,
        s: 1,
    };

    const GREATEST: Sizes = Sizes {
        p: 8,
        a: 7,
        l: 8,
        m: 512,
        s: 64,
    };

    fn event(code: u64, a: u64, b: u64) -> Event {
        Event { code, a, b }
    }

    fn refused(bytes: &[u8]) -> Refusal {
        let mut room = [OTHER; 8];
        let refusal = read(bytes, &mut room).unwrap_err();
        assert_eq!(room, [OTHER; 8]);
        refusal
    }

    fn refused_write(sizes: &Sizes, events: &[Event]) -> Refusal {
        let mut buffer = [0xaa; 64];
        let refusal = write(sizes, events, &mut buffer).unwrap_err();
        assert_eq!(buffer, [0xaa; 64]);
        assert_eq!(write(sizes, events, &mut []), Err(refusal));
        refusal
    }

    #[test]
    fn reads_events_and_leaves_the_rest() {
        let bytes = [2, 1, 1, 0x80, 4, 2, 2, 1, 0, 0, 0xff, 0xff, 3, 0, 0x80, 1];
        let mut room = [OTHER; 3];
        let sizes = Sizes {
            p: 2,
            a: 1,
            l: 1,
            m: 512,
            s: 2,
        };
        assert_eq!(read(&bytes, &mut room), Ok((sizes, 2)));
        assert_eq!(room, [event(1, 0, 0), event(65_535, 0, 128), OTHER]);
    }

    #[test]
    fn the_six_are_read_before_the_sizes_are_tested() {
        assert_eq!(refused(&[]), 11);
        assert_eq!(refused(&[0]), 11);
        assert_eq!(refused(&[0, 0, 0, 0, 0]), 11);
        assert_eq!(refused(&[0, 0, 0, 0, 0, 0x80]), 11);
        assert_eq!(refused(&[0, 0, 0, 0, 0, 0x80, 0]), 12);
        assert_eq!(refused(&[0, 0, 0, 0, 0, 0]), 1);
        assert_eq!(refused(&[0xff, 0xff, 4]), 12);
        let greatest_e = [1, 1, 1, 15, 1, 0xff, 0xff, 3];
        assert_eq!(refused(&greatest_e), 1);
        let above_e = [1, 1, 1, 16, 1, 0x81, 0x20];
        assert_eq!(refused(&above_e), 3);
        let whole_e = [1, 1, 1, 16, 1, 0x80, 0x20];
        assert_eq!(refused(&whole_e), 11);
    }

    #[test]
    fn each_size_has_its_range() {
        assert_eq!(test_sizes(&LEAST), Ok(()));
        assert_eq!(test_sizes(&GREATEST), Ok(()));
        for sizes in [
            Sizes { p: 0, ..LEAST },
            Sizes { a: 0, ..LEAST },
            Sizes { l: 0, ..LEAST },
            Sizes { m: 15, ..LEAST },
            Sizes { s: 0, ..LEAST },
            Sizes { p: 9, ..GREATEST },
            Sizes { a: 8, ..GREATEST },
            Sizes { l: 9, ..GREATEST },
            Sizes { m: 513, ..GREATEST },
            Sizes { s: 65, ..GREATEST },
            Sizes {
                p: u64::MAX,
                ..GREATEST
            },
        ] {
            assert_eq!(test_sizes(&sizes), Err(1));
        }
        assert_eq!(refused(&[1, 1, 1, 15, 1, 0]), 1);
    }

    #[test]
    fn bytes_that_follow_come_before_the_room() {
        assert_eq!(refused(&[1, 1, 1, 16, 1, 0, 0]), 13);
        assert_eq!(refused(&[1, 1, 1, 16, 1, 1, 1, 0]), 11);
        assert_eq!(refused(&[1, 1, 1, 16, 1, 1, 1, 0, 0x80, 0]), 12);
        let bytes = [1, 1, 1, 16, 1, 1, 1, 0, 0, 7];
        assert_eq!(read(&bytes, &mut []), Err(13));
        assert_eq!(read(&bytes[..9], &mut []), Err(8));
        assert_eq!(read(&bytes[..9], &mut [OTHER]), Ok((LEAST, 1)));
        let none = [1, 1, 1, 16, 1, 0];
        assert_eq!(read(&none, &mut []), Ok((LEAST, 0)));
    }

    #[test]
    fn the_writer_tests_as_the_reader_would() {
        assert_eq!(refused_write(&Sizes { p: 0, ..LEAST }, &[]), 1);
        let late = Sizes {
            p: 0,
            s: 65_536,
            ..LEAST
        };
        assert_eq!(refused_write(&late, &[]), 12);
        assert_eq!(refused_write(&Sizes { m: 65_535, ..LEAST }, &[]), 1);
        let bad = event(65_536, 0, 0);
        assert_eq!(refused_write(&LEAST, &[bad]), 12);
        assert_eq!(refused_write(&LEAST, &[event(0, u64::MAX, 0)]), 12);
        assert_eq!(refused_write(&LEAST, &[event(0, 0, 65_536)]), 12);
        assert_eq!(refused_write(&Sizes { p: 0, ..LEAST }, &[bad]), 1);
        assert_eq!(refused_write(&LEAST, &[bad; 4_097]), 3);
        assert_eq!(refused_write(&late, &[bad; 4_097]), 12);
        assert_eq!(refused_write(&Sizes { p: 0, ..LEAST }, &[bad; 4_097]), 1);
        assert_eq!(refused_write(&LEAST, &vec![bad; 65_535]), 3);
        assert_eq!(refused_write(&LEAST, &vec![bad; 65_536]), 12);
        let bad_sizes = Sizes { p: 0, ..LEAST };
        assert_eq!(refused_write(&bad_sizes, &vec![bad; 65_536]), 12);
    }

    #[test]
    fn the_longest_accepted_schedule() {
        let events = vec![event(65_535, 65_535, 65_535); 4_096];
        let mut buffer = vec![0xaa; LONGEST - 1];
        assert_eq!(write(&GREATEST, &events, &mut buffer), Err(8));
        assert!(buffer.iter().all(|byte| *byte == 0xaa));
        buffer.extend_from_slice(&[0xaa, 0xaa]);
        assert_eq!(write(&GREATEST, &events, &mut buffer), Ok(LONGEST));
        assert_eq!(buffer[LONGEST], 0xaa);
        let mut room = vec![OTHER; 4_096];
        assert_eq!(read(&buffer, &mut room), Err(13));
        assert_eq!(read(&buffer[..LONGEST], &mut room[1..]), Err(8));
        assert!(room.iter().all(|event| *event == OTHER));
        assert_eq!(read(&buffer[..LONGEST], &mut room), Ok((GREATEST, 4_096)));
        assert_eq!(room, events);
    }

    #[test]
    fn drawn_schedules_are_read_back_and_their_prefixes_refused() {
        let mut rng = Rng::new(11);
        for _ in 0..50 {
            let sizes = Sizes {
                p: rng.within(1, 8),
                a: rng.within(1, 7),
                l: rng.within(1, 8),
                m: rng.within(16, 512),
                s: rng.within(1, 64),
            };
            let mut events = Vec::new();
            for _ in 0..rng.below(30) {
                let shift = rng.below(17);
                events.push(event(
                    rng.below(12),
                    rng.below(65_536) >> shift,
                    rng.below(65_536) >> shift,
                ));
            }
            let mut buffer = [0; 400];
            let length = write(&sizes, &events, &mut buffer).unwrap();
            let mut room = [OTHER; 30];
            let read_back = read(&buffer[..length], &mut room);
            assert_eq!(read_back, Ok((sizes, events.len())));
            assert_eq!(room[..events.len()], events[..]);
            assert!(room[events.len()..].iter().all(|event| *event == OTHER));
            assert_eq!(read(&buffer[..length + 1], &mut room), Err(13));
            for end in 0..length {
                assert_eq!(read(&buffer[..end], &mut room), Err(11));
            }
        }
    }
}
