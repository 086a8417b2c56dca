//! Scan tables: S, then S records of tag, shelf, device and time.

use crate::numbers::{self, TABLE_LIMIT};
use crate::refusal::{
    Refusal, BAD_NUMBER, BYTES_FOLLOW, DEVICE, NO_ROOM, OUTSIDE_RANGE, OUTSIDE_SIZES,
};

/// The greatest number of scans.
pub const GREATEST_S: u64 = 64;
/// The greatest tag, 2^32-1.
pub const GREATEST_TAG: u64 = (1 << 32) - 1;
/// The greatest shelf.
pub const GREATEST_SHELF: u64 = 65_535;
/// The greatest device; the least is 1.
pub const GREATEST_DEVICE: u64 = 255;
/// The greatest time, 2^48-1 milliseconds, which is the coding's own limit.
pub const GREATEST_TIME: u64 = TABLE_LIMIT;

/// A scan record.
#[derive(Clone, Copy, Debug, Default, PartialEq, Eq)]
pub struct Record {
    pub tag: u64,
    pub shelf: u64,
    pub device: u64,
    pub time: u64,
}

/// Reads a scan table into the lent room and gives S. The room past the S
/// records stays as it was; a refusal stores nothing.
pub fn read(bytes: &[u8], room: &mut [Record]) -> Result<usize, Refusal> {
    let (s, first) = read_s(bytes)?;
    let mut place = first;
    for _ in 0..s {
        place = read_record(bytes, place)?.1;
    }
    if place < bytes.len() {
        return Err(BYTES_FOLLOW);
    }
    if room.len() < s {
        return Err(NO_ROOM);
    }
    place = first;
    for record in &mut room[..s] {
        let (read, next) = read_record(bytes, place)?;
        *record = read;
        place = next;
    }
    Ok(s)
}

/// Writes a scan table and gives its length. Bytes past the written ones stay
/// as they were; a refusal writes nothing.
pub fn write(records: &[Record], buffer: &mut [u8]) -> Result<usize, Refusal> {
    let s = records.len() as u64;
    test_s(s)?;
    let mut length = numbers::width(s);
    for record in records {
        test_written(record)?;
        length += width(record);
    }
    if buffer.len() < length {
        return Err(NO_ROOM);
    }
    let mut place = numbers::write(buffer, 0, TABLE_LIMIT, s)?;
    for record in records {
        place = numbers::write(buffer, place, TABLE_LIMIT, record.tag)?;
        place = numbers::write(buffer, place, TABLE_LIMIT, record.shelf)?;
        place = numbers::write(buffer, place, TABLE_LIMIT, record.device)?;
        place = numbers::write(buffer, place, TABLE_LIMIT, record.time)?;
    }
    Ok(place)
}

/// Tests records that are already read: S, then record by record tag, shelf,
/// device and time.
pub fn test_table(records: &[Record]) -> Result<(), Refusal> {
    test_s(records.len() as u64)?;
    for record in records {
        test_tag(record.tag)?;
        test_shelf(record.shelf)?;
        test_device(record.device)?;
        test_time(record.time)?;
    }
    Ok(())
}

/// Refused 1 where S is not 1 to 64.
fn test_s(s: u64) -> Result<(), Refusal> {
    if !(1..=GREATEST_S).contains(&s) {
        return Err(OUTSIDE_RANGE);
    }
    Ok(())
}

/// Refused 3 where the tag is above its limit.
pub(crate) fn test_tag(tag: u64) -> Result<(), Refusal> {
    if tag > GREATEST_TAG {
        return Err(OUTSIDE_SIZES);
    }
    Ok(())
}

/// Refused 3 where the shelf is above its limit.
fn test_shelf(shelf: u64) -> Result<(), Refusal> {
    if shelf > GREATEST_SHELF {
        return Err(OUTSIDE_SIZES);
    }
    Ok(())
}

/// Refused 10 where the device is 0 or above 255.
fn test_device(device: u64) -> Result<(), Refusal> {
    if !(1..=GREATEST_DEVICE).contains(&device) {
        return Err(DEVICE);
    }
    Ok(())
}

/// Refused 12 where the time is too large.
fn test_time(time: u64) -> Result<(), Refusal> {
    if time > GREATEST_TIME {
        return Err(BAD_NUMBER);
    }
    Ok(())
}

/// Refused 12 where the value is too large for the coding.
fn test_coding(value: u64) -> Result<(), Refusal> {
    if value > TABLE_LIMIT {
        return Err(BAD_NUMBER);
    }
    Ok(())
}

/// Tests a record in its reader's order: each field's coding, then its range.
fn test_written(record: &Record) -> Result<(), Refusal> {
    test_coding(record.tag)?;
    test_tag(record.tag)?;
    test_coding(record.shelf)?;
    test_shelf(record.shelf)?;
    test_coding(record.device)?;
    test_device(record.device)?;
    test_time(record.time)
}

/// Reads S and tests it at once: S and the place after it.
fn read_s(bytes: &[u8]) -> Result<(usize, usize), Refusal> {
    let (s, next) = numbers::read(bytes, 0, TABLE_LIMIT)?;
    test_s(s)?;
    Ok((s as usize, next))
}

/// Reads one record, each range tested when read: the record and the place
/// after it.
#[inline]
fn read_record(bytes: &[u8], place: usize) -> Result<(Record, usize), Refusal> {
    let (tag, place) = numbers::read(bytes, place, TABLE_LIMIT)?;
    test_tag(tag)?;
    let (shelf, place) = numbers::read(bytes, place, TABLE_LIMIT)?;
    test_shelf(shelf)?;
    let (device, place) = numbers::read(bytes, place, TABLE_LIMIT)?;
    test_device(device)?;
    let (time, place) = numbers::read(bytes, place, GREATEST_TIME)?;
    let record = Record {
        tag,
        shelf,
        device,
        time,
    };
    Ok((record, place))
}

/// How many bytes the record's written form takes.
fn width(record: &Record) -> usize {
    numbers::width(record.tag)
        + numbers::width(record.shelf)
        + numbers::width(record.device)
        + numbers::width(record.time)
}

#[cfg(test)]
mod tests {
    use super::*;
    use crate::rng::Rng;

    const OTHER: Record = Record {
        tag: 7,
        shelf: 7,
        device: 7,
        time: 7,
    };

    fn record(tag: u64, shelf: u64, device: u64, time: u64) -> Record {
        Record {
            tag,
            shelf,
            device,
            time,
        }
    }

    fn refused(bytes: &[u8]) -> Refusal {
        let mut room = [OTHER; 64];
        let refusal = read(bytes, &mut room).unwrap_err();
        assert_eq!(room, [OTHER; 64]);
        refusal
    }

    fn refused_write(records: &[Record]) -> Refusal {
        let mut buffer = [0xaa; 4_000];
        let refusal = write(records, &mut buffer).unwrap_err();
        assert_eq!(buffer, [0xaa; 4_000]);
        assert_eq!(write(records, &mut []), Err(refusal));
        refusal
    }

    #[test]
    fn reads_records_and_leaves_the_rest() {
        let bytes = [2, 0x80, 1, 5, 1, 9, 0, 0, 255, 1, 0];
        let mut room = [OTHER; 3];
        assert_eq!(read(&bytes, &mut room), Ok(2));
        assert_eq!(room, [record(128, 5, 1, 9), record(0, 0, 255, 0), OTHER]);
    }

    #[test]
    fn s_is_tested_at_once() {
        assert_eq!(refused(&[]), 11);
        assert_eq!(refused(&[0x80]), 11);
        assert_eq!(refused(&[0x80, 0]), 12);
        assert_eq!(refused(&[0x80; 7]), 12);
        assert_eq!(refused(&[0]), 1);
        assert_eq!(refused(&[0, 0]), 1);
        assert_eq!(refused(&[65]), 1);
        assert_eq!(refused(&[0xff, 0xff, 0xff, 0xff, 0xff, 0xff, 0x3f]), 1);
        assert_eq!(refused(&[64]), 11);
    }

    #[test]
    fn each_range_is_tested_when_read() {
        let two_to_32 = [0x80, 0x80, 0x80, 0x80, 0x10];
        let mut bytes = vec![1];
        bytes.extend_from_slice(&two_to_32);
        assert_eq!(refused(&bytes), 3);
        assert_eq!(refused(&[1, 0]), 11);
        assert_eq!(refused(&[1, 0, 0x80, 0x80, 0x04]), 3);
        assert_eq!(refused(&[1, 0, 0xff, 0xff, 0x03]), 11);
        assert_eq!(refused(&[1, 0, 0, 0]), 10);
        assert_eq!(refused(&[1, 0, 0, 0x80, 0x02]), 10);
        assert_eq!(refused(&[1, 0, 0, 0xff, 0x01]), 11);
        assert_eq!(refused(&[1, 0, 0, 1]), 11);
        let too_large = [1, 0, 0, 1, 0x80, 0x80, 0x80, 0x80, 0x80, 0x80, 0x40];
        assert_eq!(refused(&too_large), 12);
        assert_eq!(refused(&[1, 0, 0, 1, 0x80, 0]), 12);
        assert_eq!(refused(&[2, 0, 0, 1, 0, 0, 0, 0]), 10);
    }

    #[test]
    fn bytes_that_follow_come_before_the_room() {
        assert_eq!(refused(&[1, 0, 0, 1, 0, 0]), 13);
        assert_eq!(read(&[1, 0, 0, 1, 0, 0], &mut []), Err(13));
        assert_eq!(read(&[1, 0, 0, 1, 0], &mut []), Err(8));
        let mut room = [OTHER; 1];
        assert_eq!(
            read(&[2, 0, 0, 1, 0, 0, 0, 1, 0], &mut room),
            Err(8),
            "room for one record of two"
        );
        assert_eq!(room, [OTHER; 1]);
        assert_eq!(read(&[1, 0, 0, 1, 0], &mut room), Ok(1));
        assert_eq!(room, [record(0, 0, 1, 0)]);
    }

    #[test]
    fn writes_what_is_read() {
        let records = [record(128, 5, 1, 9), record(0, 0, 255, 0)];
        let mut buffer = [0xaa; 12];
        assert_eq!(write(&records, &mut buffer), Ok(11));
        assert_eq!(buffer, [2, 0x80, 1, 5, 1, 9, 0, 0, 255, 1, 0, 0xaa]);
    }

    #[test]
    fn the_writer_tests_as_the_reader_would() {
        assert_eq!(refused_write(&[]), 1);
        assert_eq!(refused_write(&[record(0, 0, 1, 0); 65]), 1);
        assert_eq!(refused_write(&[record(u64::MAX, 0, 0, 0); 65]), 1);
        let beyond = TABLE_LIMIT + 1;
        assert_eq!(refused_write(&[record(GREATEST_TAG + 1, 0, 0, 0)]), 3);
        assert_eq!(refused_write(&[record(TABLE_LIMIT, 0, 0, 0)]), 3);
        assert_eq!(refused_write(&[record(beyond, 0, 0, 0)]), 12);
        assert_eq!(refused_write(&[record(0, 65_536, 0, 0)]), 3);
        assert_eq!(refused_write(&[record(0, TABLE_LIMIT, 0, 0)]), 3);
        assert_eq!(refused_write(&[record(0, beyond, 0, 0)]), 12);
        assert_eq!(refused_write(&[record(0, 0, 0, beyond)]), 10);
        assert_eq!(refused_write(&[record(0, 0, 256, beyond)]), 10);
        assert_eq!(refused_write(&[record(0, 0, TABLE_LIMIT, beyond)]), 10);
        assert_eq!(refused_write(&[record(0, 0, beyond, 0)]), 12);
        assert_eq!(refused_write(&[record(0, 0, 1, beyond)]), 12);
        assert_eq!(refused_write(&[record(0, 0, 1, u64::MAX)]), 12);
        let second = [record(0, 0, 1, 0), record(0, 65_536, 1, 0)];
        assert_eq!(refused_write(&second), 3);
    }

    #[test]
    fn the_writer_needs_the_whole_length() {
        let greatest = record(GREATEST_TAG, GREATEST_SHELF, GREATEST_DEVICE, GREATEST_TIME);
        let records = [greatest; 64];
        let length = 1 + 64 * (5 + 3 + 2 + 7);
        let mut buffer = vec![0xaa; length - 1];
        assert_eq!(write(&records, &mut buffer), Err(8));
        assert!(buffer.iter().all(|byte| *byte == 0xaa));
        buffer.push(0xaa);
        assert_eq!(write(&records, &mut buffer), Ok(length));
        let mut room = [OTHER; 64];
        assert_eq!(read(&buffer, &mut room), Ok(64));
        assert_eq!(room, records);
    }

    #[test]
    fn tests_of_records_already_read() {
        assert_eq!(test_table(&[]), Err(1));
        assert_eq!(test_table(&[record(0, 0, 1, 0); 64]), Ok(()));
        assert_eq!(test_table(&[record(0, 0, 0, 0); 65]), Err(1));
        assert_eq!(test_table(&[record(u64::MAX, 0, 0, 0)]), Err(3));
        assert_eq!(test_table(&[record(0, u64::MAX, 0, 0)]), Err(3));
        assert_eq!(test_table(&[record(0, 0, 0, u64::MAX)]), Err(10));
        assert_eq!(test_table(&[record(0, 0, u64::MAX, 0)]), Err(10));
        assert_eq!(test_table(&[record(0, 0, 1, TABLE_LIMIT + 1)]), Err(12));
    }

    #[test]
    fn drawn_tables_are_read_back_and_their_prefixes_refused() {
        let mut rng = Rng::new(5);
        for _ in 0..50 {
            let s = rng.within(1, 64) as usize;
            let mut records = [OTHER; 64];
            for record in &mut records[..s] {
                let bits = rng.below(49);
                record.tag = rng.below(GREATEST_TAG + 1) >> bits.min(32);
                record.shelf = rng.below(65_536);
                record.device = rng.within(1, 255);
                record.time = rng.below(GREATEST_TIME + 1) >> bits;
            }
            let mut buffer = [0; 1_089];
            let length = write(&records[..s], &mut buffer).unwrap();
            let mut room = [OTHER; 64];
            assert_eq!(read(&buffer[..length], &mut room), Ok(s));
            assert_eq!(room, records);
            for end in 0..length {
                assert_eq!(read(&buffer[..end], &mut room), Err(11));
            }
            if length < buffer.len() {
                assert_eq!(read(&buffer[..length + 1], &mut room), Err(13));
            }
        }
    }
}
