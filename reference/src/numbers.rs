//! The number coding: groups of seven bits, low group first, top bit set while
//! more follow, no last group of 0 except the number 0 itself.

use crate::refusal::{Refusal, BAD_NUMBER, INPUT_ENDS, NO_ROOM};

/// The greatest number of a schedule; it takes three groups.
pub const SCHEDULE_LIMIT: u64 = 65_535;

/// The greatest number of a scan table; it takes seven groups.
pub const TABLE_LIMIT: u64 = (1 << 48) - 1;

/// Reads the number that begins at `place`: its value and the place after it.
///
/// Refused 11 where the bytes end before the number does, 12 as soon as the
/// number is not in shortest form or is above `limit`.
#[inline]
pub fn read(bytes: &[u8], place: usize, limit: u64) -> Result<(u64, usize), Refusal> {
    let mut value = 0;
    let mut shift = 0;
    let mut next = place;
    loop {
        let byte = match bytes.get(next) {
            Some(byte) => *byte,
            None => return Err(INPUT_ENDS),
        };
        next += 1;
        let group = u64::from(byte & 0x7f);
        let more = byte & 0x80 != 0;
        // What the limit leaves for this group and those after it.
        let rest = limit >> shift;
        if group > rest || (more && rest < 128) {
            return Err(BAD_NUMBER);
        }
        value |= group << shift;
        if !more {
            let last_of_zero = group == 0 && shift > 0;
            if last_of_zero || value > limit {
                return Err(BAD_NUMBER);
            }
            return Ok((value, next));
        }
        shift += 7;
    }
}

/// Writes `value` at `place` and gives the place after it.
///
/// Refused 12 where the value is above `limit`, then 8 where the buffer is too
/// short. A refusal writes nothing.
#[inline]
pub fn write(buffer: &mut [u8], place: usize, limit: u64, value: u64) -> Result<usize, Refusal> {
    if value > limit {
        return Err(BAD_NUMBER);
    }
    if place > buffer.len() || buffer.len() - place < width(value) {
        return Err(NO_ROOM);
    }
    let mut rest = value;
    let mut next = place;
    while rest >= 128 {
        buffer[next] = (rest & 0x7f) as u8 | 0x80;
        rest >>= 7;
        next += 1;
    }
    buffer[next] = rest as u8;
    Ok(next + 1)
}

/// How many bytes the shortest form of `value` takes.
#[inline]
pub fn width(value: u64) -> usize {
    let bits = 64 - (value | 1).leading_zeros();
    ((bits + 6) / 7) as usize
}

#[cfg(test)]
mod tests {
    use super::*;

    fn read_schedule(bytes: &[u8]) -> Result<(u64, usize), Refusal> {
        read(bytes, 0, SCHEDULE_LIMIT)
    }

    fn read_table(bytes: &[u8]) -> Result<(u64, usize), Refusal> {
        read(bytes, 0, TABLE_LIMIT)
    }

    #[test]
    fn examples_at_the_edges() {
        assert_eq!(read_schedule(&[0x80, 0x00]), Err(12));
        assert_eq!(read_schedule(&[0xff, 0xff, 0x03]), Ok((65_535, 3)));
        assert_eq!(read_schedule(&[0xff, 0xff, 0x04]), Err(12));
        assert_eq!(read_schedule(&[0x80]), Err(11));
        assert_eq!(read_table(&[0x80, 0x00]), Err(12));
        assert_eq!(read_table(&[0x80]), Err(11));
    }

    #[test]
    fn zero_is_one_byte() {
        assert_eq!(read_schedule(&[0x00]), Ok((0, 1)));
        assert_eq!(read_schedule(&[0x80, 0x80, 0x00]), Err(12));
        assert_eq!(width(0), 1);
    }

    #[test]
    fn a_third_group_with_its_top_bit_set_is_12_at_once() {
        assert_eq!(read_schedule(&[0x80, 0x80]), Err(11));
        assert_eq!(read_schedule(&[0x80, 0x80, 0x80]), Err(12));
        assert_eq!(read_schedule(&[0xff, 0xff, 0x81]), Err(12));
        assert_eq!(read_schedule(&[0xff, 0xff, 0x83, 0x00]), Err(12));
    }

    #[test]
    fn a_seventh_group_with_its_top_bit_set_is_12_at_once() {
        assert_eq!(read_table(&[0x80; 6]), Err(11));
        assert_eq!(read_table(&[0x80; 7]), Err(12));
        assert_eq!(read_table(&[0x80, 0x80, 0x80, 1]), Ok((1 << 21, 4)));
        let greatest = [0xff, 0xff, 0xff, 0xff, 0xff, 0xff, 0x3f];
        assert_eq!(read_table(&greatest), Ok((TABLE_LIMIT, 7)));
        let one_more = [0x80, 0x80, 0x80, 0x80, 0x80, 0x80, 0x40];
        assert_eq!(read_table(&one_more), Err(12));
        let not_shortest = [0x80, 0x80, 0x80, 0x80, 0x80, 0x80, 0x00];
        assert_eq!(read_table(&not_shortest), Err(12));
    }

    #[test]
    fn reading_begins_at_the_place() {
        let bytes = [7, 0x81, 0x01, 9];
        assert_eq!(read(&bytes, 1, SCHEDULE_LIMIT), Ok((129, 3)));
        assert_eq!(read(&bytes, 3, SCHEDULE_LIMIT), Ok((9, 4)));
        assert_eq!(read(&bytes, 4, SCHEDULE_LIMIT), Err(11));
        assert_eq!(read(&bytes, 5, SCHEDULE_LIMIT), Err(11));
        assert_eq!(read(&bytes, usize::MAX, SCHEDULE_LIMIT), Err(11));
        assert_eq!(read(&[], 0, TABLE_LIMIT), Err(11));
    }

    #[test]
    fn other_limits() {
        assert_eq!(read(&[0], 0, 0), Ok((0, 1)));
        assert_eq!(read(&[1], 0, 0), Err(12));
        assert_eq!(read(&[0x80], 0, 0), Err(12));
        assert_eq!(read(&[0xc8, 0x01], 0, 200), Ok((200, 2)));
        assert_eq!(read(&[0xc9, 0x01], 0, 200), Err(12));
        let mut greatest = [0xff; 10];
        greatest[9] = 0x01;
        assert_eq!(read(&greatest, 0, u64::MAX), Ok((u64::MAX, 10)));
        greatest[9] = 0x02;
        assert_eq!(read(&greatest, 0, u64::MAX), Err(12));
        assert_eq!(read(&[0xff; 10], 0, u64::MAX), Err(12));
    }

    #[test]
    fn every_schedule_number_is_read_back() {
        for value in 0..=SCHEDULE_LIMIT {
            let mut buffer = [0xaa; 5];
            let next = write(&mut buffer, 1, SCHEDULE_LIMIT, value).unwrap();
            assert_eq!(next - 1, width(value));
            assert_eq!(read(&buffer, 1, SCHEDULE_LIMIT), Ok((value, next)));
            assert_eq!(buffer[0], 0xaa);
            assert!(buffer[next..].iter().all(|byte| *byte == 0xaa));
        }
    }

    #[test]
    fn every_power_of_two_is_read_back() {
        for bit in 0..64 {
            for value in [(1u64 << bit) - 1, 1 << bit] {
                let mut buffer = [0; 10];
                let next = write(&mut buffer, 0, u64::MAX, value).unwrap();
                assert_eq!(next, width(value));
                assert_eq!(read(&buffer, 0, u64::MAX), Ok((value, next)));
                let table = if value <= TABLE_LIMIT {
                    Ok((value, next))
                } else {
                    Err(12)
                };
                assert_eq!(read(&buffer, 0, TABLE_LIMIT), table);
            }
        }
    }

    #[test]
    fn only_the_shortest_form_is_read() {
        for first in 0..=255u8 {
            for second in 0..=255u8 {
                for third in [0, 1, 3, 4, 0x7f, 0x80, 0x83, 0xff] {
                    let bytes = [first, second, third];
                    if let Ok((value, next)) = read_schedule(&bytes) {
                        let mut buffer = [0; 3];
                        assert_eq!(write(&mut buffer, 0, SCHEDULE_LIMIT, value), Ok(next));
                        assert_eq!(buffer[..next], bytes[..next]);
                    }
                }
            }
        }
    }

    #[test]
    fn writing_refuses_12_then_8() {
        let mut buffer = [0xaa; 3];
        assert_eq!(write(&mut buffer, 9, SCHEDULE_LIMIT, 65_536), Err(12));
        assert_eq!(write(&mut buffer, 1, SCHEDULE_LIMIT, 65_535), Err(8));
        assert_eq!(write(&mut buffer, 3, SCHEDULE_LIMIT, 0), Err(8));
        assert_eq!(write(&mut buffer, 4, SCHEDULE_LIMIT, 0), Err(8));
        assert_eq!(write(&mut buffer, usize::MAX, SCHEDULE_LIMIT, 0), Err(8));
        assert_eq!(write(&mut buffer, 0, TABLE_LIMIT, TABLE_LIMIT), Err(8));
        assert_eq!(write(&mut buffer, 0, TABLE_LIMIT, TABLE_LIMIT + 1), Err(12));
        assert_eq!(buffer, [0xaa; 3]);
        assert_eq!(write(&mut buffer, 0, SCHEDULE_LIMIT, 65_535), Ok(3));
        assert_eq!(buffer, [0xff, 0xff, 0x03]);
    }

    #[test]
    fn widths() {
        assert_eq!(width(127), 1);
        assert_eq!(width(128), 2);
        assert_eq!(width(16_383), 2);
        assert_eq!(width(16_384), 3);
        assert_eq!(width(SCHEDULE_LIMIT), 3);
        assert_eq!(width(TABLE_LIMIT), 7);
        assert_eq!(width(u64::MAX), 10);
    }
}
