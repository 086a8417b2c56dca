//! The shelf question: on which shelf a set of scans last saw a tag.

use crate::refusal::{Refusal, OUTSIDE_SIZES};
use crate::scan_table::{self, Record, GREATEST_S};
use crate::sets::scans;

/// The newest scan of a tag.
#[derive(Clone, Copy, Debug, PartialEq, Eq)]
pub struct Answer {
    pub scan: u64,
    pub shelf: u64,
    pub time: u64,
}

/// Asks records that are already read.
///
/// The table is tested first; then a tag above 2^32-1 or a set that holds a
/// scan not below S gives 3.
pub fn ask(records: &[Record], set: u64, tag: u64) -> Result<Option<Answer>, Refusal> {
    scan_table::test_table(records)?;
    test_question(records, set, tag)?;
    Ok(newest(records, set, tag))
}

/// Asks a table in its written form.
///
/// The table is read first; then a tag above 2^32-1 or a set that holds a scan
/// not below S gives 3.
pub fn ask_written(bytes: &[u8], set: u64, tag: u64) -> Result<Option<Answer>, Refusal> {
    let mut room = [Record::default(); GREATEST_S as usize];
    let s = scan_table::read(bytes, &mut room)?;
    let records = &room[..s];
    test_question(records, set, tag)?;
    Ok(newest(records, set, tag))
}

/// Refused 3 where the tag is above its limit or the set is not within S.
fn test_question(records: &[Record], set: u64, tag: u64) -> Result<(), Refusal> {
    scan_table::test_tag(tag)?;
    if !scans::fits(set, records.len() as u64) {
        return Err(OUTSIDE_SIZES);
    }
    Ok(())
}

/// The scan of the set with the tag and the greatest time, on equal times the
/// greatest scan number.
fn newest(records: &[Record], set: u64, tag: u64) -> Option<Answer> {
    let mut newest: Option<Answer> = None;
    for (scan, record) in (0..).zip(records) {
        if !scans::holds(set, scan) || record.tag != tag {
            continue;
        }
        let earlier = match newest {
            Some(found) => found.time <= record.time,
            None => true,
        };
        if earlier {
            newest = Some(Answer {
                scan,
                shelf: record.shelf,
                time: record.time,
            });
        }
    }
    newest
}

#[cfg(test)]
mod tests {
    use super::*;
    use crate::scan_table::GREATEST_TAG;

    fn record(tag: u64, shelf: u64, time: u64) -> Record {
        Record {
            tag,
            shelf,
            device: 1,
            time,
        }
    }

    fn written(records: &[Record]) -> Vec<u8> {
        let mut buffer = vec![0; 2_000];
        let length = scan_table::write(records, &mut buffer).unwrap();
        buffer.truncate(length);
        buffer
    }

    fn both(records: &[Record], set: u64, tag: u64) -> Result<Option<Answer>, Refusal> {
        let answer = ask(records, set, tag);
        assert_eq!(ask_written(&written(records), set, tag), answer);
        answer
    }

    fn found(scan: u64, shelf: u64, time: u64) -> Result<Option<Answer>, Refusal> {
        Ok(Some(Answer { scan, shelf, time }))
    }

    #[test]
    fn the_greatest_time_and_then_the_greatest_number() {
        let records = [
            record(5, 10, 700),
            record(5, 11, 900),
            record(6, 12, 999),
            record(5, 13, 900),
            record(5, 14, 100),
        ];
        assert_eq!(both(&records, 0b11111, 5), found(3, 13, 900));
        assert_eq!(both(&records, 0b10111, 5), found(1, 11, 900));
        assert_eq!(both(&records, 0b10001, 5), found(0, 10, 700));
        assert_eq!(both(&records, 0b10000, 5), found(4, 14, 100));
        assert_eq!(both(&records, 0b11111, 6), found(2, 12, 999));
        assert_eq!(both(&records, 0b11011, 6), Ok(None));
        assert_eq!(both(&records, 0b11111, 7), Ok(None));
        assert_eq!(both(&records, 0, 5), Ok(None));
    }

    #[test]
    fn a_time_of_zero_is_found() {
        assert_eq!(both(&[record(0, 0, 0)], 1, 0), found(0, 0, 0));
        let equal = [record(1, 3, 0), record(1, 4, 0)];
        assert_eq!(both(&equal, 0b11, 1), found(1, 4, 0));
    }

    #[test]
    fn tag_and_set_within_their_limits() {
        let records = [record(GREATEST_TAG, 1, 1), record(1, 1, 1)];
        assert_eq!(both(&records, 0b11, GREATEST_TAG), found(0, 1, 1));
        assert_eq!(both(&records, 0b11, GREATEST_TAG + 1), Err(3));
        assert_eq!(both(&records, 0b11, u64::MAX), Err(3));
        assert_eq!(both(&records, 0b100, 1), Err(3));
        assert_eq!(both(&records, 1 << 63, 1), Err(3));
        let greatest = [record(1, 2, 3); 64];
        assert_eq!(both(&greatest, u64::MAX, 1), found(63, 2, 3));
        assert_eq!(both(&greatest[..63], u64::MAX, 1), Err(3));
        assert_eq!(both(&greatest[..63], u64::MAX >> 1, 1), found(62, 2, 3));
    }

    #[test]
    fn the_table_is_tested_before_the_question() {
        let none: [Record; 0] = [];
        assert_eq!(ask(&none, u64::MAX, u64::MAX), Err(1));
        let mut records = [record(1, 1, 1); 2];
        records[1].device = 0;
        assert_eq!(ask(&records, 0b100, u64::MAX), Err(10));
        records[1].shelf = 65_536;
        assert_eq!(ask(&records, 0b100, u64::MAX), Err(3));
        records[0].time = GREATEST_TAG << 17;
        assert_eq!(ask(&records, 0b100, u64::MAX), Err(12));
        assert_eq!(ask_written(&[], 0b100, u64::MAX), Err(11));
        assert_eq!(ask_written(&[0], 0b100, u64::MAX), Err(1));
        assert_eq!(ask_written(&[1, 0, 0, 0], 0b100, u64::MAX), Err(10));
        assert_eq!(ask_written(&[1, 0, 0, 1, 0x80, 0], 2, 0), Err(12));
        assert_eq!(ask_written(&[1, 0, 0, 1, 0, 0], 2, 0), Err(13));
        assert_eq!(ask_written(&[1, 0, 0, 1, 0], 2, 0), Err(3));
    }
}
