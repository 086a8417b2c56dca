//! The bytes of sets and records, as the calls for C take them. A set is 8
//! bytes, scan 0 the lowest bit of the first; a proposal number is 2 bytes, the
//! low one first; a set of acceptors is 1 byte, acceptor 0 its lowest bit; a
//! flag is 1 byte, 0 or 1. A record's fields stand in the order of its struct.

use crate::records::{
    acceptor_within, learner_within, proposer_within, Acceptor, Heard, Learner, Proposer,
};
use crate::refusal::{Refusal, OUTSIDE_RANGE, OUTSIDE_SIZES};
use crate::schedule::{test_sizes, Sizes};
use crate::sets::scans;

/// How many bytes a set takes.
pub const SET: usize = 8;
/// How many bytes an acceptor's record takes.
pub const ACCEPTOR: usize = 1 + SET;
/// How many bytes a proposer's record takes.
pub const PROPOSER: usize = 2 + 3 * SET + 2 + 2 + SET;
/// How many bytes a learner has for each proposer.
pub const HEARD: usize = 2 + SET + 1;
/// How many bytes a learner's record takes before what it heard.
pub const LEARNER: usize = 1 + SET;

/// A set by itself: refused 3 where it is not 8 bytes or not within S.
pub fn set(bytes: &[u8], s: u64) -> Result<u64, Refusal> {
    let set = word(bytes).ok_or(OUTSIDE_SIZES)?;
    if !scans::fits(set, s) {
        return Err(OUTSIDE_SIZES);
    }
    Ok(set)
}

/// The 8 bytes as a number; nothing where there are not 8.
pub fn word(bytes: &[u8]) -> Option<u64> {
    match bytes.len() {
        SET => Some(Fields(bytes).set()),
        _ => None,
    }
}

/// An acceptor's record: refused 1 where a size, the length or a field is
/// outside its range.
pub fn acceptor(bytes: &[u8], sizes: &Sizes) -> Result<Acceptor, Refusal> {
    test_sizes(sizes)?;
    let mut fields = Fields::of_length(bytes, ACCEPTOR)?;
    let acceptor = Acceptor {
        alive: fields.flag()?,
        accepted: fields.set(),
    };
    test_within(acceptor_within(sizes, &acceptor))?;
    Ok(acceptor)
}

/// A proposer's record: refused 1 where a size, the length or a field is
/// outside its range.
pub fn proposer(bytes: &[u8], sizes: &Sizes) -> Result<Proposer, Refusal> {
    test_sizes(sizes)?;
    let mut fields = Fields::of_length(bytes, PROPOSER)?;
    let proposer = Proposer {
        alive: fields.flag()?,
        active: fields.flag()?,
        buffered: fields.set(),
        proposed: fields.set(),
        gathered: fields.set(),
        number: fields.number(),
        acknowledged: fields.acceptors(),
        rejected: fields.acceptors(),
        decided: fields.set(),
    };
    test_within(proposer_within(sizes, &proposer))?;
    Ok(proposer)
}

/// How many bytes the record of a learner of `p` proposers takes.
pub fn learner_length(p: u64) -> usize {
    LEARNER + p as usize * HEARD
}

/// A learner's record: refused 1 where a size, the length or a field is outside
/// its range. It has heard nothing of proposers that the run does not have.
pub fn learner(bytes: &[u8], sizes: &Sizes) -> Result<Learner, Refusal> {
    test_sizes(sizes)?;
    let mut fields = Fields::of_length(bytes, learner_length(sizes.p))?;
    let mut learner = Learner {
        alive: fields.flag()?,
        learnt: fields.set(),
        ..Learner::default()
    };
    for heard in &mut learner.heard[..sizes.p as usize] {
        *heard = Heard {
            number: fields.number(),
            set: fields.set(),
            acceptors: fields.acceptors(),
        };
    }
    test_within(learner_within(sizes, &learner))?;
    Ok(learner)
}

/// The bytes of a set.
pub fn set_bytes(set: u64) -> [u8; SET] {
    set.to_le_bytes()
}

/// A flag and a set: an acceptor's record, or what a call tells of a set.
pub fn flagged_bytes(flag: bool, set: u64) -> [u8; ACCEPTOR] {
    let mut bytes = [0; ACCEPTOR];
    bytes[0] = u8::from(flag);
    bytes[1..].copy_from_slice(&set_bytes(set));
    bytes
}

/// The bytes of an acceptor's record.
pub fn acceptor_bytes(acceptor: &Acceptor) -> [u8; ACCEPTOR] {
    flagged_bytes(acceptor.alive, acceptor.accepted)
}

/// The bytes of a proposer's record.
pub fn proposer_bytes(proposer: &Proposer) -> [u8; PROPOSER] {
    let mut bytes = [0; PROPOSER];
    bytes[0] = u8::from(proposer.alive);
    bytes[1] = u8::from(proposer.active);
    bytes[2..10].copy_from_slice(&set_bytes(proposer.buffered));
    bytes[10..18].copy_from_slice(&set_bytes(proposer.proposed));
    bytes[18..26].copy_from_slice(&set_bytes(proposer.gathered));
    bytes[26..28].copy_from_slice(&(proposer.number as u16).to_le_bytes());
    bytes[28] = proposer.acknowledged as u8;
    bytes[29] = proposer.rejected as u8;
    bytes[30..].copy_from_slice(&set_bytes(proposer.decided));
    bytes
}

/// Puts a learner's record of as many proposers as the bytes have room for.
pub fn put_learner(bytes: &mut [u8], learner: &Learner) {
    let (own, places) = bytes.split_at_mut(LEARNER);
    own.copy_from_slice(&flagged_bytes(learner.alive, learner.learnt));
    for (place, heard) in places.chunks_exact_mut(HEARD).zip(&learner.heard) {
        place[..2].copy_from_slice(&(heard.number as u16).to_le_bytes());
        place[2..10].copy_from_slice(&set_bytes(heard.set));
        place[10] = heard.acceptors as u8;
    }
}

/// Refused 1 where a record is not within its ranges.
fn test_within(within: bool) -> Result<(), Refusal> {
    if within {
        Ok(())
    } else {
        Err(OUTSIDE_RANGE)
    }
}

/// The fields of a record that are still to be read.
struct Fields<'a>(&'a [u8]);

impl<'a> Fields<'a> {
    /// The fields of a record of this length: refused 1 where the bytes are not
    /// that long.
    fn of_length(bytes: &'a [u8], length: usize) -> Result<Fields<'a>, Refusal> {
        test_within(bytes.len() == length)?;
        Ok(Fields(bytes))
    }

    /// The next field of this length, low byte first.
    fn low_byte_first(&mut self, length: usize) -> u64 {
        let (field, rest) = self.0.split_at(length);
        self.0 = rest;
        field
            .iter()
            .rev()
            .fold(0, |high, byte| high << 8 | u64::from(*byte))
    }

    /// Refused 1 where it is neither 0 nor 1.
    fn flag(&mut self) -> Result<bool, Refusal> {
        match self.low_byte_first(1) {
            0 => Ok(false),
            1 => Ok(true),
            _ => Err(OUTSIDE_RANGE),
        }
    }

    fn set(&mut self) -> u64 {
        self.low_byte_first(SET)
    }

    fn number(&mut self) -> u32 {
        self.low_byte_first(2) as u32
    }

    fn acceptors(&mut self) -> u32 {
        self.low_byte_first(1) as u32
    }
}

#[cfg(test)]
mod tests {
    use super::*;

    const GREATEST: Sizes = Sizes {
        p: 8,
        a: 7,
        l: 1,
        m: 16,
        s: 64,
    };

    #[test]
    fn lengths() {
        assert_eq!((SET, ACCEPTOR, PROPOSER), (8, 9, 38));
        assert_eq!((learner_length(1), learner_length(8)), (20, 97));
    }

    #[test]
    fn sets_are_low_byte_first() {
        assert_eq!(set(&[1, 0, 0, 0, 0, 0, 0, 0], 1), Ok(1));
        assert_eq!(set(&[0, 0, 0, 0, 0, 0, 0, 0x80], 64), Ok(1 << 63));
        assert_eq!(set(&[0, 0, 0, 0, 0, 0, 0, 0x80], 63), Err(3));
        assert_eq!(set(&[0; 7], 64), Err(3));
        assert_eq!(set(&[0; 9], 64), Err(3));
        assert_eq!(set(&[], 64), Err(3));
        assert_eq!(set_bytes(0x0102), [2, 1, 0, 0, 0, 0, 0, 0]);
    }

    #[test]
    fn an_acceptors_record() {
        let bytes = [1, 0x80, 0, 0, 0, 0, 0, 0, 0];
        let stored = Acceptor {
            alive: true,
            accepted: 1 << 7,
        };
        let eight = Sizes { s: 8, ..GREATEST };
        let seven = Sizes { s: 7, ..GREATEST };
        assert_eq!(acceptor(&bytes, &eight), Ok(stored));
        assert_eq!(acceptor_bytes(&stored), bytes);
        assert_eq!(acceptor(&bytes, &seven), Err(1));
        assert_eq!(acceptor(&bytes[..8], &eight), Err(1));
        assert_eq!(acceptor(&[0; 10], &eight), Err(1));
        assert_eq!(acceptor(&[2, 0, 0, 0, 0, 0, 0, 0, 0], &eight), Err(1));
        assert_eq!(acceptor(&bytes, &Sizes { s: 0, ..GREATEST }), Err(1));
        assert_eq!(acceptor(&bytes, &Sizes { s: 65, ..GREATEST }), Err(1));
    }

    #[test]
    fn a_proposers_record() {
        let mut bytes = [0; PROPOSER];
        for (place, byte) in bytes.iter_mut().enumerate() {
            *byte = place as u8;
        }
        bytes[0] = 1;
        bytes[26] = 0xe8;
        bytes[27] = 0x03;
        let stored = Proposer {
            alive: true,
            active: true,
            buffered: 0x0908_0706_0504_0302,
            proposed: 0x1110_0f0e_0d0c_0b0a,
            gathered: 0x1918_1716_1514_1312,
            number: 1_000,
            acknowledged: 28,
            rejected: 29,
            decided: 0x2524_2322_2120_1f1e,
        };
        assert_eq!(proposer(&bytes, &GREATEST), Ok(stored));
        assert_eq!(proposer_bytes(&stored), bytes);
        for (place, value) in [(0, 2), (1, 2), (26, 0xe9), (28, 0x80), (29, 0x80)] {
            let mut outside = bytes;
            outside[place] = value;
            assert_eq!(proposer(&outside, &GREATEST), Err(1));
        }
        let mut number_0 = bytes;
        number_0[26] = 0;
        number_0[27] = 0;
        assert_eq!(proposer(&number_0, &GREATEST), Err(1));
        number_0[1] = 0;
        assert!(proposer(&number_0, &GREATEST).is_ok());
        assert_eq!(proposer(&bytes[..37], &GREATEST), Err(1));
        assert_eq!(proposer(&bytes, &Sizes { a: 4, ..GREATEST }), Err(1));
        for set in [2, 10, 18, 30] {
            let mut last_scan = [0; PROPOSER];
            last_scan[set + 7] = 0x80;
            assert!(proposer(&last_scan, &GREATEST).is_ok());
            assert_eq!(proposer(&last_scan, &Sizes { s: 63, ..GREATEST }), Err(1));
        }
    }

    #[test]
    fn a_learners_record() {
        let mut bytes = [0; 97];
        bytes[0] = 1;
        bytes[1] = 3;
        let third = 9 + 2 * HEARD;
        bytes[third] = 0xe8;
        bytes[third + 1] = 0x03;
        bytes[third + 2] = 1;
        bytes[third + 10] = 0x7f;
        let mut stored = Learner {
            alive: true,
            learnt: 3,
            ..Learner::default()
        };
        stored.heard[2] = Heard {
            number: 1_000,
            set: 1,
            acceptors: 0x7f,
        };
        assert_eq!(learner(&bytes, &GREATEST), Ok(stored));
        let three = Sizes { p: 3, ..GREATEST };
        assert_eq!(learner(&bytes[..42], &three), Ok(stored));
        let mut written = [7; 97];
        put_learner(&mut written, &stored);
        assert_eq!(written, bytes);
        assert_eq!(learner(&bytes, &Sizes { a: 6, ..GREATEST }), Err(1));
        assert_eq!(learner(&bytes, &Sizes { s: 1, ..GREATEST }), Err(1));
        assert_eq!(learner(&bytes[..96], &GREATEST), Err(1));
        assert_eq!(learner(&bytes[..41], &three), Err(1));
        assert_eq!(learner(&bytes[..43], &three), Err(1));
        bytes[third] = 0xe9;
        assert_eq!(learner(&bytes[..42], &three), Err(1));
    }
}
