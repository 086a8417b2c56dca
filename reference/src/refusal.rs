//! The refusal numbers.

/// A refusal, by its number.
pub type Refusal = u8;

/// A size, the lent table's length or a record field is outside its range.
pub const OUTSIDE_RANGE: Refusal = 1;
/// The event code is not 1 to 8.
pub const UNKNOWN_CODE: Refusal = 2;
/// An argument or field is outside the run's sizes, b is not 0 where it must
/// be, E is above 4,096, or a tag or shelf is above its limit.
pub const OUTSIDE_SIZES: Refusal = 3;
/// The slot is free.
pub const SLOT_FREE: Refusal = 4;
/// The party has crashed.
pub const CRASHED: Refusal = 5;
/// The event is not enabled.
pub const NOT_ENABLED: Refusal = 6;
/// The proposal number is already 1,000.
pub const NUMBER_SPENT: Refusal = 7;
/// Too few free slots, too short a buffer or too small a lent room.
pub const NO_ROOM: Refusal = 8;
/// Dock time above 2^48-1, or age above dock time.
pub const CLOCK: Refusal = 9;
/// Device 0 or above 255.
pub const DEVICE: Refusal = 10;
/// The input ends before the form does.
pub const INPUT_ENDS: Refusal = 11;
/// A number is not in shortest form or is too large.
pub const BAD_NUMBER: Refusal = 12;
/// Bytes follow the end.
pub const BYTES_FOLLOW: Refusal = 13;
