//! The clock rule.

use crate::refusal::{Refusal, CLOCK};

/// The greatest dock time, 2^48-1 milliseconds.
pub const GREATEST_TIME: u64 = (1 << 48) - 1;

/// The time of a scan: dock time less age, where age is dock tick less scan
/// tick modulo 2^32.
///
/// Refused 9 where the dock time is above 2^48-1 or the age above it.
#[inline]
pub fn scan_time(dock_tick: u32, scan_tick: u32, dock_time: u64) -> Result<u64, Refusal> {
    let age = u64::from(dock_tick.wrapping_sub(scan_tick));
    if dock_time > GREATEST_TIME || age > dock_time {
        return Err(CLOCK);
    }
    Ok(dock_time - age)
}

#[cfg(test)]
mod tests {
    use super::*;

    #[test]
    fn examples_at_the_edges() {
        assert_eq!(scan_time(5, 4_294_967_290, 1_000), Ok(989));
        assert_eq!(scan_time(5, 4_294_967_290, 10), Err(9));
    }

    #[test]
    fn age_up_to_the_dock_time() {
        assert_eq!(scan_time(5, 4_294_967_290, 11), Ok(0));
        assert_eq!(scan_time(7, 7, 0), Ok(0));
        assert_eq!(scan_time(8, 7, 0), Err(9));
        assert_eq!(scan_time(7, 8, u64::from(u32::MAX)), Ok(0));
        assert_eq!(scan_time(7, 8, u64::from(u32::MAX) - 1), Err(9));
    }

    #[test]
    fn dock_time_up_to_its_limit() {
        assert_eq!(scan_time(0, 0, GREATEST_TIME), Ok(281_474_976_710_655));
        assert_eq!(scan_time(0, 0, GREATEST_TIME + 1), Err(9));
        assert_eq!(scan_time(1, 0, GREATEST_TIME + 1), Err(9));
        assert_eq!(scan_time(0, 0, u64::MAX), Err(9));
        assert_eq!(
            scan_time(u32::MAX, 0, GREATEST_TIME),
            Ok(GREATEST_TIME - u64::from(u32::MAX))
        );
    }
}
