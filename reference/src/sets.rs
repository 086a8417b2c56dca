//! Sets of scans and sets of acceptors, as masks.

/// Sets of scans: a 64-bit mask, scan 0 the lowest bit.
pub mod scans {
    /// The set of no scan.
    pub const EMPTY: u64 = 0;

    /// The set of one scan; empty for a scan not below 64.
    #[inline]
    pub fn one(scan: u64) -> u64 {
        if scan < 64 {
            1 << scan
        } else {
            EMPTY
        }
    }

    /// The join: every scan of either set.
    #[inline]
    pub fn union(left: u64, right: u64) -> u64 {
        left | right
    }

    /// Whether every scan of `inner` is in `outer`.
    #[inline]
    pub fn contained(inner: u64, outer: u64) -> bool {
        inner & !outer == 0
    }

    /// Whether `inner` is contained in `outer` and is not `outer`.
    #[inline]
    pub fn strictly_contained(inner: u64, outer: u64) -> bool {
        contained(inner, outer) && inner != outer
    }

    /// Whether the set holds the scan; never for a scan not below 64.
    #[inline]
    pub fn holds(set: u64, scan: u64) -> bool {
        scan < 64 && (set >> scan) & 1 == 1
    }

    /// Whether the set holds no scan.
    #[inline]
    pub fn is_empty(set: u64) -> bool {
        set == EMPTY
    }

    /// Whether every scan of the set is below `s`.
    #[inline]
    pub fn fits(set: u64, s: u64) -> bool {
        s >= 64 || set >> s == 0
    }
}

/// Sets of acceptors: a 32-bit mask, acceptor 0 the lowest bit.
pub mod acceptors {
    use crate::schedule::GREATEST_A;

    /// The set of no acceptor.
    pub const EMPTY: u32 = 0;

    /// The set with one acceptor more; an acceptor not below the greatest
    /// number of acceptors leaves it as it is.
    #[inline]
    pub fn with(set: u32, acceptor: u32) -> u32 {
        if u64::from(acceptor) < GREATEST_A {
            set | 1 << acceptor
        } else {
            set
        }
    }

    /// Every acceptor of either set, once.
    #[inline]
    pub fn union(left: u32, right: u32) -> u32 {
        left | right
    }

    /// Whether the set holds no acceptor.
    #[inline]
    pub fn is_empty(set: u32) -> bool {
        set == EMPTY
    }

    /// Whether every acceptor of the set is below `a`.
    #[inline]
    pub fn fits(set: u32, a: u32) -> bool {
        a >= 32 || set >> a == 0
    }

    /// How many acceptors the set holds.
    #[inline]
    pub fn size(set: u32) -> u32 {
        set.count_ones()
    }

    /// How many distinct acceptors of `a` are a majority.
    #[inline]
    pub fn majority(a: u32) -> u32 {
        a / 2 + 1
    }

    /// Whether the set holds at least as many acceptors as a majority of `a`.
    #[inline]
    pub fn is_majority(set: u32, a: u32) -> bool {
        size(set) >= majority(a)
    }
}

#[cfg(test)]
mod tests {
    use super::{acceptors, scans};

    #[test]
    fn one_scan() {
        assert_eq!(scans::one(0), 1);
        assert_eq!(scans::one(63), 1 << 63);
        for scan in [64, 65, 128, u64::MAX] {
            assert_eq!(scans::one(scan), scans::EMPTY);
            assert!(!scans::holds(u64::MAX, scan));
        }
        for scan in 0..64 {
            for other in 0..64 {
                assert_eq!(scans::holds(scans::one(scan), other), scan == other);
            }
            assert!(!scans::holds(scans::EMPTY, scan));
        }
    }

    #[test]
    fn scans_union_and_order() {
        assert_eq!(scans::union(0b01, 0b10), 0b11);
        assert_eq!(scans::union(0b01, 0b01), 0b01);
        assert!(scans::contained(0b01, 0b11));
        assert!(scans::contained(0b11, 0b11));
        assert!(!scans::contained(0b11, 0b01));
        assert!(!scans::contained(0b01, 0b10));
        assert!(scans::strictly_contained(0b01, 0b11));
        assert!(!scans::strictly_contained(0b11, 0b11));
        assert!(!scans::strictly_contained(0b01, 0b10));
        assert!(!scans::strictly_contained(scans::EMPTY, scans::EMPTY));
        assert!(scans::is_empty(scans::EMPTY));
        assert!(!scans::is_empty(scans::one(63)));
    }

    #[test]
    fn scans_below_s() {
        assert!(scans::fits(scans::EMPTY, 0));
        assert!(!scans::fits(1, 0));
        assert!(scans::fits(1, 1));
        assert!(!scans::fits(scans::one(63), 63));
        for s in [64, 65, 1_000, u64::MAX] {
            assert!(scans::fits(u64::MAX, s));
        }
        for s in 0..64 {
            assert!(!scans::fits(scans::one(s), s));
            assert!(scans::fits(scans::one(s), s + 1));
            assert!(scans::fits((1 << s) - 1, s));
        }
    }

    #[test]
    fn majorities() {
        for (a, majority) in [(1, 1), (2, 2), (3, 2), (7, 4)] {
            assert_eq!(acceptors::majority(a), majority);
        }
        assert_eq!(acceptors::majority(0), 1);
        assert_eq!(acceptors::majority(u32::MAX), 1 << 31);
        assert!(acceptors::is_majority(0b011, 3));
        assert!(!acceptors::is_majority(0b001, 3));
        assert!(!acceptors::is_majority(0b01, 2));
        assert!(!acceptors::is_majority(acceptors::EMPTY, 0));
        assert!(!acceptors::is_majority(u32::MAX, u32::MAX));
        assert!(acceptors::is_majority(u32::MAX, 63));
        assert!(!acceptors::is_majority(u32::MAX, 64));
    }

    #[test]
    fn acceptors_count_once() {
        let set = acceptors::with(acceptors::EMPTY, 2);
        assert_eq!(set, 0b100);
        assert_eq!(acceptors::with(set, 2), set);
        assert_eq!(acceptors::size(acceptors::with(set, 0)), 2);
        assert_eq!(acceptors::with(acceptors::EMPTY, 6), 1 << 6);
        for acceptor in [7, 8, 31, 32, 33, 64, u32::MAX] {
            assert_eq!(acceptors::with(set, acceptor), set);
            assert_eq!(acceptors::with(u32::MAX, acceptor), u32::MAX);
            assert_eq!(acceptors::with(acceptors::EMPTY, acceptor), 0);
        }
        assert_eq!(acceptors::union(0b011, 0b110), 0b111);
        assert_eq!(acceptors::size(u32::MAX), 32);
        assert!(acceptors::is_empty(acceptors::EMPTY));
        assert!(!acceptors::is_empty(set));
    }

    #[test]
    fn acceptors_below_a() {
        assert!(acceptors::fits(acceptors::EMPTY, 0));
        assert!(!acceptors::fits(1, 0));
        for a in 0..32 {
            assert!(!acceptors::fits(1 << a, a));
            assert!(acceptors::fits(1 << a, a + 1));
            assert!(acceptors::fits((1 << a) - 1, a));
        }
        for a in [32, 33, u32::MAX] {
            assert!(acceptors::fits(u32::MAX, a));
        }
    }
}
