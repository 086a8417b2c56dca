//! The sizes that steps and fresh runs are compared with.

use reference::generate::{Style, STYLES};
use reference::rng::Rng;

use super::form::Sizes;

/// Sizes about the ends of their ranges, and between.
pub const SIZES: [Sizes; 5] = [
    sizes_of(1, 1, 1, 16, 1),
    sizes_of(2, 3, 2, 17, 4),
    sizes_of(3, 2, 4, 64, 63),
    sizes_of(7, 6, 8, 20, 33),
    sizes_of(8, 7, 8, 512, 64),
];

pub const fn sizes_of(
    proposers: u16,
    acceptors: u16,
    learners: u16,
    slots: u16,
    scans: u16,
) -> Sizes {
    Sizes {
        proposers,
        acceptors,
        learners,
        slots,
        scans,
    }
}

/// Sizes of any style.
pub fn drawn_sizes(rng: &mut Rng) -> Sizes {
    let (_, style) = STYLES[rng.below(STYLES.len() as u64) as usize];
    Sizes::of(&Style::sizes(style, rng))
}

/// Sizes of which one is outside its range.
pub fn sizes_outside() -> Vec<Sizes> {
    let mut all = Vec::new();
    for inside in SIZES {
        for proposers in [0, 9, 10, 256, 257, 264] {
            all.push(Sizes {
                proposers,
                ..inside
            });
        }
        for acceptors in [0, 8, 9, 256, 257, 263] {
            all.push(Sizes {
                acceptors,
                ..inside
            });
        }
        for learners in [0, 9, 10, 256, 257, 264] {
            all.push(Sizes { learners, ..inside });
        }
        for slots in [0, 1, 15, 513, 514, 768] {
            all.push(Sizes { slots, ..inside });
        }
        for scans in [0, 65, 66, 256, 257, 320, u16::MAX] {
            all.push(Sizes { scans, ..inside });
        }
    }
    all
}
