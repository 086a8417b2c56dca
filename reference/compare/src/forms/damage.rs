//! Damaged files.

use reference::rng::Rng;

use super::{random_byte, written};

/// How often a file is damaged at most.
const MOST_DAMAGES: u64 = 4;

/// The bytes after one to four random damages.
pub fn damaged(rng: &mut Rng, bytes: &[u8]) -> Vec<u8> {
    let mut after = bytes.to_vec();
    for _ in 0..rng.within(1, MOST_DAMAGES) {
        damage(rng, &mut after);
    }
    after
}

/// Changes, removes, inserts or appends a byte, or cuts the bytes.
fn damage(rng: &mut Rng, bytes: &mut Vec<u8>) {
    if bytes.is_empty() {
        bytes.push(random_byte(rng));
        return;
    }
    let place = rng.below(bytes.len() as u64) as usize;
    match rng.below(12) {
        0..=3 => bytes[place] = random_byte(rng),
        4..=6 => bytes[place] ^= 1 << rng.below(8),
        7 | 8 => bytes.insert(place, random_byte(rng)),
        9 => {
            bytes.remove(place);
        }
        10 => bytes.truncate(place),
        _ => bytes.push(random_byte(rng)),
    }
}

/// The numbers in their shortest forms, but the one at `place` with `padding`
/// groups of 0 after its last group.
pub fn with_padded_number(numbers: &[u64], place: usize, padding: usize) -> Vec<u8> {
    let mut bytes = written(&numbers[..=place]);
    for _ in 0..padding {
        if let Some(last) = bytes.last_mut() {
            *last |= 0x80;
        }
        bytes.push(0);
    }
    bytes.extend(written(&numbers[place + 1..]));
    bytes
}
