//! Written forms: what the readers and the writers of any form are compared
//! on.

use std::fmt::{Debug, Display};

use reference::numbers;
use reference::refusal::Refusal;
use reference::rng::Rng;

use crate::suite::Comparisons;

pub mod damage;
pub mod left;
pub mod lent;
pub mod reading;
pub mod shown;
pub mod writing;

/// The place after the text, before a call; no place that a call may give.
pub const NEXT_BEFORE: usize = 0xa5a5_a5a5;

/// Numbers at the edges of groups, sizes, fields and codings.
const EDGES: [u64; 44] = [
    0,
    1,
    7,
    8,
    9,
    15,
    16,
    17,
    63,
    64,
    65,
    127,
    128,
    255,
    256,
    257,
    511,
    512,
    513,
    4_095,
    4_096,
    4_097,
    16_383,
    16_384,
    65_534,
    65_535,
    65_536,
    65_537,
    (1 << 21) - 1,
    1 << 21,
    (1 << 28) - 1,
    1 << 28,
    (1 << 32) - 1,
    1 << 32,
    (1 << 32) + 1,
    (1 << 48) - 1,
    1 << 48,
    (1 << 48) + 1,
    (1 << 49) - 1,
    1 << 49,
    1 << 56,
    1 << 63,
    u64::MAX - 1,
    u64::MAX,
];

/// What a written form holds, with both programs' reader and writer of it.
/// Its numbers are those of its head, then its fields.
pub trait Form: Display {
    /// The form's name.
    const NAME: &'static str;

    /// How many fields make a row, which is a scan or an event.
    const ROW: usize;

    /// What a reader gives beside the fields.
    type Header: Copy + Debug + PartialEq;

    /// The header before a call; none that a call may give.
    const HEADER_BEFORE: Self::Header;

    /// What a file that both programs accept holds.
    fn random(rng: &mut Rng) -> Self;

    /// The numbers before the fields.
    fn head(&self) -> Vec<u64>;

    /// What a reader gives beside the fields.
    fn header(&self) -> Self::Header;

    fn fields(&self) -> &[u64];

    fn fields_mut(&mut self) -> &mut Vec<u64>;

    /// Reads with the proved function.
    fn read_proved(room: &mut [u64], bytes: &[u8], header: &mut Self::Header) -> u8;

    /// Reads with the second program.
    fn read_second(room: &mut [u64], bytes: &[u8], header: &mut Self::Header) -> u8;

    /// Writes with the proved function.
    fn write_proved(&self, buffer: &mut [u8], next: &mut usize) -> u8;

    /// Writes with the second program.
    fn write_second(&self, buffer: &mut [u8], next: &mut usize) -> u8;

    /// Every number of the form.
    fn numbers(&self) -> Vec<u64> {
        let mut numbers = self.head();
        numbers.extend_from_slice(self.fields());
        numbers
    }

    /// The written form.
    fn file(&self) -> Vec<u8> {
        written(&self.numbers())
    }
}

/// Numbers in their shortest forms, one after the other, whatever their size.
pub fn written(numbers: &[u64]) -> Vec<u8> {
    let mut bytes = Vec::new();
    for number in numbers {
        let place = bytes.len();
        bytes.resize(place + numbers::width(*number), 0);
        numbers::write(&mut bytes, place, u64::MAX, *number)
            .expect("the buffer is as long as the number");
    }
    bytes
}

/// A result as a call gives it: the value goes to the cell, the answer is 0 or
/// the refusal's number.
pub fn answer<T>(given: Result<T, Refusal>, cell: &mut T) -> u8 {
    match given {
        Ok(value) => {
            *cell = value;
            0
        }
        Err(refusal) => refusal,
    }
}

/// Writes the form and reads its file. Both programs accept it where the answer
/// is 0, and otherwise refuse with it.
pub fn compare_answer<F: Form>(
    comparisons: &mut Comparisons,
    rng: &mut Rng,
    form: &F,
    answer: Refusal,
) -> Result<(), String> {
    writing::compare_answer(comparisons, rng, form, answer)?;
    reading::compare_answer(comparisons, rng, form, &form.file(), answer)
}

/// A number of the range, often at one of its ends or at the edge of a group.
pub fn random_within(rng: &mut Rng, least: u64, greatest: u64) -> u64 {
    let drawn = match rng.below(6) {
        0 => least,
        1 => greatest,
        2 => (1 << (7 * rng.below(7))) - rng.below(2),
        3 => random_bits(rng),
        _ => rng.within(least, greatest),
    };
    drawn.clamp(least, greatest)
}

/// Any number, an edge half of the time.
pub fn any_number(rng: &mut Rng) -> u64 {
    match rng.one_in(2) {
        true => EDGES[rng.below(EDGES.len() as u64) as usize],
        false => random_bits(rng),
    }
}

/// A number of a random count of bits.
fn random_bits(rng: &mut Rng) -> u64 {
    let dropped = rng.below(64);
    rng.draw() >> dropped
}

/// Any byte.
pub fn random_byte(rng: &mut Rng) -> u8 {
    rng.draw() as u8
}

/// The lengths of lent memory for a form that takes `exact` places.
pub fn lengths_about(rng: &mut Rng, exact: usize) -> [usize; 6] {
    [
        exact,
        exact.saturating_sub(1),
        exact + 1,
        exact + rng.within(2, 40) as usize,
        0,
        rng.below(exact as u64) as usize,
    ]
}
