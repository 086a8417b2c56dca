//! Reading: the answer, the header and every place of the room. On a refusal
//! header and room keep what they held.

use std::fmt::{self, Display, Formatter};

use reference::refusal::{Refusal, BAD_NUMBER, BYTES_FOLLOW, INPUT_ENDS, NO_ROOM};
use reference::rng::Rng;

use super::left::{self, Left};
use super::lent::Lent;
use super::shown::Bytes;
use super::{any_number, damage, random_byte, written, Form};
use crate::suite::{Comparisons, Outcome};

/// How many forms are cut, made longer and padded.
const CUT_FORMS: u64 = 400;
const LONGER_FORMS: u64 = 1_000;
const PADDED_FORMS: u64 = 40;

/// At how many places the byte is changed to every other byte.
const CHANGED_PLACES: u64 = 400;

/// How many files have other numbers, are damaged, are random.
const OTHER_NUMBERS: u64 = 40_000;
const DAMAGED_FILES: u64 = 60_000;
const RANDOM_FILES: u64 = 40_000;

/// The longest random bytes after a head, and the longest tail of a longer
/// file.
const LONGEST_RANDOM: u64 = 60;
const LONGEST_TAIL: u64 = 20;

/// The most groups of 0 after a number: more than any number may have groups.
const MOST_PADDING: usize = 8;

/// A reader of either program.
type Reader<F> = fn(&mut [u64], &[u8], &mut <F as Form>::Header) -> u8;

/// What a reader leaves.
type Reading<F> = Left<<F as Form>::Header, u64>;

fn read<F: Form>(reader: Reader<F>, bytes: &[u8], room: &Lent<u64>) -> Reading<F> {
    let mut cell = F::HEADER_BEFORE;
    let mut lent = room.clone();
    let answer = reader(lent.lent_mut(), bytes, &mut cell);
    Left { answer, cell, lent }
}

/// What is read, and into how much room.
struct Asked<'a> {
    form: &'static str,
    room: usize,
    bytes: &'a [u8],
}

impl Asked<'_> {
    fn of<'a, F: Form>(bytes: &'a [u8], room: &Lent<u64>) -> Asked<'a> {
        Asked {
            form: F::NAME,
            room: room.length(),
            bytes,
        }
    }
}

impl Display for Asked<'_> {
    fn fmt(&self, f: &mut Formatter) -> fmt::Result {
        let Asked { form, room, bytes } = self;
        write!(
            f,
            "reading a {form}, room of {room} numbers, from {}",
            Bytes(bytes)
        )
    }
}

/// Compares what both programs read.
pub fn compare<F: Form>(
    comparisons: &mut Comparisons,
    bytes: &[u8],
    room: &Lent<u64>,
) -> Result<(), String> {
    left::same(
        comparisons,
        format_args!("{}", Asked::of::<F>(bytes, room)),
        &read::<F>(F::read_proved, bytes, room),
        &read::<F>(F::read_second, bytes, room),
    )
}

/// Compares what each program reads with what is stated.
fn compare_stated<F: Form>(
    comparisons: &mut Comparisons,
    bytes: &[u8],
    room: &Lent<u64>,
    stated: &Reading<F>,
) -> Result<(), String> {
    left::stated(
        comparisons,
        format_args!("{}", Asked::of::<F>(bytes, room)),
        &read::<F>(F::read_proved, bytes, room),
        &read::<F>(F::read_second, bytes, room),
        stated,
    )
}

/// Both programs refuse the bytes with this number.
pub fn compare_refused<F: Form>(
    comparisons: &mut Comparisons,
    bytes: &[u8],
    room: &Lent<u64>,
    refusal: Refusal,
) -> Result<(), String> {
    let stated = Left {
        answer: refusal,
        cell: F::HEADER_BEFORE,
        lent: room.clone(),
    };
    compare_stated::<F>(comparisons, bytes, room, &stated)
}

/// Both programs read the form from its file, or refuse 8 where the room is
/// too small.
pub fn compare_accepted<F: Form>(
    comparisons: &mut Comparisons,
    form: &F,
    file: &[u8],
    room: &Lent<u64>,
) -> Result<(), String> {
    if room.length() < form.fields().len() {
        return compare_refused::<F>(comparisons, file, room, NO_ROOM);
    }
    let stated = Left {
        answer: 0,
        cell: form.header(),
        lent: room.beginning_with(form.fields()),
    };
    compare_stated::<F>(comparisons, file, room, &stated)
}

/// Both programs read the form from its file where the answer is 0, and
/// otherwise refuse with it.
pub fn compare_answer<F: Form>(
    comparisons: &mut Comparisons,
    rng: &mut Rng,
    form: &F,
    file: &[u8],
    answer: Refusal,
) -> Result<(), String> {
    let room = random_room(rng, form.fields().len(), file);
    match answer {
        0 => compare_accepted(comparisons, form, file, &room),
        _ => compare_refused::<F>(comparisons, file, &room, answer),
    }
}

/// A room as long as the fields, one number shorter, or as long as the bytes,
/// which no form's fields outnumber.
pub fn random_room(rng: &mut Rng, fields: usize, bytes: &[u8]) -> Lent<u64> {
    let length = match rng.below(3) {
        0 => fields,
        1 => fields.saturating_sub(1),
        _ => bytes.len(),
    };
    Lent::random(rng, length, bytes.len())
}

/// Every prefix of a file is refused 11, the empty one too.
pub fn prefixes<F: Form>(rng: &mut Rng) -> Outcome {
    let mut comparisons = Comparisons::new();
    for _ in 0..CUT_FORMS {
        let form = F::random(rng);
        let file = form.file();
        for end in 0..file.len() {
            let room = random_room(rng, form.fields().len(), &file);
            compare_refused::<F>(&mut comparisons, &file[..end], &room, INPUT_ENDS)?;
        }
    }
    comparisons.made()
}

/// A byte of a file changed to every other byte.
pub fn changed_bytes<F: Form>(rng: &mut Rng) -> Outcome {
    let mut comparisons = Comparisons::new();
    for _ in 0..CHANGED_PLACES {
        let form = F::random(rng);
        let mut bytes = form.file();
        let place = rng.below(bytes.len() as u64) as usize;
        for change in 1..=u8::MAX {
            bytes[place] ^= change;
            let room = random_room(rng, form.fields().len(), &bytes);
            compare::<F>(&mut comparisons, &bytes, &room)?;
            bytes[place] ^= change;
        }
    }
    comparisons.made()
}

/// A file with bytes after its end is refused 13, in any room.
pub fn longer_files<F: Form>(rng: &mut Rng) -> Outcome {
    let mut comparisons = Comparisons::new();
    for _ in 0..LONGER_FORMS {
        let form = F::random(rng);
        let mut bytes = form.file();
        for _ in 0..rng.within(1, LONGEST_TAIL) {
            bytes.push(random_byte(rng));
            let room = random_room(rng, form.fields().len(), &bytes);
            compare_refused::<F>(&mut comparisons, &bytes, &room, BYTES_FOLLOW)?;
        }
    }
    comparisons.made()
}

/// A file with a number that is not in shortest form is refused 12.
pub fn padded_numbers<F: Form>(rng: &mut Rng) -> Outcome {
    let mut comparisons = Comparisons::new();
    for _ in 0..PADDED_FORMS {
        let form = F::random(rng);
        let numbers = form.numbers();
        for place in 0..numbers.len() {
            for padding in 1..=MOST_PADDING {
                let bytes = damage::with_padded_number(&numbers, place, padding);
                let room = random_room(rng, form.fields().len(), &bytes);
                compare_refused::<F>(&mut comparisons, &bytes, &room, BAD_NUMBER)?;
            }
        }
    }
    comparisons.made()
}

/// Files in which up to three numbers are any numbers, of the head half of the
/// time.
pub fn other_numbers<F: Form>(rng: &mut Rng) -> Outcome {
    let mut comparisons = Comparisons::new();
    for _ in 0..OTHER_NUMBERS {
        let form = F::random(rng);
        let mut numbers = form.numbers();
        for _ in 0..rng.within(1, 3) {
            let among = match rng.one_in(2) {
                true => form.head().len(),
                false => numbers.len(),
            };
            numbers[rng.below(among as u64) as usize] = any_number(rng);
        }
        let bytes = written(&numbers);
        let room = random_room(rng, form.fields().len(), &bytes);
        compare::<F>(&mut comparisons, &bytes, &room)?;
    }
    comparisons.made()
}

/// Files with up to four random damages.
pub fn damaged_files<F: Form>(rng: &mut Rng) -> Outcome {
    let mut comparisons = Comparisons::new();
    for _ in 0..DAMAGED_FILES {
        let form = F::random(rng);
        let bytes = damage::damaged(rng, &form.file());
        let room = random_room(rng, form.fields().len(), &bytes);
        compare::<F>(&mut comparisons, &bytes, &room)?;
    }
    comparisons.made()
}

/// Random bytes, after the head of a form half of the time. Top bits are set
/// once in four times.
pub fn random_files<F: Form>(rng: &mut Rng) -> Outcome {
    let mut comparisons = Comparisons::new();
    for _ in 0..RANDOM_FILES {
        let form = F::random(rng);
        let mut bytes = match rng.one_in(2) {
            true => written(&form.head()),
            false => Vec::new(),
        };
        for _ in 0..rng.within(0, LONGEST_RANDOM) {
            let top_bits = random_byte(rng) & random_byte(rng) & 0x80;
            bytes.push(random_byte(rng) & 0x7f | top_bits);
        }
        let room = random_room(rng, form.fields().len(), &bytes);
        compare::<F>(&mut comparisons, &bytes, &room)?;
    }
    comparisons.made()
}
