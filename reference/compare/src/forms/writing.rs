//! Writing: the answer, the place after the text and every byte of the buffer.
//! On a refusal place and buffer keep what they held.

use reference::refusal::{Refusal, NO_ROOM, OUTSIDE_RANGE};
use reference::rng::Rng;

use super::left::{self, Left};
use super::lent::Lent;
use super::reading;
use super::{any_number, lengths_about, Form, NEXT_BEFORE};
use crate::suite::{Comparisons, Outcome};

/// How many forms are written and read back.
const FORMS: u64 = 4_000;

/// How many forms have other fields, and how many end within a row.
const OTHER_FIELDS: u64 = 40_000;
const PARTIAL_ROWS: u64 = 5_000;

/// A writer of either program.
type Writer<F> = fn(&F, &mut [u8], &mut usize) -> u8;

/// What a writer leaves.
type Writing = Left<usize, u8>;

fn write<F: Form>(writer: Writer<F>, form: &F, buffer: &Lent<u8>) -> Writing {
    let mut cell = NEXT_BEFORE;
    let mut lent = buffer.clone();
    let answer = writer(form, lent.lent_mut(), &mut cell);
    Left { answer, cell, lent }
}

/// Compares what both programs write.
fn compare<F: Form>(
    comparisons: &mut Comparisons,
    form: &F,
    buffer: &Lent<u8>,
) -> Result<(), String> {
    left::same(
        comparisons,
        format_args!("writing {form}, buffer of {} bytes", buffer.length()),
        &write(F::write_proved, form, buffer),
        &write(F::write_second, form, buffer),
    )
}

/// Compares what each program writes with what is stated.
fn compare_stated<F: Form>(
    comparisons: &mut Comparisons,
    form: &F,
    buffer: &Lent<u8>,
    stated: &Writing,
) -> Result<(), String> {
    left::stated(
        comparisons,
        format_args!("writing {form}, buffer of {} bytes", buffer.length()),
        &write(F::write_proved, form, buffer),
        &write(F::write_second, form, buffer),
        stated,
    )
}

/// Both programs refuse to write the form with this number.
fn compare_refused<F: Form>(
    comparisons: &mut Comparisons,
    form: &F,
    buffer: &Lent<u8>,
    refusal: Refusal,
) -> Result<(), String> {
    let stated = Left {
        answer: refusal,
        cell: NEXT_BEFORE,
        lent: buffer.clone(),
    };
    compare_stated(comparisons, form, buffer, &stated)
}

/// Both programs write the form's file, or refuse 8 where the buffer is too
/// short.
fn compare_accepted<F: Form>(
    comparisons: &mut Comparisons,
    form: &F,
    file: &[u8],
    buffer: &Lent<u8>,
) -> Result<(), String> {
    if buffer.length() < file.len() {
        return compare_refused(comparisons, form, buffer, NO_ROOM);
    }
    let stated = Left {
        answer: 0,
        cell: file.len(),
        lent: buffer.beginning_with(file),
    };
    compare_stated(comparisons, form, buffer, &stated)
}

/// Both programs write the form where the answer is 0, and otherwise refuse
/// with it.
pub fn compare_answer<F: Form>(
    comparisons: &mut Comparisons,
    rng: &mut Rng,
    form: &F,
    answer: Refusal,
) -> Result<(), String> {
    let file = form.file();
    let buffer = random_buffer(rng, file.len());
    match answer {
        0 => compare_accepted(comparisons, form, &file, &buffer),
        _ => compare_refused(comparisons, form, &buffer, answer),
    }
}

/// Writes a form into buffers of lengths about its file's, and reads the file
/// into rooms of lengths about the fields'.
pub fn compare_both_ways<F: Form>(
    comparisons: &mut Comparisons,
    rng: &mut Rng,
    form: &F,
) -> Result<(), String> {
    let file = form.file();
    for length in lengths_about(rng, file.len()) {
        let buffer = Lent::random(rng, length, file.len());
        compare_accepted(comparisons, form, &file, &buffer)?;
    }
    for length in lengths_about(rng, form.fields().len()) {
        let room = Lent::random(rng, length, form.fields().len());
        reading::compare_accepted(comparisons, form, &file, &room)?;
    }
    Ok(())
}

/// A buffer as long as the text, empty, or longer.
fn random_buffer(rng: &mut Rng, text: usize) -> Lent<u8> {
    let length = match rng.below(3) {
        0 => text,
        1 => 0,
        _ => text + rng.within(1, 20) as usize,
    };
    Lent::random(rng, length, text)
}

/// Random forms, written and read back.
pub fn random_forms<F: Form>(rng: &mut Rng) -> Outcome {
    let mut comparisons = Comparisons::new();
    for _ in 0..FORMS {
        let form = F::random(rng);
        compare_both_ways(&mut comparisons, rng, &form)?;
    }
    comparisons.made()
}

/// Forms in which up to three fields are any numbers.
pub fn other_fields<F: Form>(rng: &mut Rng) -> Outcome {
    let mut comparisons = Comparisons::new();
    for _ in 0..OTHER_FIELDS {
        let mut form = F::random(rng);
        spoil(rng, form.fields_mut());
        let buffer = random_buffer(rng, form.file().len());
        compare(&mut comparisons, &form, &buffer)?;
    }
    comparisons.made()
}

/// Puts any numbers in up to three places.
fn spoil(rng: &mut Rng, fields: &mut [u64]) {
    if fields.is_empty() {
        return;
    }
    for _ in 0..rng.within(1, 3) {
        let place = rng.below(fields.len() as u64) as usize;
        fields[place] = any_number(rng);
    }
}

/// Fields that are not whole rows are refused 1, whatever they are.
pub fn partial_rows<F: Form>(rng: &mut Rng) -> Outcome {
    let mut comparisons = Comparisons::new();
    for _ in 0..PARTIAL_ROWS {
        let mut form = F::random(rng);
        for _ in 1..F::ROW {
            let number = any_number(rng);
            form.fields_mut().push(number);
            let buffer = random_buffer(rng, form.file().len());
            compare_refused(&mut comparisons, &form, &buffer, OUTSIDE_RANGE)?;
        }
    }
    comparisons.made()
}
