//! Random questions about random tables, whole and damaged.

use reference::refusal::{BYTES_FOLLOW, INPUT_ENDS};
use reference::rng::Rng;
use reference::scan_table::{GREATEST_S, GREATEST_TAG, GREATEST_TIME};

use super::{compare, compare_stated_written, compare_written, Asked, Question};
use crate::forms::{any_number, damage, random_byte, Form};
use crate::suite::{Comparisons, Outcome};
use crate::tables::{Table, SCAN};

/// How many tables are asked, and how many questions each.
const ASKED_TABLES: u64 = 40_000;
const QUESTIONS: usize = 4;

/// How many tables have another field, are cut, are made longer, are damaged.
const OTHER_FIELDS: u64 = 60_000;
const CUT_TABLES: u64 = 400;
const LONGER_TABLES: u64 = 10_000;
const DAMAGED_TABLES: u64 = 60_000;

/// The tags and the times of the tables: few, so that many scans have the same
/// tag and the same time.
const TAGS: [u64; 4] = [0, 1, 300, GREATEST_TAG];
const TIMES: [u64; 4] = [0, 1, 1_000, GREATEST_TIME];

/// Tags that are in no table. The last four are above the limit, the first two
/// of them tags of the tables in their low 32 bits.
const OTHER_TAGS: [u64; 6] = [
    2,
    301,
    GREATEST_TAG + 1,
    GREATEST_TAG + 2,
    1 << 63,
    u64::MAX,
];

/// A table of few tags and times, mostly small.
fn random_table(rng: &mut Rng) -> Table {
    let scans = match rng.below(8) {
        0 => GREATEST_S,
        1 => rng.within(1, GREATEST_S),
        _ => rng.within(1, 8),
    };
    let mut table = Table::of_scans(rng, scans);
    for scan in table.fields.chunks_exact_mut(SCAN) {
        scan[0] = one_of(rng, &TAGS);
        scan[3] = one_of(rng, &TIMES);
    }
    table
}

fn one_of(rng: &mut Rng, values: &[u64]) -> u64 {
    values[rng.below(values.len() as u64) as usize]
}

/// A question about a table, within its limits most of the time.
fn random_question(rng: &mut Rng, table: &Table) -> Question {
    let tag = match rng.one_in(4) {
        true => one_of(rng, &OTHER_TAGS),
        false => one_of(rng, &TAGS),
    };
    let set = random_set(rng, table.scans());
    Question { set, tag }
}

/// A set, of scans below `scans` most of the time.
fn random_set(rng: &mut Rng, scans: usize) -> u64 {
    let all = match scans {
        0..=63 => (1 << scans) - 1,
        _ => u64::MAX,
    };
    let some = rng.draw() & all;
    match rng.below(12) {
        0 => 0,
        1..=3 => all,
        // With the scan past the last; past scan 63 there is none.
        4 => some | all.wrapping_add(1),
        5 => rng.draw(),
        _ => some,
    }
}

/// Good tables, on records and on the written form.
pub fn questions(rng: &mut Rng) -> Outcome {
    let mut comparisons = Comparisons::new();
    for _ in 0..ASKED_TABLES {
        table_questions(&mut comparisons, rng)?;
    }
    comparisons.made()
}

/// A good table, asked a few questions on records and on the written form.
/// Gives how many questions the proved functions were asked.
pub fn table_questions(comparisons: &mut Comparisons, rng: &mut Rng) -> Result<u64, String> {
    let table = random_table(rng);
    let file = table.file();
    for _ in 0..QUESTIONS {
        let question = random_question(rng, &table);
        compare(comparisons, &table.fields, question)?;
        compare_written(comparisons, &file, question)?;
    }
    Ok(2 * QUESTIONS as u64)
}

/// Tables in which one field is any number, on records and on the written form.
pub fn other_fields(rng: &mut Rng) -> Outcome {
    let mut comparisons = Comparisons::new();
    for _ in 0..OTHER_FIELDS {
        let mut table = random_table(rng);
        let place = rng.below(table.fields.len() as u64) as usize;
        table.fields[place] = any_number(rng);
        let question = random_question(rng, &table);
        compare(&mut comparisons, &table.fields, question)?;
        compare_written(&mut comparisons, &table.file(), question)?;
    }
    comparisons.made()
}

/// Every prefix of a file is refused 11, whatever is asked.
pub fn prefixes(rng: &mut Rng) -> Outcome {
    let mut comparisons = Comparisons::new();
    let refused = Asked::refused(INPUT_ENDS);
    for _ in 0..CUT_TABLES {
        let table = random_table(rng);
        let file = table.file();
        for end in 0..file.len() {
            let question = random_question(rng, &table);
            compare_stated_written(&mut comparisons, &file[..end], question, refused)?;
        }
    }
    comparisons.made()
}

/// A file with a byte after its end is refused 13, whatever is asked.
pub fn longer_files(rng: &mut Rng) -> Outcome {
    let mut comparisons = Comparisons::new();
    let refused = Asked::refused(BYTES_FOLLOW);
    for _ in 0..LONGER_TABLES {
        let table = random_table(rng);
        let mut bytes = table.file();
        bytes.push(random_byte(rng));
        let question = random_question(rng, &table);
        compare_stated_written(&mut comparisons, &bytes, question, refused)?;
    }
    comparisons.made()
}

/// Files with up to four random damages.
pub fn damaged_files(rng: &mut Rng) -> Outcome {
    let mut comparisons = Comparisons::new();
    for _ in 0..DAMAGED_TABLES {
        let table = random_table(rng);
        let bytes = damage::damaged(rng, &table.file());
        let question = random_question(rng, &table);
        compare_written(&mut comparisons, &bytes, question)?;
    }
    comparisons.made()
}
