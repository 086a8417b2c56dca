//! Scan tables: reading and writing.

use std::fmt::{Display, Formatter};

use reference::refusal::{Refusal, OUTSIDE_RANGE};
use reference::rng::Rng;
use reference::scan_table::{
    self, Record, GREATEST_DEVICE, GREATEST_S, GREATEST_SHELF, GREATEST_TAG, GREATEST_TIME,
};

use crate::calls;
use crate::forms::shown::Numbers;
use crate::forms::{self, answer, random_within, reading, writing, Form};
use crate::suite::Tests;

mod edges;

pub const TESTS: Tests = &[
    ("random_tables", writing::random_forms::<Table>),
    ("write_other_fields", writing::other_fields::<Table>),
    ("write_partial_scans", writing::partial_rows::<Table>),
    ("write_lengths", edges::lengths),
    ("read_prefixes", reading::prefixes::<Table>),
    ("read_changed_bytes", reading::changed_bytes::<Table>),
    ("read_longer_files", reading::longer_files::<Table>),
    ("read_padded_numbers", reading::padded_numbers::<Table>),
    ("read_other_numbers", reading::other_numbers::<Table>),
    ("read_damaged_files", reading::damaged_files::<Table>),
    ("read_random_files", reading::random_files::<Table>),
    ("read_scan_counts", edges::scan_counts),
    ("read_order", edges::order),
    ("field_limits", edges::field_limits),
];

/// How many numbers a scan has: tag, shelf, device, time.
pub const SCAN: usize = 4;

/// A scan table: the numbers of its scans.
#[derive(Clone)]
pub struct Table {
    pub fields: Vec<u64>,
}

impl Table {
    /// A table of so many random scans.
    pub fn of_scans(rng: &mut Rng, scans: u64) -> Table {
        let fields = (0..scans).flat_map(|_| random_scan(rng)).collect();
        Table { fields }
    }

    /// How many whole scans there are.
    pub fn scans(&self) -> usize {
        self.fields.len() / SCAN
    }
}

impl Display for Table {
    fn fmt(&self, formatter: &mut Formatter) -> std::fmt::Result {
        write!(formatter, "a table, {}", Numbers(&self.fields))
    }
}

impl Form for Table {
    const NAME: &'static str = "table";
    const ROW: usize = SCAN;
    type Header = usize;
    const HEADER_BEFORE: usize = forms::NEXT_BEFORE;

    fn random(rng: &mut Rng) -> Table {
        let scans = match rng.below(8) {
            0 => 1,
            1 => GREATEST_S,
            2..=5 => rng.within(1, 5),
            _ => rng.within(1, GREATEST_S),
        };
        Table::of_scans(rng, scans)
    }

    fn head(&self) -> Vec<u64> {
        vec![self.scans() as u64]
    }

    fn header(&self) -> usize {
        self.scans()
    }

    fn fields(&self) -> &[u64] {
        &self.fields
    }

    fn fields_mut(&mut self) -> &mut Vec<u64> {
        &mut self.fields
    }

    fn read_proved(room: &mut [u64], bytes: &[u8], scans: &mut usize) -> u8 {
        calls::read_table(room, bytes, scans)
    }

    fn read_second(room: &mut [u64], bytes: &[u8], scans: &mut usize) -> u8 {
        let mut records = records_of(room);
        let given = scan_table::read(bytes, &mut records);
        for (numbers, record) in room.chunks_exact_mut(SCAN).zip(&records) {
            numbers.copy_from_slice(&[record.tag, record.shelf, record.device, record.time]);
        }
        answer(given, scans)
    }

    fn write_proved(&self, buffer: &mut [u8], next: &mut usize) -> u8 {
        calls::write_table(buffer, &self.fields, next)
    }

    fn write_second(&self, buffer: &mut [u8], next: &mut usize) -> u8 {
        let given = match whole_records(&self.fields) {
            Ok(records) => scan_table::write(&records, buffer),
            Err(refusal) => Err(refusal),
        };
        answer(given, next)
    }
}

/// A scan within its ranges.
fn random_scan(rng: &mut Rng) -> [u64; SCAN] {
    [
        random_within(rng, 0, GREATEST_TAG),
        random_within(rng, 0, GREATEST_SHELF),
        random_within(rng, 1, GREATEST_DEVICE),
        random_within(rng, 0, GREATEST_TIME),
    ]
}

/// The records of whole scans, or 1 where the numbers are none.
pub fn whole_records(fields: &[u64]) -> Result<Vec<Record>, Refusal> {
    if fields.len() % SCAN != 0 {
        return Err(OUTSIDE_RANGE);
    }
    Ok(records_of(fields))
}

/// The records of the whole scans among the numbers.
fn records_of(fields: &[u64]) -> Vec<Record> {
    let scans = fields.chunks_exact(SCAN);
    scans
        .map(|numbers| Record {
            tag: numbers[0],
            shelf: numbers[1],
            device: numbers[2],
            time: numbers[3],
        })
        .collect()
}
