//! Numbers, readers, writers and the shelf question.

use reference::numbers::{self, SCHEDULE_LIMIT, TABLE_LIMIT};
use reference::refusal::Refusal;
use reference::rng::Rng;
use reference::scan_table::{
    self, Record, GREATEST_DEVICE, GREATEST_S, GREATEST_SHELF, GREATEST_TAG, GREATEST_TIME,
};
use reference::schedule::{self, Event, Sizes, GREATEST_E, LONGEST};
use reference::shelf;

use super::measure::Measured;
use super::{calls, REFUSED};

/// How many numbers are read and written in a row, and the argument of their
/// limit, the table's.
const NUMBERS: usize = 1_000;
const LIMIT: u32 = 1;

/// Room for a table of the longest numbers: S, then 17 bytes for each scan.
const LONGEST_TABLE: usize = 1 + 17 * GREATEST_S as usize;

/// The sizes of the longest schedule.
const GREATEST: [u16; 5] = [8, 7, 8, 512, 64];

pub fn all(rng: &mut Rng) -> Vec<(String, Measured)> {
    let longest = vec![longest_record(); GREATEST_S as usize];
    let typical: Vec<Record> = (0..GREATEST_S).map(|_| typical_record(rng)).collect();
    let mut all = number_calls(rng);
    all.extend(schedule_calls());
    all.extend(table_calls("longest numbers", &longest));
    all.extend(table_calls("typical numbers", &typical));
    all.extend(shelf_calls(&typical));
    all
}

/// What a job gives of the second program's answer.
fn told<T>(given: Result<T, Refusal>, value: impl FnOnce(T) -> u64) -> u64 {
    given.map_or(REFUSED, value)
}

/// The second program's reading of a number, as a call.
#[inline(never)]
fn read_number(bytes: &[u8], at: usize) -> Result<(u64, usize), Refusal> {
    numbers::read(bytes, at, TABLE_LIMIT)
}

/// The second program's writing of a number, as a call.
#[inline(never)]
fn write_number(buffer: &mut [u8], at: usize, value: u64) -> Result<usize, Refusal> {
    numbers::write(buffer, at, TABLE_LIMIT, value)
}

/// Numbers of random counts of bits, one call for each.
fn number_calls(rng: &mut Rng) -> Vec<(String, Measured)> {
    let values: Vec<u64> = (0..NUMBERS)
        .map(|_| (rng.draw() & TABLE_LIMIT) >> rng.below(48))
        .collect();
    let mut bytes = vec![0; NUMBERS * 7];
    let length = write_all(&mut bytes, &values);
    bytes.truncate(length);
    let reading = Measured::named(
        "read number",
        || read_all_proved(&bytes),
        || read_all(&bytes),
    );
    let mut buffer = bytes.clone();
    let writing = Measured::named(
        "write number",
        || write_all_proved(&mut buffer, &values) as u64,
        || write_all(&mut bytes, &values) as u64,
    );
    vec![reading, writing]
}

/// The sum of all numbers, read with the proved function.
fn read_all_proved(bytes: &[u8]) -> u64 {
    let mut sum: u64 = 0;
    let mut value = 0;
    let mut next = 0;
    for _ in 0..NUMBERS {
        calls::read_number(bytes, next, LIMIT, &mut value, &mut next);
        sum = sum.wrapping_add(value);
    }
    sum
}

/// The sum of all numbers, read with the second program.
fn read_all(bytes: &[u8]) -> u64 {
    let mut sum: u64 = 0;
    let mut at = 0;
    for _ in 0..NUMBERS {
        if let Ok((value, next)) = read_number(bytes, at) {
            sum = sum.wrapping_add(value);
            at = next;
        }
    }
    sum
}

/// The length of all numbers, written with the proved function.
fn write_all_proved(buffer: &mut [u8], values: &[u64]) -> usize {
    let mut next = 0;
    for value in values {
        calls::write_number(buffer, next, *value, LIMIT, &mut next);
    }
    next
}

/// The length of all numbers, written with the second program.
fn write_all(buffer: &mut [u8], values: &[u64]) -> usize {
    let mut at = 0;
    for value in values {
        if let Ok(next) = write_number(buffer, at, *value) {
            at = next;
        }
    }
    at
}

/// The longest schedule, read and written.
fn schedule_calls() -> Vec<(String, Measured)> {
    let [p, a, l, m, s] = GREATEST.map(u64::from);
    let sizes = Sizes { p, a, l, m, s };
    let event = Event {
        code: SCHEDULE_LIMIT,
        a: SCHEDULE_LIMIT,
        b: SCHEDULE_LIMIT,
    };
    let mut events = vec![event; GREATEST_E as usize];
    let mut bytes = vec![0; LONGEST];
    schedule::write(&sizes, &events, &mut bytes).expect("the longest schedule is accepted");
    let mut room = vec![0; events.len() * 3];
    let mut header = [0; 6];
    let reading = Measured::named(
        "read schedule, longest",
        || match calls::read_schedule(&mut room, &bytes, &mut header) {
            0 => u64::from(header[5]),
            _ => REFUSED,
        },
        || told(schedule::read(&bytes, &mut events), |(_, e)| e as u64),
    );
    let mut buffer = bytes.clone();
    let mut next = 0;
    let writing = Measured::named(
        "write schedule, longest",
        || match calls::write_schedule(&mut buffer, &room, &GREATEST, &mut next) {
            0 => next as u64,
            _ => REFUSED,
        },
        || told(schedule::write(&sizes, &events, &mut bytes), |n| n as u64),
    );
    vec![reading, writing]
}

/// A record of the longest numbers.
fn longest_record() -> Record {
    Record {
        tag: GREATEST_TAG,
        shelf: GREATEST_SHELF,
        device: GREATEST_DEVICE,
        time: GREATEST_TIME,
    }
}

/// A record of some thousand tags, some hundred shelves, few devices and times
/// of one month.
pub fn typical_record(rng: &mut Rng) -> Record {
    Record {
        tag: rng.within(100_000, 104_095),
        shelf: rng.within(1, 400),
        device: rng.within(1, 20),
        time: 1_700_000_000_000 + rng.below(30 * 86_400_000),
    }
}

/// The records' numbers, as the proved functions take them.
fn fields_of(records: &[Record]) -> Vec<u64> {
    let fields = records.iter();
    fields
        .flat_map(|record| [record.tag, record.shelf, record.device, record.time])
        .collect()
}

/// The records' written form.
pub fn file_of(records: &[Record]) -> Vec<u8> {
    let mut bytes = vec![0; LONGEST_TABLE];
    let length = scan_table::write(records, &mut bytes).expect("the table is accepted");
    bytes.truncate(length);
    bytes
}

/// A table of 64 scans, read and written.
fn table_calls(name: &str, records: &[Record]) -> Vec<(String, Measured)> {
    let fields = fields_of(records);
    let mut bytes = file_of(records);
    let mut room = fields.clone();
    let mut records_room = records.to_vec();
    let mut scans = 0;
    let reading = Measured::named(
        &format!("read table, {name}"),
        || match calls::read_table(&mut room, &bytes, &mut scans) {
            0 => scans as u64,
            _ => REFUSED,
        },
        || told(scan_table::read(&bytes, &mut records_room), |s| s as u64),
    );
    let mut buffer = bytes.clone();
    let mut next = 0;
    let writing = Measured::named(
        &format!("write table, {name}"),
        || match calls::write_table(&mut buffer, &fields, &mut next) {
            0 => next as u64,
            _ => REFUSED,
        },
        || told(scan_table::write(records, &mut bytes), |n| n as u64),
    );
    vec![reading, writing]
}

/// The shelf question about all scans of a table, on records and on the written
/// form.
fn shelf_calls(records: &[Record]) -> Vec<(String, Measured)> {
    let fields = fields_of(records);
    let bytes = file_of(records);
    let set = u64::MAX;
    let tag = records[0].tag;
    let mut cells = [0; 4];
    let on_records = Measured::named(
        "shelf question, 64 records",
        || match calls::where_is(&fields, set, tag, &mut cells) {
            0 => cells[3],
            _ => REFUSED,
        },
        || told(shelf::ask(records, set, tag), time_of),
    );
    let on_written = Measured::named(
        "shelf question, 64 records written",
        || match calls::where_is_written(&bytes, set, tag, &mut cells) {
            0 => cells[3],
            _ => REFUSED,
        },
        || told(shelf::ask_written(&bytes, set, tag), time_of),
    );
    vec![on_records, on_written]
}

/// The time of the scan found; 0 for none.
fn time_of(found: Option<shelf::Answer>) -> u64 {
    found.map_or(0, |found| found.time)
}
