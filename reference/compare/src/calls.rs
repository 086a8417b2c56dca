//! The C calls of the proved functions, each behind a safe function of the same
//! name without `test_`, `machine_` or `ymd_`. Answers are passed on as the
//! calls give them: a test answers 0 or 1, a call that may refuse answers 0 or
//! the refusal's number.

use compare::machine::form::{Acceptor, Event, Learner, Message, Proposer, Said, Sizes};

#[allow(dead_code)]
pub mod site;

mod c {
    use super::{Acceptor, Event, Learner, Message, Proposer, Said, Sizes};

    extern "C" {
        pub fn test_scans_of_one(scan: u16) -> u64;
        pub fn test_scans_union(a: u64, b: u64) -> u64;
        pub fn test_scans_contained(a: u64, b: u64) -> u32;
        pub fn test_scans_strictly_contained(a: u64, b: u64) -> u32;
        pub fn test_scans_holds(a: u64, scan: u16) -> u32;
        pub fn test_scans_is_empty(a: u64) -> u32;
        pub fn test_scans_fits(a: u64, scans: u32) -> u32;

        pub fn test_acceptors_with(q: u8, acceptor: u8) -> u8;
        pub fn test_acceptors_union(q: u8, r: u8) -> u8;
        pub fn test_acceptors_fits(q: u8, acceptors: u32) -> u32;
        pub fn test_acceptors_size(q: u8) -> u32;
        pub fn test_acceptors_majority(q: u8, acceptors: u32) -> u32;

        pub fn test_read_number(
            bytes: *const u8,
            length: usize,
            at: usize,
            limit: u32,
            value: *mut u64,
            next: *mut usize,
        ) -> u8;
        pub fn test_number_width(value: u64) -> usize;
        pub fn test_write_number(
            buffer: *mut u8,
            length: usize,
            at: usize,
            value: u64,
            limit: u32,
            next: *mut usize,
        ) -> u8;

        pub fn test_read_table(
            room: *mut u64,
            room_length: usize,
            bytes: *const u8,
            length: usize,
            scans: *mut usize,
        ) -> u8;
        pub fn test_write_table(
            buffer: *mut u8,
            length: usize,
            fields: *const u64,
            fields_length: usize,
            next: *mut usize,
        ) -> u8;

        pub fn test_read_schedule(
            room: *mut u64,
            room_length: usize,
            bytes: *const u8,
            length: usize,
            header: *mut u16,
        ) -> u8;
        pub fn test_write_schedule(
            buffer: *mut u8,
            length: usize,
            fields: *const u64,
            fields_length: usize,
            sizes: *const u16,
            next: *mut usize,
        ) -> u8;

        pub fn test_where_is(
            fields: *const u64,
            fields_length: usize,
            set: u64,
            tag: u64,
            answer: *mut u64,
        ) -> u8;
        pub fn test_where_is_written(
            bytes: *const u8,
            length: usize,
            set: u64,
            tag: u64,
            answer: *mut u64,
        ) -> u8;

        pub fn machine_fresh(
            sizes: Sizes,
            proposers: *mut Proposer,
            proposers_length: usize,
            acceptors: *mut Acceptor,
            acceptors_length: usize,
            learners: *mut Learner,
            learners_length: usize,
            slots: *mut Message,
            slots_length: usize,
        ) -> u8;
        pub fn machine_step(
            sizes: Sizes,
            proposers: *mut Proposer,
            proposers_length: usize,
            acceptors: *mut Acceptor,
            acceptors_length: usize,
            learners: *mut Learner,
            learners_length: usize,
            slots: *mut Message,
            slots_length: usize,
            event: Event,
        ) -> Said;
        pub fn machine_run(
            sizes: Sizes,
            proposers: *mut Proposer,
            proposers_length: usize,
            acceptors: *mut Acceptor,
            acceptors_length: usize,
            learners: *mut Learner,
            learners_length: usize,
            slots: *mut Message,
            slots_length: usize,
            events: *const u64,
            events_length: usize,
            log: *mut u64,
            log_length: usize,
            n: u16,
        ) -> u8;

        pub fn ymd_run_text(
            text: *mut u8,
            text_length: usize,
            schedule: *const u8,
            schedule_length: usize,
            length: *mut usize,
        ) -> u8;
    }
}

/// The set of one scan.
pub fn scans_of_one(scan: u16) -> u64 {
    // SAFETY: the call takes and gives numbers only.
    unsafe { c::test_scans_of_one(scan) }
}

/// Every scan of either set.
pub fn scans_union(a: u64, b: u64) -> u64 {
    // SAFETY: the call takes and gives numbers only.
    unsafe { c::test_scans_union(a, b) }
}

/// Whether `a` is contained in `b`.
pub fn scans_contained(a: u64, b: u64) -> u32 {
    // SAFETY: the call takes and gives numbers only.
    unsafe { c::test_scans_contained(a, b) }
}

/// Whether `a` is contained in `b` and is not `b`.
pub fn scans_strictly_contained(a: u64, b: u64) -> u32 {
    // SAFETY: the call takes and gives numbers only.
    unsafe { c::test_scans_strictly_contained(a, b) }
}

/// Whether the set holds the scan.
pub fn scans_holds(a: u64, scan: u16) -> u32 {
    // SAFETY: the call takes and gives numbers only.
    unsafe { c::test_scans_holds(a, scan) }
}

/// Whether the set holds no scan.
pub fn scans_is_empty(a: u64) -> u32 {
    // SAFETY: the call takes and gives numbers only.
    unsafe { c::test_scans_is_empty(a) }
}

/// Whether every scan of the set is below `scans`.
pub fn scans_fits(a: u64, scans: u32) -> u32 {
    // SAFETY: the call takes and gives numbers only.
    unsafe { c::test_scans_fits(a, scans) }
}

/// The set with one acceptor more.
pub fn acceptors_with(q: u8, acceptor: u8) -> u8 {
    // SAFETY: the call takes and gives numbers only.
    unsafe { c::test_acceptors_with(q, acceptor) }
}

/// Every acceptor of either set.
pub fn acceptors_union(q: u8, r: u8) -> u8 {
    // SAFETY: the call takes and gives numbers only.
    unsafe { c::test_acceptors_union(q, r) }
}

/// Whether every acceptor of the set is below `acceptors`.
pub fn acceptors_fits(q: u8, acceptors: u32) -> u32 {
    // SAFETY: the call takes and gives numbers only.
    unsafe { c::test_acceptors_fits(q, acceptors) }
}

/// How many acceptors the set holds.
pub fn acceptors_size(q: u8) -> u32 {
    // SAFETY: the call takes and gives numbers only.
    unsafe { c::test_acceptors_size(q) }
}

/// Whether the set is a majority of `acceptors`.
pub fn acceptors_majority(q: u8, acceptors: u32) -> u32 {
    // SAFETY: the call takes and gives numbers only.
    unsafe { c::test_acceptors_majority(q, acceptors) }
}

/// Reads the number at `at`. Limit 0 is the schedule's, any other the table's.
pub fn read_number(bytes: &[u8], at: usize, limit: u32, value: &mut u64, next: &mut usize) -> u8 {
    // SAFETY: the call reads `length` bytes from the slice's pointer at most,
    // and writes the two cells only; all three are borrowed for the call.
    unsafe { c::test_read_number(bytes.as_ptr(), bytes.len(), at, limit, value, next) }
}

/// How many bytes the shortest form of `value` takes.
pub fn number_width(value: u64) -> usize {
    // SAFETY: the call takes and gives numbers only.
    unsafe { c::test_number_width(value) }
}

/// Writes `value` at `at`. Limit 0 is the schedule's, any other the table's.
pub fn write_number(buffer: &mut [u8], at: usize, value: u64, limit: u32, next: &mut usize) -> u8 {
    // SAFETY: the call writes `length` bytes from the slice's pointer at most,
    // and the cell; both are borrowed for the call.
    unsafe { c::test_write_number(buffer.as_mut_ptr(), buffer.len(), at, value, limit, next) }
}

/// Reads a scan table into the room, four numbers for each scan: tag, shelf,
/// device, time.
pub fn read_table(room: &mut [u64], bytes: &[u8], scans: &mut usize) -> u8 {
    // SAFETY: the call writes `room_length` numbers from the room's pointer at
    // most, and the cell, and reads `length` bytes at most; all three are
    // borrowed for the call.
    unsafe {
        c::test_read_table(
            room.as_mut_ptr(),
            room.len(),
            bytes.as_ptr(),
            bytes.len(),
            scans,
        )
    }
}

/// Writes the scan table of these numbers, four for each scan.
pub fn write_table(buffer: &mut [u8], fields: &[u64], next: &mut usize) -> u8 {
    // SAFETY: the call writes `length` bytes from the buffer's pointer at most,
    // and the cell, and reads `fields_length` numbers at most; all three are
    // borrowed for the call.
    unsafe {
        c::test_write_table(
            buffer.as_mut_ptr(),
            buffer.len(),
            fields.as_ptr(),
            fields.len(),
            next,
        )
    }
}

/// Reads a schedule into the room, three numbers for each event: code, a, b.
/// The header is P, A, L, M, S, E.
pub fn read_schedule(room: &mut [u64], bytes: &[u8], header: &mut [u16; 6]) -> u8 {
    // SAFETY: the call writes `room_length` numbers from the room's pointer at
    // most, and the six of the header, and reads `length` bytes at most; all
    // three are borrowed for the call.
    unsafe {
        c::test_read_schedule(
            room.as_mut_ptr(),
            room.len(),
            bytes.as_ptr(),
            bytes.len(),
            header.as_mut_ptr(),
        )
    }
}

/// Writes the schedule of these numbers, three for each event. The sizes are
/// P, A, L, M, S.
pub fn write_schedule(buffer: &mut [u8], fields: &[u64], sizes: &[u16; 5], next: &mut usize) -> u8 {
    // SAFETY: the call writes `length` bytes from the buffer's pointer at most,
    // and the cell, and reads `fields_length` numbers and five sizes at most;
    // all four are borrowed for the call.
    unsafe {
        c::test_write_schedule(
            buffer.as_mut_ptr(),
            buffer.len(),
            fields.as_ptr(),
            fields.len(),
            sizes.as_ptr(),
            next,
        )
    }
}

/// The newest scan of the tag among those of the set, asked of a table's
/// numbers. The answer is found (0 or 1), scan, shelf, time.
pub fn where_is(fields: &[u64], set: u64, tag: u64, answer: &mut [u64; 4]) -> u8 {
    // SAFETY: the call reads `fields_length` numbers from the slice's pointer
    // at most, and writes the four; both are borrowed for the call.
    unsafe { c::test_where_is(fields.as_ptr(), fields.len(), set, tag, answer.as_mut_ptr()) }
}

/// The same, asked of a table's written form.
pub fn where_is_written(bytes: &[u8], set: u64, tag: u64, answer: &mut [u64; 4]) -> u8 {
    // SAFETY: the call reads `length` bytes from the slice's pointer at most,
    // and writes the four; both are borrowed for the call.
    unsafe { c::test_where_is_written(bytes.as_ptr(), bytes.len(), set, tag, answer.as_mut_ptr()) }
}

/// A call on the records and slots of a run, each slice by its pointer and its
/// length, and on what else it takes.
macro_rules! on_records {
    ($call:path, $sizes:expr, $proposers:expr, $acceptors:expr, $learners:expr, $slots:expr $(, $more:expr)*) => {
        $call(
            $sizes,
            $proposers.as_mut_ptr(),
            $proposers.len(),
            $acceptors.as_mut_ptr(),
            $acceptors.len(),
            $learners.as_mut_ptr(),
            $learners.len(),
            $slots.as_mut_ptr(),
            $slots.len(),
            $($more),*
        )
    };
}

/// Makes the records and slots those of a fresh run.
pub fn fresh(
    sizes: Sizes,
    proposers: &mut [Proposer],
    acceptors: &mut [Acceptor],
    learners: &mut [Learner],
    slots: &mut [Message],
) -> u8 {
    // SAFETY: the call reads and writes as many records and slots from each
    // slice's pointer as its length says at most; all four are borrowed for
    // the call. A flag can only be given as 0 or 1.
    unsafe {
        on_records!(
            c::machine_fresh,
            sizes,
            proposers,
            acceptors,
            learners,
            slots
        )
    }
}

/// Does one event on the records and slots, and says what a log says of it.
pub fn step(
    sizes: Sizes,
    proposers: &mut [Proposer],
    acceptors: &mut [Acceptor],
    learners: &mut [Learner],
    slots: &mut [Message],
    event: Event,
) -> Said {
    // SAFETY: the call reads and writes as many records and slots from each
    // slice's pointer as its length says at most; all four are borrowed for the
    // call. A flag can only be given as 0 or 1.
    unsafe {
        on_records!(
            c::machine_step,
            sizes,
            proposers,
            acceptors,
            learners,
            slots,
            event
        )
    }
}

/// Does the first `n` events, three numbers each, on the records and slots and
/// leaves two numbers of the log for each.
#[allow(clippy::too_many_arguments)]
pub fn run(
    sizes: Sizes,
    proposers: &mut [Proposer],
    acceptors: &mut [Acceptor],
    learners: &mut [Learner],
    slots: &mut [Message],
    events: &[u64],
    log: &mut [u64],
    n: u16,
) -> u8 {
    // SAFETY: the call reads and writes as many records, slots and numbers of
    // log from each slice's pointer as its length says at most, and reads the
    // events so; all six are borrowed for the call. A flag can only be given
    // as 0 or 1.
    unsafe {
        on_records!(
            c::machine_run,
            sizes,
            proposers,
            acceptors,
            learners,
            slots,
            events.as_ptr(),
            events.len(),
            log.as_mut_ptr(),
            log.len(),
            n
        )
    }
}

/// Prints what the schedule does to the start of `text`.
pub fn run_text(text: &mut [u8], schedule: &[u8], length: &mut usize) -> u8 {
    // SAFETY: the call writes `text_length` bytes from the text's pointer at
    // most, and the cell, and reads `schedule_length` bytes at most; all three
    // are borrowed for the call.
    unsafe {
        c::ymd_run_text(
            text.as_mut_ptr(),
            text.len(),
            schedule.as_ptr(),
            schedule.len(),
            length,
        )
    }
}
