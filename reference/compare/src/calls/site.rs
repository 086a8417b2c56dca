//! The site server's calls on records, each behind a safe function of the same name
//! without `ymd_`. Answers are passed on as the calls give them.

mod c {
    extern "C" {
        pub fn ymd_clock(dock_tick: u32, scan_tick: u32, dock_time: u64, time: *mut u64) -> u8;
        pub fn ymd_where_is(
            table: *const u8,
            table_length: usize,
            set: *const u8,
            set_length: usize,
            tag: u64,
            found: *mut u64,
        ) -> u8;
        pub fn ymd_answer_proposal(
            scans: u64,
            record: *mut u8,
            record_length: usize,
            set: *const u8,
            set_length: usize,
            reply: *mut u8,
        ) -> u8;
        pub fn ymd_hear(
            proposers: u64,
            acceptors: u64,
            scans: u64,
            record: *mut u8,
            record_length: usize,
            proposer: u64,
            acceptor: u64,
            number: u64,
            set: *const u8,
            set_length: usize,
            learns: *mut u8,
        ) -> u8;
    }
}

/// The clock rule.
pub fn clock(dock_tick: u32, scan_tick: u32, dock_time: u64, time: &mut u64) -> u8 {
    // SAFETY: the call writes the cell only, which is borrowed for the call.
    unsafe { c::ymd_clock(dock_tick, scan_tick, dock_time, time) }
}

/// The shelf question, asked of a table's written form.
pub fn where_is(table: &[u8], set: &[u8; 8], tag: u64, found: &mut [u64; 4]) -> u8 {
    // SAFETY: the call reads as many bytes from each pointer as its length
    // says at most, and writes the four; all are borrowed for the call.
    unsafe {
        c::ymd_where_is(
            table.as_ptr(),
            table.len(),
            set.as_ptr(),
            set.len(),
            tag,
            found.as_mut_ptr(),
        )
    }
}

/// The acceptor's rule on its record.
pub fn answer_proposal(scans: u64, record: &mut [u8], set: &[u8; 8], reply: &mut [u8; 9]) -> u8 {
    // SAFETY: the call reads and writes as many bytes from each pointer as its
    // length says at most, and writes the nine; all are borrowed for the call.
    unsafe {
        c::ymd_answer_proposal(
            scans,
            record.as_mut_ptr(),
            record.len(),
            set.as_ptr(),
            set.len(),
            reply.as_mut_ptr(),
        )
    }
}

/// The learner's rule on its record; the run is P, A, S, the acknowledgement
/// proposer, acceptor, number.
pub fn hear(
    run: [u64; 3],
    record: &mut [u8],
    acknowledgement: [u64; 3],
    set: &[u8; 8],
    learns: &mut u8,
) -> u8 {
    let [proposers, acceptors, scans] = run;
    let [proposer, acceptor, number] = acknowledgement;
    // SAFETY: the call reads and writes as many bytes from each pointer as its
    // length says at most, and writes the cell; all are borrowed for the call.
    unsafe {
        c::ymd_hear(
            proposers,
            acceptors,
            scans,
            record.as_mut_ptr(),
            record.len(),
            proposer,
            acceptor,
            number,
            set.as_ptr(),
            set.len(),
            learns,
        )
    }
}
