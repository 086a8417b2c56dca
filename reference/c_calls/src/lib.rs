//! The second program's calls for C. Each takes what the call of the proved
//! library takes whose name begins with `ymd_`, and gives 0 or the refusal's
//! number.

#![deny(unsafe_op_in_unsafe_fn)]
#![allow(clippy::missing_safety_doc)]

use std::slice;

use reference::calls::{self, Acknowledgement};
use reference::layout::ACCEPTOR;
use reference::refusal::Refusal;

/// The number of an answer.
fn number_of(answer: Result<(), Refusal>) -> u8 {
    answer.err().unwrap_or(0)
}

/// The bytes that a caller lends to be read; a null pointer lends none.
///
/// # Safety
///
/// A pointer that is not null is followed by `length` bytes that nothing
/// changes during the call.
unsafe fn lent<'a>(bytes: *const u8, length: usize) -> &'a [u8] {
    if bytes.is_null() {
        return &[];
    }
    // SAFETY: the caller's promise.
    unsafe { slice::from_raw_parts(bytes, length) }
}

/// The bytes that a caller lends to be changed; a null pointer lends none.
///
/// # Safety
///
/// A pointer that is not null is followed by `length` bytes that no one else
/// uses during the call.
unsafe fn lent_mut<'a>(bytes: *mut u8, length: usize) -> &'a mut [u8] {
    if bytes.is_null() {
        return &mut [];
    }
    // SAFETY: the caller's promise.
    unsafe { slice::from_raw_parts_mut(bytes, length) }
}

#[no_mangle]
pub unsafe extern "C" fn second_clock(
    dock_tick: u32,
    scan_tick: u32,
    dock_time: u64,
    time: *mut u64,
) -> u8 {
    // SAFETY: the cell is lent.
    let time = unsafe { &mut *time };
    number_of(calls::clock(dock_tick, scan_tick, dock_time, time))
}

#[no_mangle]
pub unsafe extern "C" fn second_where_is(
    table: *const u8,
    table_length: usize,
    set: *const u8,
    set_length: usize,
    tag: u64,
    found: *mut [u64; 4],
) -> u8 {
    // SAFETY: the slices and the four numbers are lent.
    let (table, set, found) = unsafe {
        (
            lent(table, table_length),
            lent(set, set_length),
            &mut *found,
        )
    };
    number_of(calls::where_is(table, set, tag, found))
}

#[no_mangle]
pub unsafe extern "C" fn second_answer_proposal(
    scans: u64,
    kept: *mut u8,
    kept_length: usize,
    set: *const u8,
    set_length: usize,
    reply: *mut [u8; ACCEPTOR],
) -> u8 {
    // SAFETY: the slices and the reply are lent.
    let (kept, set, reply) = unsafe {
        (
            lent_mut(kept, kept_length),
            lent(set, set_length),
            &mut *reply,
        )
    };
    number_of(calls::answer_proposal(scans, kept, set, reply))
}

#[no_mangle]
pub unsafe extern "C" fn second_hear(
    proposers: u64,
    acceptors: u64,
    scans: u64,
    kept: *mut u8,
    kept_length: usize,
    proposer: u64,
    acceptor: u64,
    number: u64,
    set: *const u8,
    set_length: usize,
    learns: *mut u8,
) -> u8 {
    // SAFETY: the slices and the cell are lent.
    let (kept, set, learns) = unsafe {
        (
            lent_mut(kept, kept_length),
            lent(set, set_length),
            &mut *learns,
        )
    };
    let heard = Acknowledgement {
        proposer,
        acceptor,
        number,
        set,
    };
    number_of(calls::hear(
        (proposers, acceptors, scans),
        kept,
        &heard,
        learns,
    ))
}

#[no_mangle]
pub unsafe extern "C" fn second_buffer(
    acceptors: u64,
    scans: u64,
    kept: *mut u8,
    kept_length: usize,
    set: *const u8,
    set_length: usize,
) -> u8 {
    // SAFETY: the slices are lent.
    let (kept, set) = unsafe { (lent_mut(kept, kept_length), lent(set, set_length)) };
    number_of(calls::buffer(acceptors, scans, kept, set))
}

#[no_mangle]
pub unsafe extern "C" fn second_acknowledged(
    acceptors: u64,
    scans: u64,
    kept: *mut u8,
    kept_length: usize,
    acceptor: u64,
    number: u64,
) -> u8 {
    // SAFETY: the slice is lent.
    let kept = unsafe { lent_mut(kept, kept_length) };
    number_of(calls::acknowledged(
        acceptors, scans, kept, acceptor, number,
    ))
}

#[no_mangle]
pub unsafe extern "C" fn second_rejected(
    acceptors: u64,
    scans: u64,
    kept: *mut u8,
    kept_length: usize,
    acceptor: u64,
    number: u64,
    set: *const u8,
    set_length: usize,
) -> u8 {
    // SAFETY: the slices are lent.
    let (kept, set) = unsafe { (lent_mut(kept, kept_length), lent(set, set_length)) };
    number_of(calls::rejected(
        acceptors, scans, kept, acceptor, number, set,
    ))
}

#[no_mangle]
pub unsafe extern "C" fn second_propose(
    acceptors: u64,
    scans: u64,
    kept: *mut u8,
    kept_length: usize,
) -> u8 {
    // SAFETY: the slice is lent.
    let kept = unsafe { lent_mut(kept, kept_length) };
    number_of(calls::propose(acceptors, scans, kept))
}

#[no_mangle]
pub unsafe extern "C" fn second_refine(
    acceptors: u64,
    scans: u64,
    kept: *mut u8,
    kept_length: usize,
) -> u8 {
    // SAFETY: the slice is lent.
    let kept = unsafe { lent_mut(kept, kept_length) };
    number_of(calls::refine(acceptors, scans, kept))
}

#[no_mangle]
pub unsafe extern "C" fn second_decide(
    acceptors: u64,
    scans: u64,
    kept: *mut u8,
    kept_length: usize,
) -> u8 {
    // SAFETY: the slice is lent.
    let kept = unsafe { lent_mut(kept, kept_length) };
    number_of(calls::decide(acceptors, scans, kept))
}

#[no_mangle]
pub unsafe extern "C" fn second_check_schedule(bytes: *const u8, length: usize) -> u8 {
    // SAFETY: the slice is lent.
    number_of(calls::check_schedule(unsafe { lent(bytes, length) }))
}

#[no_mangle]
pub unsafe extern "C" fn second_check_table(bytes: *const u8, length: usize) -> u8 {
    // SAFETY: the slice is lent.
    number_of(calls::check_table(unsafe { lent(bytes, length) }))
}

#[no_mangle]
pub unsafe extern "C" fn second_run_text(
    text: *mut u8,
    text_length: usize,
    schedule: *const u8,
    schedule_length: usize,
    length: *mut usize,
) -> u8 {
    // SAFETY: the slices and the cell are lent.
    let (text, schedule, length) = unsafe {
        (
            lent_mut(text, text_length),
            lent(schedule, schedule_length),
            &mut *length,
        )
    };
    number_of(calls::run_text(text, schedule, length))
}
