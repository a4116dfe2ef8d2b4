//! The second implementation's calls for C. The benchmark hands what they return on without looking into it.
#![allow(improper_ctypes_definitions)]
use second::{blocks, read, start, write, Answer, Block, Record, Refusal, Session};
use std::slice::{from_raw_parts, from_raw_parts_mut};

type Reading = Result<Record, Refusal>;

/// # Safety
/// The pointer leads to `length` octets.
#[no_mangle]
pub unsafe extern "C" fn second_read(message: *const u8, length: usize) -> Reading {
    read(from_raw_parts(message, length))
}

/// # Safety
/// The reading is one that `second_read` returned, and `out` leads to `length` octets.
#[no_mangle]
pub unsafe extern "C" fn second_write(reading: &Reading, out: *mut u8, length: usize) -> usize {
    match reading {
        Ok(record) => write(record, from_raw_parts_mut(out, length)).unwrap_or(0),
        Err(_) => 0,
    }
}

/// # Safety
/// The pointer leads to `length` octets.
#[no_mangle]
pub unsafe extern "C" fn second_nth_block(message: *const u8, length: usize, n: usize) -> Option<Block> {
    blocks(from_raw_parts(message, length)).nth(n)
}

/// # Safety
/// The reading is one that `second_read` returned.
#[no_mangle]
pub unsafe extern "C" fn second_start(profile: &Reading, replies: u8) -> Session {
    profile
        .and_then(|record| start(&record, replies))
        .unwrap_or(Session::empty())
}

/// # Safety
/// The session is one that `second_start` returned; `octets` leads to `length` octets and `out` to `room`.
#[no_mangle]
pub unsafe extern "C" fn second_message(
    session: &mut Session,
    octets: *const u8,
    length: usize,
    out: *mut u8,
    room: usize,
) -> Result<Answer, Refusal> {
    session.message(from_raw_parts(octets, length), from_raw_parts_mut(out, room))
}

/// # Safety
/// As of `second_message`.
#[no_mangle]
pub unsafe extern "C" fn second_advertise(session: &mut Session, out: *mut u8, room: usize) -> Result<Answer, Refusal> {
    session.advertise(from_raw_parts_mut(out, room))
}
