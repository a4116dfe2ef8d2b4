//! Safe bindings to Raydulcimer, the proved software of a ranging tag: the messages of Android Ranging out-of-band,
//! version 1.
//!
//! [`read`] takes any octets, [`write()`] any record and any buffer, and a [`Session`] any messages, one after the other; each
//! call gives one answer and none panics. What they promise is proved of the library that they call; these bindings only
//! carry it over.
//!
//! ```
//! use raydulcimer::{read, write, MessageId, Refusal, Replies, Session, Technologies, MESSAGE_LIMIT};
//!
//! # fn main() -> Result<(), Refusal> {
//! let record = read(&[1, 0, 9, 0])?;
//! assert_eq!(record.id, MessageId::CAPABILITY_REQUEST);
//! assert_eq!(record.set, Technologies::UWB | Technologies::RSSI);
//!
//! let mut buffer = [0; MESSAGE_LIMIT];
//! let length = write(&record, &mut buffer)?;
//! assert_eq!(buffer[..length], [1, 0, 9, 0]);
//!
//! assert_eq!(read(&[1, 0, 9]), Err(Refusal::EndsEarly));
//!
//! let profile = read(&[1, 1, 8, 0, 3, 8, 1, 2, 3, 4, 5, 6])?;
//! let mut session = Session::start(&profile, Replies::On)?;
//! let answer = session.message(&[1, 2, 8, 0, 8, 0, 3, 8, 6, 5, 4, 3, 2, 1], &mut buffer)?;
//! assert_eq!(buffer[..answer.length], [1, 3, 8, 0]);
//! assert_eq!(answer.set, Technologies::RSSI);
//! assert_eq!(session.rssi().unwrap().address, [6, 5, 4, 3, 2, 1]);
//! # Ok(())
//! # }
//! ```
//!
//! The bindings need `core` alone. The feature `std`, on by default, makes a `std::io::Error` of a [`Refusal`].
#![no_std]
#![deny(missing_docs, clippy::missing_errors_doc, clippy::must_use_candidate)]

#[cfg(feature = "std")]
extern crate std;

mod block;
mod message;
pub mod raw;
mod record;
mod refusal;
mod session;
mod technology;

pub use block::{block, blocks, Block};
pub use message::MessageId;
pub use record::*;
pub use refusal::Refusal;
pub use session::{Answer, Replies, Session};
pub use technology::Technologies;

/// A message has at most so many octets: a buffer of this length has room for every one.
pub const MESSAGE_LIMIT: usize = 256;

#[repr(C)]
struct Reading {
    refusal: u8,
    value: Record,
}

#[repr(C)]
struct Written {
    refusal: u8,
    length: usize,
}

extern "C" {
    fn raydulcimer_read(message: *const u8, length: usize) -> Reading;
    fn raydulcimer_write(value: Record, out: *mut u8, length: usize) -> Written;
}

/// Reads a message of any length. Accepts exactly the well-formed ones. The record is always valid.
///
/// # Errors
///
/// The refusal that the order of checks names, from [`Refusal::TooLong`] to [`Refusal::LeftOver`].
pub fn read(message: &[u8]) -> Result<Record, Refusal> {
    // SAFETY: a slice's pointer is not null and leads to its length of octets, which nobody writes to meanwhile.
    let reading = unsafe { raydulcimer_read(message.as_ptr(), message.len()) };
    Refusal::none(reading.refusal).map(|()| reading.value)
}

/// Writes a record's normal form into the first octets of a buffer and returns its length: version 1, blocks by rising ID,
/// every size exactly the need. Reading it gives the record back. The octets after the written ones stay as they were.
///
/// # Errors
///
/// [`Refusal::NotValid`] is tested first, then [`Refusal::BufferTooShort`]. A refused call leaves the buffer as it was.
pub fn write(record: &Record, out: &mut [u8]) -> Result<usize, Refusal> {
    // SAFETY: a slice's pointer is not null and leads to its length of octets, which are borrowed for this call alone.
    let written = unsafe { raydulcimer_write(*record, out.as_mut_ptr(), out.len()) };
    Refusal::none(written.refusal).map(|()| written.length)
}
