//! Second, independent implementation of the ranging tag: reader, block listing
//! and writer of the six messages of version 1, the tag's session, the listing
//! of a bench log and the comparison of two, written from the customer's papers
//! alone.
#![forbid(unsafe_code)]

mod blocks;
mod comparison;
mod differences;
mod entry;
#[cfg(test)]
mod failing;
mod listing;
mod log;
mod log_reader;
mod reader;
mod record;
mod refusal;
mod session;
mod valid;
mod writer;

pub use blocks::{blocks, Block};
pub use comparison::compare;
pub use listing::list;
pub use log::*;
pub use reader::read;
pub use record::*;
pub use refusal::Refusal;
pub use session::*;
pub use valid::is_valid;
pub use writer::write;
