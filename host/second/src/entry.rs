//! What a log record says, and what is printed of it.

use crate::log::*;
use crate::reader::read;
use crate::record::Record;
use crate::refusal::Refusal;
use std::fmt::{self, Display, Formatter};

/// Direction and reading of a record's message. A broken record counts as one
/// to the tag.
#[derive(Clone, Copy, PartialEq, Eq, Debug)]
pub(crate) struct Entry {
    pub direction: u8,
    pub reading: Result<Record, Refusal>,
}

impl Entry {
    pub fn of(record: &LogRecord) -> Self {
        let (direction, reading) = match logged(record) {
            Some((direction, message)) => (direction, read(message)),
            None => (TO_TAG, Err(Refusal::BrokenRecord)),
        };
        Entry { direction, reading }
    }
}

impl Display for Entry {
    fn fmt(&self, f: &mut Formatter) -> fmt::Result {
        let letter = if self.direction == FROM_TAG { 't' } else { 'i' };
        match &self.reading {
            Ok(record) => write!(f, "{letter} {} {}", record.id, record.set),
            Err(refusal) => write!(f, "{letter} refused {}", refusal.number()),
        }
    }
}
