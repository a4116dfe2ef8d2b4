//! Asks both implementations and compares what they answer.
use crate::convert::{of_block, of_library, to_library};
use second::Record;

/// After so many differences the rest is only counted.
const SHOWN: u64 = 20;

#[derive(Default)]
pub struct Checker {
    pub messages: u64,
    pub accepted: u64,
    pub blocks: u64,
    pub writes: u64,
    pub differences: u64,
}

pub fn hex(octets: &[u8]) -> String {
    octets
        .iter()
        .map(|octet| format!("{octet:02X}"))
        .collect::<Vec<_>>()
        .join(" ")
}

/// What a lent buffer holds before a call.
fn pattern(length: usize) -> Vec<u8> {
    (0..length).map(|i| (i * 37 + 11) as u8).collect()
}

impl Checker {
    pub fn new() -> Self {
        Checker::default()
    }

    pub fn differ(&mut self, what: impl FnOnce() -> String) {
        self.differences += 1;
        if self.differences <= SHOWN {
            println!("DIFFERENCE {}", what());
        }
    }

    /// Reads a message and lists its blocks with both; a record that both read is written by both too. Returns the record.
    pub fn message(&mut self, message: &[u8]) -> Option<Record> {
        self.messages += 1;
        self.list_blocks(message);
        let proved = raydulcimer::read(message)
            .map(|record| of_library(&record))
            .map_err(|refusal| refusal.number());
        let plain = second::read(message).map_err(|refusal| refusal.number());
        if proved != plain {
            self.differ(|| format!("read {}: proved {proved:?}, second {plain:?}", hex(message)));
            return None;
        }
        let record = plain.ok()?;
        self.accepted += 1;
        let _ = self.write(&record, raydulcimer::MESSAGE_LIMIT);
        Some(record)
    }

    /// Lists a message's blocks with both; a refused message has none.
    fn list_blocks(&mut self, message: &[u8]) {
        let mut count = 0;
        for plain in second::blocks(message).map(Some).chain([None]) {
            let proved = raydulcimer::block(message, count).map(of_block);
            if proved != plain {
                self.differ(|| format!("block {count} of {}: proved {proved:?}, second {plain:?}", hex(message)));
            }
            count += 1;
        }
        self.blocks += count as u64 - 1;
    }

    /// Writes a record into a buffer with both, and returns the length or the refusal's number.
    pub fn write(&mut self, record: &Record, length: usize) -> Result<usize, u8> {
        self.writes += 1;
        let (mut one, mut other) = (pattern(length), pattern(length));
        let proved = raydulcimer::write(&to_library(record), &mut one).map_err(|refusal| refusal.number());
        let plain = second::write(record, &mut other).map_err(|refusal| refusal.number());
        if proved != plain || one != other {
            self.differ(|| {
                let buffers = format!("proved {proved:?} {}, second {plain:?} {}", hex(&one), hex(&other));
                format!("write {record:?} into {length}: {buffers}")
            });
        }
        plain
    }

    /// Writes a record into every buffer from none up to one octet more than it needs.
    pub fn write_everywhere(&mut self, record: &Record) {
        let need = self.write(record, raydulcimer::MESSAGE_LIMIT).unwrap_or(8);
        for length in 0..=need + 1 {
            let _ = self.write(record, length);
        }
    }
}
