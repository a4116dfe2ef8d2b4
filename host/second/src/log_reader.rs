//! The records of a log that is read in large pieces.

use crate::log::*;
use std::io::{self, ErrorKind, Read};

/// So many records are read at once.
pub(crate) const AT_ONCE: usize = 256;

pub(crate) struct LogReader<Input> {
    input: Input,
    buffer: Vec<u8>,
    /// Octets of the log in the buffer. The buffer is full until the log ends.
    filled: usize,
    /// How many of them have been given out.
    given: usize,
}

impl<Input: Read> LogReader<Input> {
    pub fn new(input: Input) -> Self {
        let buffer = vec![0; AT_ONCE * LOG_RECORD_SIZE];
        let (filled, given) = (buffer.len(), buffer.len());
        LogReader {
            input,
            buffer,
            filled,
            given,
        }
    }

    /// The next whole record.
    pub fn next_record(&mut self) -> io::Result<Option<&LogRecord>> {
        if self.given == self.buffer.len() {
            self.filled = fill(&mut self.input, &mut self.buffer)?;
            self.given = 0;
        }
        let record = self.buffer[self.given..self.filled].first_chunk();
        self.given += record.map_or(0, |record| record.len());
        Ok(record)
    }

    /// How many octets there are after the last whole record, once it is given.
    pub fn tail(&self) -> usize {
        self.filled - self.given
    }
}

/// Reads until the buffer is full or the input ends; returns how many octets.
fn fill(input: &mut impl Read, buffer: &mut [u8]) -> io::Result<usize> {
    let mut filled = 0;
    while filled < buffer.len() {
        match input.read(&mut buffer[filled..]) {
            Ok(0) => break,
            Ok(count) => filled += count,
            Err(error) if error.kind() == ErrorKind::Interrupted => {}
            Err(error) => return Err(error),
        }
    }
    Ok(filled)
}

#[cfg(test)]
mod tests {
    use super::*;
    use crate::failing::Failing;

    /// Gives few octets at a time and is often interrupted. Once it has ended, it
    /// is not to be read again.
    struct Slow<'a> {
        log: &'a [u8],
        calls: usize,
        ended: bool,
    }

    impl Read for Slow<'_> {
        fn read(&mut self, buffer: &mut [u8]) -> io::Result<usize> {
            assert!(!self.ended);
            self.calls += 1;
            if self.calls.is_multiple_of(3) {
                return Err(ErrorKind::Interrupted.into());
            }
            let count = buffer.len().min(1 + self.calls % 301);
            self.ended = self.log.is_empty();
            self.log.read(&mut buffer[..count])
        }
    }

    #[test]
    fn short_reads_and_many_records() {
        let octets: Vec<u8> = (0..(2 * AT_ONCE + 2) * LOG_RECORD_SIZE)
            .map(|n| (n % 251) as u8)
            .collect();
        for count in [0, 1, AT_ONCE - 1, AT_ONCE, AT_ONCE + 1, 2 * AT_ONCE, 2 * AT_ONCE + 1] {
            for tail in [0, 1, 259] {
                let log = &octets[..count * LOG_RECORD_SIZE + tail];
                let mut reader = LogReader::new(Slow {
                    log,
                    calls: 0,
                    ended: false,
                });
                for record in log_records(log).0 {
                    assert_eq!(reader.next_record().unwrap(), Some(record));
                }
                for _ in 0..3 {
                    assert_eq!(reader.next_record().unwrap(), None);
                    assert_eq!(reader.tail(), tail);
                }
            }
        }
    }

    #[test]
    fn errors() {
        let error = LogReader::new(Failing).next_record().unwrap_err();
        assert_eq!(error.kind(), ErrorKind::PermissionDenied);
    }
}
