//! The listing of a bench log: a line for each record, then a line of counts.

use crate::entry::Entry;
use crate::log_reader::LogReader;
use std::io::{self, BufWriter, Read, Write};

/// Lists the log that is the input.
pub fn list(input: impl Read, output: impl Write) -> io::Result<()> {
    let mut log = LogReader::new(input);
    let mut output = BufWriter::new(output);
    let (mut accepted, mut refused) = (0u64, 0u64);
    while let Some(record) = log.next_record()? {
        let entry = Entry::of(record);
        writeln!(output, "{} {entry}", accepted + refused)?;
        match entry.reading {
            Ok(_) => accepted += 1,
            Err(_) => refused += 1,
        }
    }
    let (records, tail) = (accepted + refused, log.tail());
    writeln!(
        output,
        "records {records} accepted {accepted} refused {refused} tail {tail}"
    )?;
    output.flush()
}

#[cfg(test)]
mod tests {
    use super::*;
    use crate::log::*;
    use std::io::ErrorKind;

    fn listed(log: impl Read) -> String {
        let mut output = Vec::new();
        list(log, &mut output).unwrap();
        String::from_utf8(output).unwrap()
    }

    /// The log of the rules.
    fn example() -> Vec<u8> {
        [
            log_record(TO_TAG, &[1, 0, 9, 0]),
            log_record(FROM_TAG, &[1, 1, 8, 0, 3, 8, 0xA1, 0xA2, 0xA3, 0xA4, 0xA5, 0xA6]),
            log_record(TO_TAG, &[3, 8, 0]),
        ]
        .concat()
    }

    const LINES: &str = "0 i 0 9\n1 t 1 8\n2 i refused 3\n";

    #[test]
    fn example_of_the_rules() {
        let last = "records 3 accepted 2 refused 1 tail 0\n";
        assert_eq!(listed(&example()[..]), [LINES, last].concat());
    }

    #[test]
    fn no_records() {
        for tail in 0..LOG_RECORD_SIZE {
            let last = format!("records 0 accepted 0 refused 0 tail {tail}\n");
            assert_eq!(listed(&example()[..tail]), last);
        }
    }

    #[test]
    fn tails() {
        for tail in 1..LOG_RECORD_SIZE {
            let mut log = example();
            log.resize(log.len() + tail, 0xFF);
            let last = format!("records 3 accepted 2 refused 1 tail {tail}\n");
            assert_eq!(listed(&log[..]), [LINES, &last].concat());
        }
    }

    #[test]
    fn broken_records() {
        // Direction, second octet, length, first and last octet after the message.
        let changes = [(0, 2), (0, 255), (1, 1), (3, 1), (3, 4), (8, 1), (259, 1)];
        let mut log = Vec::new();
        for (place, octet) in changes {
            let mut record = log_record(FROM_TAG, &[1, 7, 8, 0]);
            record[place] = octet;
            log.extend(record);
        }
        let lines: String = (0..changes.len()).map(|n| format!("{n} i refused 13\n")).collect();
        assert_eq!(listed(&log[..]), lines + "records 7 accepted 0 refused 7 tail 0\n");
    }

    #[test]
    fn reserved_bits() {
        let log = log_record(FROM_TAG, &[2, 0, 0xF5, 0xFF]);
        assert_eq!(listed(&log[..]), "0 t 0 5\nrecords 1 accepted 1 refused 0 tail 0\n");
    }

    #[test]
    fn no_room() {
        let error = list(&example()[..], &mut [0; 10][..]).unwrap_err();
        assert_eq!(error.kind(), ErrorKind::WriteZero);
    }
}
