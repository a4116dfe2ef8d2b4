//! Two logs side by side: lines for the records at each position, then a line
//! of counts.

use crate::differences::Differences;
use crate::entry::Entry;
use crate::log::LogRecord;
use crate::log_reader::LogReader;
use std::io::{self, BufWriter, Read, Write};

/// Compares two logs by position.
pub fn compare(left: impl Read, right: impl Read, output: impl Write) -> io::Result<()> {
    let (mut left, mut right) = (LogReader::new(left), LogReader::new(right));
    let mut output = BufWriter::new(output);
    let mut counts = Counts::default();
    for number in 0u64.. {
        match (left.next_record()?, right.next_record()?) {
            (Some(left), Some(right)) => pair(&mut output, number, left, right, &mut counts)?,
            (Some(left), None) => {
                counts.only_left += 1;
                writeln!(output, "{number} only left: {}", Entry::of(left))?;
            }
            (None, Some(right)) => {
                counts.only_right += 1;
                writeln!(output, "{number} only right: {}", Entry::of(right))?;
            }
            (None, None) => break,
        }
    }
    last_line(&mut output, &counts, left.tail(), right.tail())?;
    output.flush()
}

#[derive(Default)]
struct Counts {
    same_octets: u64,
    same_reading: u64,
    different: u64,
    only_left: u64,
    only_right: u64,
}

fn pair(
    output: &mut impl Write,
    number: u64,
    left: &LogRecord,
    right: &LogRecord,
    counts: &mut Counts,
) -> io::Result<()> {
    if left == right {
        counts.same_octets += 1;
        return writeln!(output, "{number} same octets");
    }
    let (left, right) = (Entry::of(left), Entry::of(right));
    if left == right {
        counts.same_reading += 1;
        return writeln!(output, "{number} same reading");
    }
    counts.different += 1;
    Differences { output, number }.of_entries(&left, &right)
}

fn last_line(output: &mut impl Write, counts: &Counts, left_tail: usize, right_tail: usize) -> io::Result<()> {
    let Counts {
        same_octets,
        same_reading,
        different,
        only_left,
        only_right,
    } = counts;
    let pairs = same_octets + same_reading + different;
    write!(output, "pairs {pairs} same octets {same_octets} ")?;
    write!(output, "same reading {same_reading} different {different} ")?;
    write!(output, "only left {only_left} only right {only_right} ")?;
    writeln!(output, "left tail {left_tail} right tail {right_tail}")
}

#[cfg(test)]
mod tests {
    use super::*;
    use crate::failing::Failing;
    use crate::log::*;
    use crate::log_reader::AT_ONCE;
    use std::io::ErrorKind;

    const REQUEST: [u8; 4] = [1, 0, 9, 0];
    const RESPONSE: [u8; 12] = [1, 1, 8, 0, 3, 8, 0xA1, 0xA2, 0xA3, 0xA4, 0xA5, 0xA6];

    fn compared(left: impl Read, right: impl Read) -> String {
        let mut output = Vec::new();
        compare(left, right, &mut output).unwrap();
        String::from_utf8(output).unwrap()
    }

    /// What is printed of two records, without the last line.
    fn of_pair(left: LogRecord, right: LogRecord) -> String {
        let text = compared(&left[..], &right[..]);
        text[..text.find("pairs ").unwrap()].to_string()
    }

    /// The last line of logs without records.
    fn no_records(left_tail: usize, right_tail: usize) -> String {
        let tails = format!("left tail {left_tail} right tail {right_tail}");
        format!("pairs 0 same octets 0 same reading 0 different 0 only left 0 only right 0 {tails}\n")
    }

    #[test]
    fn every_kind_of_line() {
        let left = [
            log_record(TO_TAG, &REQUEST),
            log_record(TO_TAG, &REQUEST),
            log_record(FROM_TAG, &RESPONSE),
            log_record(FROM_TAG, &[1, 7, 8]),
            [2; LOG_RECORD_SIZE],
        ]
        .concat();
        let right = [
            log_record(TO_TAG, &REQUEST),
            log_record(TO_TAG, &[3, 0, 0x19, 0, 0xAA]),
            log_record(TO_TAG, &[1, 1, 0, 0]),
        ]
        .concat();
        let pairs = "0 same octets\n1 same reading\n";
        let last = "pairs 3 same octets 1 same reading 1 different 1";
        assert_eq!(
            compared(&left[..], &right[..]),
            format!(
                "{pairs}2 direction: left 1, right 0\n2 RSSI presence: left 1, right 0\n\
                3 only left: t refused 2\n4 only left: i refused 13\n\
                {last} only left 2 only right 0 left tail 0 right tail 0\n"
            )
        );
        assert_eq!(
            compared(&right[..], &left[..]),
            format!(
                "{pairs}2 direction: left 0, right 1\n2 RSSI presence: left 0, right 1\n\
                3 only right: t refused 2\n4 only right: i refused 13\n\
                {last} only left 0 only right 2 left tail 0 right tail 0\n"
            )
        );
    }

    #[test]
    fn tails() {
        let record = log_record(FROM_TAG, &RESPONSE);
        for left in 0..LOG_RECORD_SIZE {
            let right = LOG_RECORD_SIZE - 1 - left;
            assert_eq!(compared(&record[..left], &record[..right]), no_records(left, right));
            let only_right = compared(&record[..left], &[&record[..], &record[..right]].concat()[..]);
            let last = no_records(left, right).replace("only right 0", "only right 1");
            assert_eq!(only_right, format!("0 only right: t 1 8\n{last}"));
        }
    }

    #[test]
    fn refused_records() {
        let accepted = log_record(TO_TAG, &REQUEST);
        let refused = log_record(TO_TAG, &[3, 8, 0]);
        let other = log_record(TO_TAG, &[1, 4, 0, 0]);
        assert_eq!(of_pair(refused, other), "0 same reading\n");
        assert_eq!(of_pair(accepted, refused), "0 refusal number: left 0, right 3\n");
        let from_tag = log_record(FROM_TAG, &[1, 0]);
        let both = "0 direction: left 0, right 1\n0 refusal number: left 3, right 2\n";
        assert_eq!(of_pair(refused, from_tag), both);
    }

    #[test]
    fn broken_records() {
        let sound = log_record(FROM_TAG, &REQUEST);
        // Direction, second octet, length, octets after the message.
        let broken = [(0, 2), (0, 255), (1, 1), (3, 4), (8, 1), (259, 1)].map(|(place, octet)| {
            let mut record = sound;
            record[place] = octet;
            record
        });
        for left in broken {
            let text = "0 direction: left 0, right 1\n0 refusal number: left 13, right 0\n";
            assert_eq!(of_pair(left, sound), text);
            for right in broken {
                let same = if left == right { "octets" } else { "reading" };
                assert_eq!(of_pair(left, right), format!("0 same {same}\n"));
            }
        }
    }

    #[test]
    fn logs_longer_than_what_is_read_at_once() {
        let record = log_record(TO_TAG, &REQUEST);
        let counts = [AT_ONCE - 1, AT_ONCE, AT_ONCE + 1, 2 * AT_ONCE, 2 * AT_ONCE + 1];
        for (left, right) in counts.iter().flat_map(|left| counts.map(|right| (*left, right))) {
            let text = compared(&record.repeat(left)[..], &record.repeat(right)[..]);
            let numbers = (0..left.max(right)).map(|number| {
                if number < left.min(right) {
                    format!("{number} same octets")
                } else if left > right {
                    format!("{number} only left: i 0 9")
                } else {
                    format!("{number} only right: i 0 9")
                }
            });
            assert!(text.lines().take(left.max(right)).eq(numbers));
            assert_eq!(text.lines().count(), left.max(right) + 1);
        }
    }

    #[test]
    fn errors() {
        let of_left = compare(Failing, io::empty(), io::sink()).unwrap_err();
        let of_right = compare(io::empty(), Failing, io::sink()).unwrap_err();
        assert_eq!([of_left.kind(), of_right.kind()], [ErrorKind::PermissionDenied; 2]);
        let of_output = compare(io::empty(), io::empty(), &mut [0; 10][..]).unwrap_err();
        assert_eq!(of_output.kind(), ErrorKind::WriteZero);
    }
}
