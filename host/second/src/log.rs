//! The bench log: records of one size, each with a message and its direction.

use crate::record::MAX_MESSAGE;

// Directions.
pub const TO_TAG: u8 = 0;
pub const FROM_TAG: u8 = 1;

/// Octets of a log record before its message.
pub const LOG_HEAD: usize = 4;

/// Octets of a log record.
pub const LOG_RECORD_SIZE: usize = LOG_HEAD + MAX_MESSAGE;

pub type LogRecord = [u8; LOG_RECORD_SIZE];

/// The whole records of a log, and the octets after them.
pub fn log_records(log: &[u8]) -> (impl Iterator<Item = &LogRecord>, &[u8]) {
    let records = log.chunks_exact(LOG_RECORD_SIZE);
    let tail = records.remainder();
    (records.map(|record| record.try_into().unwrap()), tail)
}

/// The log record of a message that is not too long.
pub fn log_record(direction: u8, message: &[u8]) -> LogRecord {
    let [low, high] = (message.len() as u16).to_le_bytes();
    let mut record = [0; LOG_RECORD_SIZE];
    record[..LOG_HEAD].copy_from_slice(&[direction, 0, low, high]);
    record[LOG_HEAD..][..message.len()].copy_from_slice(message);
    record
}

/// Direction and message of a log record that keeps to its layout.
pub fn logged(record: &LogRecord) -> Option<(u8, &[u8])> {
    let &[direction @ (TO_TAG | FROM_TAG), 0, low, high, ref rest @ ..] = record else {
        return None;
    };
    let length = u16::from_le_bytes([low, high]);
    let (message, after) = rest.split_at_checked(length.into())?;
    is_zero(after).then_some((direction, message))
}

/// Whether these octets of a log record are zero.
fn is_zero(octets: &[u8]) -> bool {
    *octets == [0; LOG_RECORD_SIZE][..octets.len()]
}

#[cfg(test)]
mod tests {
    use super::*;

    #[test]
    fn sound_records() {
        let message: [u8; MAX_MESSAGE] = std::array::from_fn(|place| !place as u8);
        for direction in [TO_TAG, FROM_TAG] {
            for length in 0..=MAX_MESSAGE {
                let message = &message[..length];
                assert_eq!(logged(&log_record(direction, message)), Some((direction, message)));
            }
        }
    }

    #[test]
    fn directions_and_second_octet() {
        for octet in 0..=255 {
            let mut record = log_record(TO_TAG, &[1, 0, 9, 0]);
            record[0] = octet;
            assert_eq!(logged(&record).is_some(), octet <= 1);
            record[0] = FROM_TAG;
            record[1] = octet;
            assert_eq!(logged(&record).is_some(), octet == 0);
        }
    }

    #[test]
    fn lengths() {
        let mut record = log_record(FROM_TAG, &[1; MAX_MESSAGE]);
        for length in 257..=u16::MAX {
            record[2..4].copy_from_slice(&length.to_le_bytes());
            assert_eq!(logged(&record), None);
        }
    }

    #[test]
    fn octets_after_the_message() {
        for length in 0..MAX_MESSAGE {
            for place in LOG_HEAD + length..LOG_RECORD_SIZE {
                let mut record = log_record(TO_TAG, &[1; MAX_MESSAGE][..length]);
                record[place] = 0x80;
                assert_eq!(logged(&record), None);
            }
        }
    }
}
