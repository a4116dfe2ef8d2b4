//! Two logs side by side.
use crate::checker::hex;
use crate::disguises::Disguise;
use crate::positions::Position;
use crate::random::Random;
use second::{log_records, LogRecord, LOG_RECORD_SIZE};
use std::iter;

#[derive(Clone, Copy, PartialEq, Eq, Hash, Debug)]
pub enum Side {
    Left,
    Right,
}

impl Side {
    pub const BOTH: [Side; 2] = [Side::Left, Side::Right];

    pub fn name(self) -> &'static str {
        match self {
            Side::Left => "left",
            Side::Right => "right",
        }
    }
}

/// A log that is `None` is a missing file.
pub struct TwoLogs {
    pub left: Option<Vec<u8>>,
    pub right: Option<Vec<u8>>,
    /// Of the first positions.
    disguises: Vec<Option<Disguise>>,
}

impl TwoLogs {
    pub fn new(left: Option<Vec<u8>>, right: Option<Vec<u8>>) -> Self {
        let disguises = Vec::new();
        TwoLogs { left, right, disguises }
    }

    pub fn of(positions: &[Position]) -> Self {
        TwoLogs {
            left: Some(positions.iter().flat_map(|position| position.left).collect()),
            right: Some(positions.iter().flat_map(|position| position.right).collect()),
            disguises: positions.iter().map(|position| position.disguise).collect(),
        }
    }

    /// Any records, so many octets of them on each side.
    pub fn any(random: &mut Random, left: usize, right: usize) -> Self {
        let (mut one, mut other) = (Vec::new(), Vec::new());
        for _ in 0..left.max(right).div_ceil(LOG_RECORD_SIZE) {
            let position = Position::any(random);
            one.extend(position.left);
            other.extend(position.right);
        }
        one.truncate(left);
        other.truncate(right);
        TwoLogs::new(Some(one), Some(other))
    }

    /// Each log on the other side.
    pub fn swapped(self) -> Self {
        TwoLogs {
            left: self.right,
            right: self.left,
            disguises: self.disguises,
        }
    }

    pub fn octets(&self, side: Side) -> &[u8] {
        let log = match side {
            Side::Left => &self.left,
            Side::Right => &self.right,
        };
        log.as_deref().unwrap_or(&[])
    }

    /// How many whole records there are.
    pub fn records(&self, side: Side) -> usize {
        self.octets(side).len() / LOG_RECORD_SIZE
    }

    /// How many octets a partial last record has.
    pub fn tail(&self, side: Side) -> usize {
        self.octets(side).len() % LOG_RECORD_SIZE
    }

    pub fn positions(&self) -> impl Iterator<Item = Position> + '_ {
        let (left, _) = log_records(self.octets(Side::Left));
        let (right, _) = log_records(self.octets(Side::Right));
        let disguises = self.disguises.iter().copied().chain(iter::repeat(None));
        let position = |((left, right), disguise): ((&LogRecord, &LogRecord), _)| Position {
            left: *left,
            right: *right,
            disguise,
        };
        left.zip(right).zip(disguises).map(position)
    }

    /// The records with this number, in words.
    pub fn at(&self, number: usize) -> String {
        let records = Side::BOTH.map(|side| {
            let record = self.octets(side).chunks(LOG_RECORD_SIZE).nth(number);
            format!("{} record {}", side.name(), hex(record.unwrap_or(&[])))
        });
        records.join(", ")
    }

    /// The records that one side alone has, with their numbers.
    pub fn one_sided(&self) -> impl Iterator<Item = (Side, usize, &LogRecord)> {
        let [left, right] = Side::BOTH.map(|side| {
            let (records, _) = log_records(self.octets(side));
            records.enumerate().map(move |(number, record)| (side, number, record))
        });
        let pairs = self.records(Side::Left).min(self.records(Side::Right));
        left.skip(pairs).chain(right.skip(pairs))
    }
}
