//! Bench logs: every shape of message, records broken in every way, every cut, and mixtures of them.
use crate::mixtures;
use crate::random::Random;
use crate::shapes::{every, Block, Shape};
use second::{log_record, log_records, LogRecord, FROM_TAG, LOG_HEAD, LOG_RECORD_SIZE, MAX_MESSAGE, TO_TAG};

pub const DIRECTIONS: [u8; 2] = [TO_TAG, FROM_TAG];

/// The shortest length that breaks a record.
const TOO_LONG: u16 = MAX_MESSAGE as u16 + 1;

/// How a record is broken.
#[derive(Clone, Copy, PartialEq, Eq, Hash, Debug)]
pub enum Way {
    Direction,
    SecondOctet,
    Length,
    /// An octet is not zero: the first after the message, the record's last, or one between them.
    FirstAfter,
    LastAfter,
    Between,
    /// Nothing but chance, often in several ways.
    Chance,
}

impl Way {
    pub const ALL: [Way; 7] = [
        Way::Direction,
        Way::SecondOctet,
        Way::Length,
        Way::FirstAfter,
        Way::LastAfter,
        Way::Between,
        Way::Chance,
    ];
}

/// A record, and how it is broken if it is.
#[derive(Clone, Copy)]
pub struct Entry {
    pub octets: LogRecord,
    pub broken: Option<Way>,
}

impl Entry {
    fn sound(direction: u8, message: &[u8]) -> Self {
        Entry {
            octets: log_record(direction, message),
            broken: None,
        }
    }

    /// Broken by an octet before its length or after its message.
    fn with_octet(direction: u8, message: &[u8], place: usize, octet: u8) -> Self {
        let way = match place {
            0 => Way::Direction,
            1 => Way::SecondOctet,
            _ if place == LOG_HEAD + message.len() => Way::FirstAfter,
            _ if place == LOG_RECORD_SIZE - 1 => Way::LastAfter,
            _ => Way::Between,
        };
        let mut octets = log_record(direction, message);
        octets[place] = octet;
        Entry {
            octets,
            broken: Some(way),
        }
    }

    /// Broken by a length above that of the longest message.
    fn with_length(direction: u8, message: &[u8], length: u16) -> Self {
        let mut octets = log_record(direction, message);
        octets[2..LOG_HEAD].copy_from_slice(&length.to_le_bytes());
        Entry {
            octets,
            broken: Some(Way::Length),
        }
    }

    /// Nothing but chance, with a second octet that is not zero and other head octets that are small.
    fn chance(random: &mut Random) -> Self {
        let mut octets: LogRecord = std::array::from_fn(|_| random.octet());
        octets[0] %= 4;
        octets[1] |= 1;
        octets[3] %= 2;
        Entry {
            octets,
            broken: Some(Way::Chance),
        }
    }

    pub fn any(random: &mut Random) -> Self {
        let (direction, message) = (random.pick(&DIRECTIONS), any_message(random));
        if random.below(8) != 0 {
            return Entry::sound(direction, &message);
        }
        // Not the longest, so that there is an octet after it.
        let shorter = &message[..message.len().min(MAX_MESSAGE - 1)];
        let first = LOG_HEAD + shorter.len();
        let place = first + random.below(LOG_RECORD_SIZE - first);
        match random.below(6) {
            0 => Entry::with_octet(direction, &message, 0, 2 + random.below(254) as u8),
            1 => Entry::with_octet(direction, &message, 1, not_zero(random)),
            2 => Entry::with_length(direction, &message, too_long(random)),
            3 => Entry::chance(random),
            _ => {
                let place = random.pick(&[first, place, LOG_RECORD_SIZE - 1]);
                Entry::with_octet(direction, shorter, place, not_zero(random))
            }
        }
    }
}

fn not_zero(random: &mut Random) -> u8 {
    let any = 1 + random.below(255) as u8;
    random.pick(&[1, 0x80, 0xFF, any])
}

fn too_long(random: &mut Random) -> u16 {
    let any = TOO_LONG + random.below(usize::from(u16::MAX - TOO_LONG) + 1) as u16;
    random.pick(&[TOO_LONG, u16::MAX, any, any])
}

/// A message that a record has room for.
fn any_message(random: &mut Random) -> Vec<u8> {
    let mut message = match random.below(16) {
        0 => {
            let length = random.below(MAX_MESSAGE + 1);
            random.octets(length)
        }
        1 => {
            let length = random.pick(&[MAX_MESSAGE - 1, MAX_MESSAGE]);
            later_request(random, length)
        }
        _ => mixtures::any_message(random),
    };
    message.truncate(MAX_MESSAGE);
    message
}

/// So many octets of a Request of version 2, which may be followed by anything.
pub fn later_request(random: &mut Random, length: usize) -> Vec<u8> {
    let mut message = vec![2, 0, random.octet(), random.octet()];
    message.extend(random.octets(MAX_MESSAGE));
    message.truncate(length);
    message
}

#[derive(Default)]
pub struct Log {
    pub octets: Vec<u8>,
    /// How each whole record is broken, if it is.
    ways: Vec<Option<Way>>,
}

impl Log {
    /// Any records, so many, and so many octets of another.
    pub fn any(random: &mut Random, records: usize, tail: usize) -> Self {
        let mut log = Log::default();
        for _ in 0..records {
            log.push(Entry::any(random));
        }
        log.octets.extend(&Entry::any(random).octets[..tail]);
        log
    }

    fn push(&mut self, entry: Entry) {
        self.octets.extend(entry.octets);
        self.ways.push(entry.broken);
    }

    pub fn entries(&self) -> impl Iterator<Item = Entry> + '_ {
        let (records, _) = log_records(&self.octets);
        let entry = |(octets, broken): (&LogRecord, &Option<Way>)| Entry {
            octets: *octets,
            broken: *broken,
        };
        records.zip(&self.ways).map(entry)
    }

    /// How many records there are.
    pub fn records(&self) -> usize {
        self.ways.len()
    }

    /// How many octets a partial last record has.
    pub fn tail(&self) -> usize {
        self.octets.len() % LOG_RECORD_SIZE
    }
}

/// Every shape in both directions.
pub fn shapes(random: &mut Random) -> Log {
    let mut log = Log::default();
    for shape in every(random) {
        for direction in DIRECTIONS {
            log.push(Entry::sound(direction, &shape.octets()));
        }
    }
    log
}

/// Messages of every length in both directions. The last is the longest of version 1, a Response with a long block.
pub fn lengths(random: &mut Random) -> Log {
    let mut log = Log::default();
    for direction in DIRECTIONS {
        for length in 0..=MAX_MESSAGE {
            log.push(Entry::sound(direction, &later_request(random, length)));
        }
        let block = Block::new(3, random.octets(MAX_MESSAGE - 6));
        log.push(Entry::sound(direction, &Shape::new(1, 8, vec![block]).octets()));
    }
    log
}

/// Every direction and every second octet that breaks a record.
pub fn broken_heads(random: &mut Random) -> Log {
    let mut log = Log::default();
    for octet in 2..=255 {
        log.push(Entry::with_octet(TO_TAG, &any_message(random), 0, octet));
    }
    for octet in 1..=255 {
        for direction in DIRECTIONS {
            log.push(Entry::with_octet(direction, &any_message(random), 1, octet));
        }
    }
    log
}

/// Every length that breaks a record. Most messages are as long as a part of it, or its octets in the wrong order, would say.
pub fn broken_lengths(random: &mut Random) -> Log {
    let mut log = Log::default();
    for length in TOO_LONG..=u16::MAX {
        let [low, high] = length.to_le_bytes();
        let swapped = MAX_MESSAGE.min(length.swap_bytes().into());
        let seeming = random.pick(&[low.into(), high.into(), swapped, MAX_MESSAGE]);
        let message = later_request(random, seeming);
        log.push(Entry::with_length(random.pick(&DIRECTIONS), &message, length));
    }
    log
}

/// Messages of every length with an octet at every place after them.
pub fn broken_rests(random: &mut Random) -> Log {
    let mut log = Log::default();
    for length in 0..MAX_MESSAGE {
        let message = later_request(random, length);
        for place in LOG_HEAD + length..LOG_RECORD_SIZE {
            let (direction, octet) = (random.pick(&DIRECTIONS), not_zero(random));
            log.push(Entry::with_octet(direction, &message, place, octet));
        }
    }
    log
}
