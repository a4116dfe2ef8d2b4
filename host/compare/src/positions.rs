//! Positions of two logs: records that are equal, with one octet damaged, of every two answers, and mixtures of all messages.
use crate::disguises::Disguise;
use crate::logs::{later_request, Entry, DIRECTIONS};
use crate::mixtures::{any_shape, changed};
use crate::random::Random;
use crate::readings::{Answer, Pool};
use crate::shapes::{configuration, of_each_set, Values};
use crate::{corpus, named};
use second::{log_record, LogRecord, FROM_TAG, LOG_RECORD_SIZE, MAX_MESSAGE, TO_TAG};

/// Two records at one position of two logs.
pub struct Position {
    pub left: LogRecord,
    pub right: LogRecord,
    /// Why they are known to have the same reading.
    pub disguise: Option<Disguise>,
}

impl Position {
    pub fn new(left: LogRecord, right: LogRecord) -> Self {
        let disguise = None;
        Position { left, right, disguise }
    }

    /// The places in which the records differ.
    pub fn differing_places(&self) -> Vec<usize> {
        let differs = |place: &usize| self.left[*place] != self.right[*place];
        (0..LOG_RECORD_SIZE).filter(differs).collect()
    }

    /// Mostly two records that have much in common.
    pub fn any(random: &mut Random) -> Self {
        let one = Entry::any(random).octets;
        match random.below(8) {
            0 => Position::new(one, one),
            1 => Position::new(one, Entry::any(random).octets),
            2 => {
                let (place, octet) = (random.below(LOG_RECORD_SIZE), random.octet());
                Position::new(one, with_octet(one, place, octet))
            }
            _ => Position::of_one_shape(random),
        }
    }

    /// A message of any shape with a few changes, and with others.
    fn of_one_shape(random: &mut Random) -> Self {
        let (shape, direction) = (any_shape(random), random.pick(&DIRECTIONS));
        let other = random.pick(&[direction, direction, direction, 1 - direction]);
        let left = log_record(direction, &changed(random, shape.clone(), 2));
        Position::new(left, log_record(other, &changed(random, shape, 2)))
    }
}

/// Every two of these in both orders, and each with itself.
pub fn every_two<T: Copy>(these: &[T]) -> impl Iterator<Item = (T, T)> + '_ {
    these.iter().flat_map(|one| these.iter().map(|other| (*one, *other)))
}

fn with_octet(mut record: LogRecord, place: usize, octet: u8) -> LogRecord {
    record[place] = octet;
    record
}

/// Each answer and direction with itself, and with the other direction.
pub fn same_messages(random: &mut Random) -> Vec<Position> {
    let (pool, mut positions) = (Pool::new(random, 20), Vec::new());
    for answer in Answer::all() {
        for direction in DIRECTIONS {
            let record = pool.pick(random, answer, direction);
            positions.push(Position::new(record, record));
            positions.push(Position::new(record, with_octet(record, 0, 1 - direction)));
        }
    }
    positions
}

/// Records of every two answers and directions.
pub fn answers(random: &mut Random) -> Vec<Position> {
    let (pool, mut positions) = (Pool::new(random, 20), Vec::new());
    let all: Vec<_> = Answer::all().collect();
    for (one, other) in every_two(&all) {
        for (left, right) in every_two(&DIRECTIONS.repeat(3)) {
            let (left, right) = (pool.pick(random, one, left), pool.pick(random, other, right));
            positions.push(Position::new(left, right));
        }
    }
    positions
}

/// Every two messages of the corpus and of those that the rules name.
pub fn known_messages(_: &mut Random) -> Vec<Position> {
    let messages = corpus::messages().chain(named::messages());
    let records: Vec<_> = messages.map(|message| log_record(TO_TAG, &message)).collect();
    every_two(&records)
        .map(|(left, right)| Position::new(left, right))
        .collect()
}

/// Records with a change of one octet, at every place of records of every kind.
pub fn one_octet(random: &mut Random) -> Vec<Position> {
    let pool = Pool::new(random, 20);
    let mut records = vec![log_record(FROM_TAG, &later_request(random, MAX_MESSAGE))];
    for direction in DIRECTIONS {
        records.extend(Answer::all().map(|answer| pool.pick(random, answer, direction)));
    }
    let longest = Values {
        key_length: 32,
        name_length: 64,
        ..Values::any(random)
    };
    let shapes = [of_each_set(random), vec![configuration(random, 15, &longest)]].concat();
    for shape in shapes {
        records.push(log_record(random.pick(&DIRECTIONS), &shape.octets()));
    }
    let mut positions = Vec::new();
    for record in records {
        for place in 0..LOG_RECORD_SIZE {
            let octet = record[place];
            for other in [octet ^ 1, octet ^ 0x80, octet ^ 1 << random.below(8), random.octet()] {
                positions.push(Position::new(record, with_octet(record, place, other)));
            }
        }
    }
    positions
}
