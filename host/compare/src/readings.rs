//! What the proved library says of a log record.
use crate::logs::Entry;
use crate::random::Random;
use crate::shapes::Shape;
use second::{logged, LogRecord, FROM_TAG};

/// The IDs of all messages.
pub const IDS: [u8; 6] = [0, 1, 2, 3, 6, 7];

/// An accepted message stands by its ID, a refusal by its number.
#[derive(Clone, Copy, PartialEq, Eq, Hash, Debug)]
pub enum Answer {
    Accepted(u8),
    Refused(u8),
}
use Answer::{Accepted, Refused};

/// The refusal of a broken record.
pub const BROKEN: Answer = Refused(13);

impl Answer {
    /// All that a log record can get; it has no room for a message that is too long.
    pub fn all() -> impl Iterator<Item = Answer> {
        let accepted = IDS.into_iter().map(Accepted);
        accepted.chain((2..10).map(Refused)).chain([BROKEN])
    }

    /// The refusal's number, or 0.
    pub fn number(self) -> u8 {
        match self {
            Accepted(_) => 0,
            Refused(number) => number,
        }
    }
}

/// Two are equal exactly if their directions, normal forms and refusal numbers are.
#[derive(PartialEq, Eq)]
pub struct Reading {
    pub from_tag: bool,
    pub answer: Answer,
    /// Empty if refused.
    normal_form: Vec<u8>,
}

impl Reading {
    pub fn of(record: &LogRecord) -> Self {
        let (direction, message) = logged(record).unzip();
        let read = message.map(raydulcimer::read);
        let (answer, normal_form) = match read {
            Some(Ok(read)) => {
                let mut out = [0; raydulcimer::MESSAGE_LIMIT];
                let length = raydulcimer::write(&read, &mut out).expect("what was read is valid");
                (Accepted(read.id.0), out[..length].to_vec())
            }
            Some(Err(refusal)) => (Refused(refusal.number()), vec![]),
            None => (BROKEN, vec![]),
        };
        Reading {
            from_tag: direction == Some(FROM_TAG),
            answer,
            normal_form,
        }
    }

    /// The normal form of an accepted message.
    pub fn shape(&self) -> Option<Shape> {
        (!self.normal_form.is_empty()).then(|| Shape::of(&self.normal_form))
    }

    /// What a listing prints of the record after its number.
    pub fn listed(&self) -> String {
        let letter = if self.from_tag { 't' } else { 'i' };
        match self.answer {
            Accepted(id) => format!("{letter} {id} {}", self.normal_form[2]),
            Refused(number) => format!("{letter} refused {number}"),
        }
    }
}

/// Records by their answers.
pub struct Pool(Vec<(Answer, Vec<LogRecord>)>);

impl Pool {
    /// At least so many of each answer.
    pub fn new(random: &mut Random, least: usize) -> Self {
        let mut pool: Vec<_> = Answer::all().map(|answer| (answer, vec![])).collect();
        while pool.iter().any(|(_, records)| records.len() < least) {
            let record = Entry::any(random).octets;
            let answer = Reading::of(&record).answer;
            let of_answer = pool.iter_mut().find(|(of, _)| *of == answer);
            of_answer.expect("an answer to a record").1.push(record);
        }
        Pool(pool)
    }

    /// A record with this answer, from this direction unless it is broken.
    pub fn pick(&self, random: &mut Random, answer: Answer, direction: u8) -> LogRecord {
        let of_answer = self.0.iter().find(|(of, _)| *of == answer);
        let mut record = random.pick(&of_answer.expect("an answer to a record").1);
        if answer != BROKEN {
            record[0] = direction;
        }
        record
    }
}
