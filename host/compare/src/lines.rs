//! What the listings have to reach, and how a line shows it.
use crate::counts::Counts;
use crate::logs::{Entry, Log, Way};
use second::{FROM_TAG, LOG_HEAD, LOG_RECORD_SIZE, MAX_MESSAGE};

/// A message stands by its ID, a set by its bits.
#[derive(Clone, Copy, PartialEq, Eq, Hash, Debug)]
pub enum Outcome {
    Accepted {
        id: u8,
        from_tag: bool,
    },
    Set(u16),
    /// The message has reserved bits, and the line does not.
    ReservedBits,
    /// With this number, for a fault of the message.
    Refused {
        number: u8,
        from_tag: bool,
    },
    /// The record is broken and looks like one of this direction.
    Broken {
        way: Way,
        from_tag: bool,
    },
    EmptyMessage,
    LongestMessage {
        accepted: bool,
    },
    NoRecords,
    Tail(usize),
}
use Outcome::*;

/// Every outcome that a run has to reach.
pub fn due() -> Vec<Outcome> {
    let mut due = vec![ReservedBits, EmptyMessage, NoRecords];
    for from_tag in [false, true] {
        due.extend([0, 1, 2, 3, 6, 7].map(|id| Accepted { id, from_tag }));
        due.extend((2..10).map(|number| Refused { number, from_tag }));
        due.extend(Way::ALL.map(|way| Broken { way, from_tag }));
    }
    // A record that its direction breaks looks like none from the tag.
    let never = Broken {
        way: Way::Direction,
        from_tag: true,
    };
    due.retain(|outcome| *outcome != never);
    due.extend((0..16).map(Set));
    due.extend([false, true].map(|accepted| LongestMessage { accepted }));
    due.extend((0..LOG_RECORD_SIZE).map(Tail));
    due
}

/// What the line of a record says.
pub struct Line {
    from_tag: bool,
    /// ID and set, or the refusal's number.
    answer: Result<(u8, u16), u8>,
}

impl Line {
    /// None if it is no line of a record with this number.
    pub fn new(text: &str, number: usize) -> Option<Self> {
        let words: Vec<&str> = text.split(' ').collect();
        let [first, letter @ ("i" | "t"), id, last] = words[..] else {
            return None;
        };
        let answer = match id {
            "refused" => Err(last.parse().ok()?),
            _ => Ok((id.parse().ok()?, last.parse().ok()?)),
        };
        let from_tag = letter == "t";
        (first == number.to_string()).then_some(Line { from_tag, answer })
    }

    pub fn is_accepted(&self) -> bool {
        self.answer.is_ok()
    }

    /// Whether it says of a broken record that it is broken, and of another its direction.
    pub fn fits(&self, entry: &Entry) -> bool {
        match entry.broken {
            Some(_) => !self.from_tag && self.answer == Err(13),
            None => self.from_tag == (entry.octets[0] == FROM_TAG) && self.answer != Err(13),
        }
    }

    /// Counts what the line of a record shows.
    pub fn count(&self, entry: &Entry, reached: &mut Counts<Outcome>) {
        let from_tag = entry.octets[0] == FROM_TAG;
        match (self.answer, entry.broken) {
            (Ok((id, set)), _) => {
                reached.count(Accepted { id, from_tag });
                reached.count(Set(set));
                let wire = [entry.octets[LOG_HEAD + 2], entry.octets[LOG_HEAD + 3]];
                if set != u16::from_le_bytes(wire) {
                    reached.count(ReservedBits);
                }
            }
            (Err(_), Some(way)) => return reached.count(Broken { way, from_tag }),
            (Err(number), None) => reached.count(Refused { number, from_tag }),
        }
        let length = u16::from_le_bytes([entry.octets[2], entry.octets[3]]);
        match usize::from(length) {
            0 => reached.count(EmptyMessage),
            MAX_MESSAGE => reached.count(LongestMessage {
                accepted: self.is_accepted(),
            }),
            _ => {}
        }
    }
}

/// Counts what a log as a whole shows.
pub fn count_log(log: &Log, reached: &mut Counts<Outcome>) {
    if log.records() == 0 {
        reached.count(NoRecords);
    }
    reached.count(Tail(log.tail()));
}
