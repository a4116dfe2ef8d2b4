//! What the comparisons of two logs have to reach.
use crate::contents::LENGTHS;
use crate::disguises::Disguise;
use crate::fields::after_id;
use crate::positions::every_two;
use crate::readings::{Answer, BROKEN, IDS};
use crate::shapes::KEY_LENGTHS;
use crate::two_logs::Side;
use second::LOG_RECORD_SIZE;

#[derive(Clone, Copy, PartialEq, Eq, Hash, Debug)]
pub enum File {
    Missing,
    Empty,
    NotEmpty,
}

/// A message stands by its ID, a set by its bits.
#[derive(Clone, Copy, PartialEq, Eq, Hash, Debug)]
pub enum Outcome {
    SameOctets {
        answer: Answer,
        from_tag: bool,
    },
    Disguised {
        id: u8,
        disguise: Disguise,
    },
    /// With this number, of other octets.
    SameRefusal(u8),
    /// The records differ in the octet at this place alone.
    OneOctet {
        place: usize,
        same_reading: bool,
    },
    /// Nothing but the direction differs.
    Direction(Answer),
    /// Refusal numbers that differ, and whether the directions do too.
    Refusals {
        left: u8,
        right: u8,
        directions: bool,
    },
    Ids {
        left: Answer,
        right: Answer,
        directions: bool,
    },
    /// Of two messages with this ID.
    Field {
        id: u8,
        field: &'static str,
    },
    FieldAlone {
        id: u8,
        field: &'static str,
    },
    /// Every field in the blocks of this set, and no presence.
    EveryField {
        id: u8,
        set: u16,
    },
    /// Keys by their octets, and whether one begins with the other.
    Keys {
        left: usize,
        right: usize,
        common_start: bool,
    },
    Names {
        longer: Option<Side>,
        common_start: bool,
    },
    Only {
        side: Side,
        answer: Answer,
        from_tag: bool,
    },
    /// The side has one record more than the other, or many.
    OneMore(Side),
    ManyMore(Side),
    Files {
        left: File,
        right: File,
    },
    Tail {
        side: Side,
        octets: usize,
    },
}
use Outcome::*;

/// Every outcome that a run has to reach.
pub fn due() -> Vec<Outcome> {
    let mut due = [of_answers(), of_fields(), of_lengths(), of_logs()].concat();
    for place in 0..LOG_RECORD_SIZE {
        due.extend([false, true].map(|same_reading| OneOctet { place, same_reading }));
    }
    for disguise in Disguise::ALL {
        due.extend(disguise.ids().iter().map(|id| Disguised { id: *id, disguise }));
    }
    due
}

/// By what is said of each record.
fn of_answers() -> Vec<Outcome> {
    let mut due = Vec::new();
    let directions = [false, true];
    for answer in Answer::all() {
        // A broken record counts as one to the tag.
        for from_tag in directions.into_iter().filter(|from_tag| answer != BROKEN || !from_tag) {
            due.push(SameOctets { answer, from_tag });
            due.extend(Side::BOTH.map(|side| Only { side, answer, from_tag }));
        }
        if answer != BROKEN {
            due.push(Direction(answer));
        }
        if let Answer::Refused(number) = answer {
            due.push(SameRefusal(number));
        }
    }
    for (left, right) in every_two(&[0, 2, 3, 4, 5, 6, 7, 8, 9, 13]).filter(|(left, right)| left != right) {
        due.extend(directions.map(|directions| Refusals {
            left,
            right,
            directions,
        }));
    }
    for (left, right) in every_two(&IDS.map(Answer::Accepted)).filter(|(left, right)| left != right) {
        due.extend(directions.map(|directions| Ids {
            left,
            right,
            directions,
        }));
    }
    due
}

fn of_fields() -> Vec<Outcome> {
    let mut due = Vec::new();
    for id in IDS {
        due.extend(after_id(id).map(|field| Field { id, field }));
        let alone = after_id(id).filter(|field| !LENGTHS.contains(field));
        due.extend(alone.map(|field| FieldAlone { id, field }));
    }
    for id in [1, 2] {
        due.extend((1..16).map(|set| EveryField { id, set }));
    }
    due
}

/// Two of one length that have a common start are equal.
fn of_lengths() -> Vec<Outcome> {
    let mut due = Vec::new();
    for common_start in [false, true] {
        let keys = every_two(&KEY_LENGTHS).filter(|(left, right)| left != right || !common_start);
        due.extend(keys.map(|(left, right)| Keys {
            left,
            right,
            common_start,
        }));
        due.extend(Side::BOTH.map(Some).map(|longer| Names { longer, common_start }));
    }
    due.push(Names {
        longer: None,
        common_start: false,
    });
    due
}

/// By the logs as a whole.
fn of_logs() -> Vec<Outcome> {
    let files = every_two(&[File::Missing, File::Empty, File::NotEmpty]);
    let mut due: Vec<_> = files.map(|(left, right)| Files { left, right }).collect();
    for side in Side::BOTH {
        due.extend([OneMore(side), ManyMore(side)]);
        due.extend((0..LOG_RECORD_SIZE).map(|octets| Tail { side, octets }));
    }
    due
}
