//! Goes through the text of a comparison, sees whether it says what has to be said, and counts what it reaches.
use crate::compared::File;
use crate::compared::Outcome::{self, *};
use crate::counts::Counts;
use crate::fields::{of_blocks, DIRECTION, KEY, MESSAGE_ID, NAME, REFUSAL_NUMBER};
use crate::readings::{Answer, Reading};
use crate::shapes::Shape;
use crate::two_logs::{Side, TwoLogs};
use crate::verdicts::{Known, Shown, Verdict};
use std::cmp::Ordering;

/// So many records more are many.
const MANY: usize = 300;

/// How many positions of each kind there are.
#[derive(Default)]
pub struct Totals {
    pub same_octets: u64,
    pub same_reading: u64,
    pub different: u64,
}

impl Totals {
    pub fn pairs(&self) -> u64 {
        self.same_octets + self.same_reading + self.different
    }

    fn count(&mut self, verdict: &Verdict) {
        match verdict {
            Verdict::SameOctets => self.same_octets += 1,
            Verdict::SameReading => self.same_reading += 1,
            Verdict::Different(_) => self.different += 1,
        }
    }

    fn last_line(&self, logs: &TwoLogs) -> String {
        let (pairs, same_octets, same_reading) = (self.pairs(), self.same_octets, self.same_reading);
        let [left, right] = Side::BOTH.map(|side| logs.records(side));
        let (only_left, only_right) = (left.saturating_sub(right), right.saturating_sub(left));
        let [left_tail, right_tail] = Side::BOTH.map(|side| logs.tail(side));
        format!(
            "pairs {pairs} same octets {same_octets} same reading {same_reading} different {} \
            only left {only_left} only right {only_right} left tail {left_tail} right tail {right_tail}",
            self.different
        )
    }
}

/// What a text on which both agree says of two logs. The error has a line that is wrong, and the records of which it speaks.
pub fn told(logs: &TwoLogs, text: &str, reached: &mut Counts<Outcome>) -> Result<Totals, String> {
    let (mut lines, mut totals) = (text.lines().peekable(), Totals::default());
    count_logs(logs, reached);
    for (number, position) in logs.positions().enumerate() {
        let (first, known) = (lines.peek().copied(), Known::new(position));
        let verdict = Verdict::take(&mut lines, number).filter(|verdict| verdict.fits(&known));
        let verdict = verdict.ok_or_else(|| format!("both print {first:?}, {}", logs.at(number)))?;
        totals.count(&verdict);
        count_position(&known, &verdict, reached);
    }
    for (side, number, record) in logs.one_sided() {
        let (line, reading) = (lines.next(), Reading::of(record));
        let due = format!("{number} only {}: {}", side.name(), reading.listed());
        if line != Some(&due) {
            return Err(format!("both print {line:?}, {}", logs.at(number)));
        }
        let Reading { answer, from_tag, .. } = reading;
        reached.count(Only { side, answer, from_tag });
    }
    let rest: Vec<_> = lines.collect();
    if rest != [totals.last_line(logs)] {
        return Err(format!("both print {rest:?} at the end"));
    }
    Ok(totals)
}

/// Counts what two logs show as a whole.
fn count_logs(logs: &TwoLogs, reached: &mut Counts<Outcome>) {
    let [left, right] = [&logs.left, &logs.right].map(|log| match log {
        None => File::Missing,
        Some(log) if log.is_empty() => File::Empty,
        Some(_) => File::NotEmpty,
    });
    reached.count(Files { left, right });
    for side in Side::BOTH {
        let octets = logs.tail(side);
        reached.count(Tail { side, octets });
    }
    let [left, right] = Side::BOTH.map(|side| logs.records(side));
    let side = if left > right { Side::Left } else { Side::Right };
    match left.abs_diff(right) {
        1 => reached.count(OneMore(side)),
        MANY.. => reached.count(ManyMore(side)),
        _ => {}
    }
}

/// Counts what is said of the records at a position.
fn count_position(known: &Known, verdict: &Verdict, reached: &mut Counts<Outcome>) {
    if let [place] = known.position.differing_places()[..] {
        let same_reading = matches!(verdict, Verdict::SameReading);
        reached.count(OneOctet { place, same_reading });
    }
    let Reading { answer, from_tag, .. } = known.left;
    match (verdict, answer, known.position.disguise) {
        (Verdict::SameOctets, ..) => reached.count(SameOctets { answer, from_tag }),
        (Verdict::SameReading, Answer::Accepted(id), Some(disguise)) => reached.count(Disguised { id, disguise }),
        (Verdict::SameReading, Answer::Accepted(_), None) => {}
        (Verdict::SameReading, Answer::Refused(number), _) => reached.count(SameRefusal(number)),
        (Verdict::Different(shown), ..) => count_fields(known, shown, reached),
    }
}

fn count_fields(known: &Known, shown: &[Shown], reached: &mut Counts<Outcome>) {
    let directions = known.left.from_tag != known.right.from_tag;
    let (left, right) = (known.left.answer, known.right.answer);
    if let [Shown { field: DIRECTION, .. }] = shown {
        reached.count(Direction(left));
    }
    for shown in shown {
        match shown.field {
            REFUSAL_NUMBER => reached.count(Refusals {
                left: left.number(),
                right: right.number(),
                directions,
            }),
            MESSAGE_ID => reached.count(Ids {
                left,
                right,
                directions,
            }),
            KEY | NAME => count_lengths(shown, reached),
            _ => {}
        }
    }
    match known.shapes() {
        Some((left, right)) if left.id == right.id => count_messages(&left, shown, reached),
        _ => {}
    }
}

/// Counts the fields of two messages with one ID.
fn count_messages(left: &Shape, shown: &[Shown], reached: &mut Counts<Outcome>) {
    let (id, set) = (left.id, left.set);
    let fields = shown.iter().map(|shown| shown.field);
    for field in fields.clone() {
        reached.count(Field { id, field });
    }
    if let [Shown { field, .. }] = shown {
        reached.count(FieldAlone { id, field });
    }
    if fields.filter(|field| *field != DIRECTION).eq(of_blocks(id, set)) {
        reached.count(EveryField { id, set });
    }
}

fn count_lengths(shown: &Shown, reached: &mut Counts<Outcome>) {
    // An octet has two digits.
    let (left, right) = (shown.left.len() / 2, shown.right.len() / 2);
    let common_start = shown.left.starts_with(shown.right) || shown.right.starts_with(shown.left);
    let longer = match left.cmp(&right) {
        Ordering::Less => Some(Side::Right),
        Ordering::Equal => None,
        Ordering::Greater => Some(Side::Left),
    };
    reached.count(match shown.field {
        KEY => Keys {
            left,
            right,
            common_start,
        },
        _ => Names { longer, common_start },
    });
}
