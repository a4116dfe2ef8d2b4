//! Has both implementations compare two logs, and compares what they print octet by octet.
use crate::compared::{due, Outcome};
use crate::counts::Counts;
use crate::logs::Log;
use crate::positions::every_two;
use crate::program::Program;
use crate::random::Random;
use crate::texts::difference;
use crate::told::told;
use crate::two_logs::{Side, TwoLogs};
use crate::{contents, disguises, positions};
use second::LOG_RECORD_SIZE;
use std::io;

/// After so many comparisons with a difference no more are made.
const ENOUGH: u64 = 3;

/// There are logs of every number of records up to this one, so that some end where a program's buffer of many records does.
const SIZES: usize = 600;

pub struct Comparisons<'a> {
    program: &'a Program,
    pub comparisons: u64,
    pub pairs: u64,
    pub different: u64,
    pub differences: u64,
    pub reached: Counts<Outcome>,
}

/// Compares many logs, one of them with so many records and one with more.
pub fn run(program: &Program, seed: u64, records: usize) -> io::Result<Comparisons<'_>> {
    let random = &mut Random::new(seed);
    let mut comparisons = Comparisons {
        program,
        comparisons: 0,
        pairs: 0,
        different: 0,
        differences: 0,
        reached: Counts::new(due()),
    };
    for make in [
        positions::same_messages,
        positions::answers,
        positions::known_messages,
        positions::one_octet,
        disguises::disguised,
        contents::fields,
        contents::longest,
        contents::lengths,
        contents::presences,
        contents::ids,
    ] {
        comparisons.both_ways(|| TwoLogs::of(&make(random)))?;
    }
    comparisons.files(random)?;
    comparisons.cuts(random)?;
    comparisons.sizes(random, records)?;
    Ok(comparisons)
}

impl Comparisons<'_> {
    /// Logs that are missing, empty, and neither.
    fn files(&mut self, random: &mut Random) -> io::Result<()> {
        let log = TwoLogs::of(&positions::same_messages(random)).left;
        for (left, right) in every_two(&[None, Some(&[][..]), log.as_deref()]) {
            self.compare(&TwoLogs::new(left.map(Vec::from), right.map(Vec::from)))?;
        }
        Ok(())
    }

    /// A log beside itself, whole and without its first octets, and one beside another that is cut at every length.
    fn cuts(&mut self, random: &mut Random) -> io::Result<()> {
        let log = Log::any(random, SIZES, 0).octets;
        for shift in [0, 1, LOG_RECORD_SIZE - 1, LOG_RECORD_SIZE, LOG_RECORD_SIZE + 1] {
            self.both_ways(|| TwoLogs::new(Some(log.clone()), Some(log[shift..].to_vec())))?;
        }
        for length in 0..=2 * LOG_RECORD_SIZE {
            self.both_ways(|| TwoLogs::any(random, 2 * LOG_RECORD_SIZE + length % 3, length))?;
        }
        Ok(())
    }

    /// Logs of every size, and two long ones.
    fn sizes(&mut self, random: &mut Random, records: usize) -> io::Result<()> {
        for size in 0..=SIZES {
            let other = random.below(SIZES);
            let other = random.pick(&[size, size + 1, other]);
            let [left, right] = [size, other].map(|size| any_length(random, size));
            self.both_ways(|| TwoLogs::any(random, left, right))?;
        }
        let [left, right] = [records, records + records / 8].map(|records| any_length(random, records));
        self.both_ways(|| TwoLogs::any(random, left, right))
    }

    /// Compares two logs, and then each on the other side.
    fn both_ways(&mut self, make: impl FnOnce() -> TwoLogs) -> io::Result<()> {
        if self.differences == ENOUGH {
            return Ok(());
        }
        let logs = make();
        self.compare(&logs)?;
        self.compare(&logs.swapped())
    }

    fn compare(&mut self, logs: &TwoLogs) -> io::Result<()> {
        if self.differences == ENOUGH {
            return Ok(());
        }
        self.comparisons += 1;
        let ([left, right], mut plain) = (Side::BOTH.map(|side| logs.octets(side)), Vec::new());
        second::compare(left, right, &mut plain)?;
        let proved = self.program.compare(logs.left.as_deref(), logs.right.as_deref())?;
        let text = String::from_utf8_lossy(&plain);
        let compared = match difference(&proved, &plain) {
            Some((line, what)) => Err(format!("{what}, {}", logs.at(number_in(&text, line)))),
            None => told(logs, &text, &mut self.reached),
        };
        match compared {
            Ok(totals) => {
                self.pairs += totals.pairs();
                self.different += totals.different;
            }
            Err(what) => {
                self.differences += 1;
                let (number, left, right) = (self.comparisons, left.len(), right.len());
                println!("DIFFERENCE in comparison {number} of {left} and {right} octets, {what}");
            }
        }
        Ok(())
    }
}

/// The number of the records of which a line speaks; the last line speaks of none.
fn number_in(text: &str, line: usize) -> usize {
    let number = text.lines().nth(line).and_then(|line| line.split(' ').next());
    number.and_then(|number| number.parse().ok()).unwrap_or(usize::MAX)
}

/// The octets of so many records and of a part of another, if any.
fn any_length(random: &mut Random, records: usize) -> usize {
    let tail = random.below(LOG_RECORD_SIZE);
    records * LOG_RECORD_SIZE + random.pick(&[0, tail])
}
