//! Has both implementations list logs, and compares what they print octet by octet.
use crate::checker::hex;
use crate::counts::Counts;
use crate::lines::{count_log, due, Line, Outcome};
use crate::logs::{self, Log};
use crate::program::Program;
use crate::random::Random;
use crate::texts::difference;
use second::LOG_RECORD_SIZE;
use std::io;
use std::process::Output;

/// After so many logs with a difference no more are made.
const ENOUGH: u64 = 3;

/// There are logs of every number of records up to this one, so that some end where a program's buffer of many records does.
const SIZES: usize = 600;

pub struct Listings<'a> {
    program: &'a Program,
    pub logs: u64,
    pub records: u64,
    pub accepted: u64,
    pub differences: u64,
    pub reached: Counts<Outcome>,
}

/// Lists many logs, one of them with so many records.
pub fn run(program: &Program, seed: u64, records: usize) -> io::Result<Listings<'_>> {
    let random = &mut Random::new(seed);
    let mut listings = Listings {
        program,
        logs: 0,
        records: 0,
        accepted: 0,
        differences: 0,
        reached: Counts::new(due()),
    };
    for make in [
        logs::shapes,
        logs::lengths,
        logs::broken_heads,
        logs::broken_lengths,
        logs::broken_rests,
    ] {
        listings.compare(random, make)?;
    }
    for tail in 0..LOG_RECORD_SIZE {
        listings.compare(random, |random| Log::any(random, tail % 4, tail))?;
    }
    for records in 0..=SIZES {
        for tail in [0, 1 + random.below(LOG_RECORD_SIZE - 1)] {
            listings.compare(random, |random| Log::any(random, records, tail))?;
        }
    }
    let tail = random.below(LOG_RECORD_SIZE);
    listings.compare(random, |random| Log::any(random, records, tail))?;
    Ok(listings)
}

impl Listings<'_> {
    fn compare(&mut self, random: &mut Random, make: impl Fn(&mut Random) -> Log) -> io::Result<()> {
        if self.differences == ENOUGH {
            return Ok(());
        }
        self.logs += 1;
        let (log, mut plain) = (make(random), Vec::new());
        second::list(&log.octets[..], &mut plain)?;
        let from_file = self.program.list_file(&log.octets)?;
        let through_pipe = self.program.list_pieces(&log.octets, random.next())?;
        let compared = same("from a file", &log, &from_file, &plain)
            .and_then(|()| same("through a pipe", &log, &through_pipe, &plain))
            .and_then(|()| self.count(&log, &plain));
        if let Err(what) = compared {
            self.differences += 1;
            let (number, records, tail) = (self.logs, log.records(), log.tail());
            println!("DIFFERENCE in log {number} of {records} records and {tail} octets, {what}");
        }
        Ok(())
    }

    /// Counts what a log and its listing, on which both agree, show.
    fn count(&mut self, log: &Log, listing: &[u8]) -> Result<(), String> {
        count_log(log, &mut self.reached);
        let text = String::from_utf8_lossy(listing);
        for (number, (entry, text)) in log.entries().zip(text.lines()).enumerate() {
            let line = Line::new(text, number).filter(|line| line.fits(&entry));
            let Some(line) = line else {
                return Err(format!("both print {text:?} for {}", hex(&entry.octets)));
            };
            line.count(&entry, &mut self.reached);
            self.records += 1;
            self.accepted += u64::from(line.is_accepted());
        }
        Ok(())
    }
}

/// Compares what the program printed with the other's listing. The error has the first line that differs and its record.
fn same(feed: &str, log: &Log, proved: &Output, plain: &[u8]) -> Result<(), String> {
    let Some((number, what)) = difference(proved, plain) else {
        return Ok(());
    };
    let record = log.octets.chunks(LOG_RECORD_SIZE).nth(number).unwrap_or(&[]);
    Err(format!("{feed}, {what}, record {}", hex(record)))
}
