//! Differential tests: every answer, record, buffer, session, listing and comparison of the proved library and programs against
//! the second implementation.
//!
//!     compare [--seed N] [--random N] [--calls N] [--records N] [--part messages|sessions|logs|pairs]
//!
//! Messages: the corpus, the named messages, every shape with its changes, the writers, every pair of octets as a country,
//! and N random mixtures (a million if not said). Sessions: lists of N calls altogether (a million if not said). Logs: many of
//! them, and a long one with N records (300,000 if not said); the program that lists them is target/bin/list_log, or the file
//! that RAYDULCIMER_LIST_LOG names. Pairs: many logs side by side, and two long ones with N records and more; the program that
//! compares them is target/bin/compare_logs, or the file that RAYDULCIMER_COMPARE_LOGS names.
//!
//! The seed is printed; a difference is printed with the octets or the calls that show it, and the exit status is then 1. It
//! is 2 if a program is missing, and 3 if the lists of calls do not reach, again and again, all that they have to reach, or the
//! countries, the logs or the pairs do not reach it once.
use compare::checker::Checker;
use compare::program::Program;
use compare::random::Random;
use compare::{changes, comparisons, corpus, countries, damage, listings, mixtures, named, sessions};
use std::fmt::Debug;
use std::process::ExitCode;
use std::time::{Instant, SystemTime, UNIX_EPOCH};

/// Each outcome of the lists of calls has to be reached once in so many calls.
const ONCE_IN: u64 = 10_000;

#[derive(Clone, Copy, PartialEq)]
enum Part {
    Messages,
    Sessions,
    Logs,
    Pairs,
}

struct Options {
    seed: u64,
    random: u64,
    calls: u64,
    records: usize,
    /// The only part to run.
    part: Option<Part>,
}

impl Options {
    fn runs(&self, part: Part) -> bool {
        self.part.is_none_or(|only| only == part)
    }
}

fn options() -> Option<Options> {
    let now = SystemTime::now().duration_since(UNIX_EPOCH).ok()?;
    let mut options = Options {
        seed: now.as_nanos() as u64,
        random: 1_000_000,
        calls: 1_000_000,
        records: 300_000,
        part: None,
    };
    let mut words = std::env::args().skip(1);
    while let Some(word) = words.next() {
        let value = words.next()?;
        match (word.as_str(), value.as_str()) {
            ("--seed", number) => options.seed = number.parse().ok()?,
            ("--random", number) => options.random = number.parse().ok()?,
            ("--calls", number) => options.calls = number.parse().ok()?,
            ("--records", number) => options.records = number.parse().ok()?,
            ("--part", "messages") => options.part = Some(Part::Messages),
            ("--part", "sessions") => options.part = Some(Part::Sessions),
            ("--part", "logs") => options.part = Some(Part::Logs),
            ("--part", "pairs") => options.part = Some(Part::Pairs),
            _ => return None,
        }
    }
    Some(options)
}

/// What a run found.
#[derive(Default)]
struct Found {
    differences: u64,
    /// How many outcomes were not reached often enough.
    missing: usize,
}

impl Found {
    /// Prints the outcomes that were reached less often than they have to be, unless a difference has kept them away.
    fn new<Outcome: Debug>(differences: u64, rarest: &[(Outcome, u64)], least: u64) -> Self {
        let missing = rarest.iter().filter(|(_, count)| *count < least);
        for (outcome, count) in missing.clone().filter(|_| differences == 0) {
            println!("REACHED {count} times: {outcome:?}");
        }
        Found {
            differences,
            missing: missing.count(),
        }
    }

    fn add(&mut self, other: Found) {
        self.differences += other.differences;
        self.missing += other.missing;
    }
}

/// Reader, writer and block listing.
fn messages(options: &Options) -> Found {
    let start = Instant::now();
    let mut random = Random::new(options.seed);
    let mut checker = Checker::new();
    corpus::run(&mut checker);
    named::run(&mut checker);
    changes::run(&mut checker, &mut random);
    damage::run(&mut checker, &mut random);
    let rarest = countries::run(&mut checker, &mut random).rarest();
    mixtures::run(&mut checker, &mut random, options.random);
    let found = Found::new(checker.differences, &rarest, 1);
    println!(
        "messages {} accepted {} blocks {} writes {} outcomes {} each at least {} times differences {} in {:.1} s",
        checker.messages,
        checker.accepted,
        checker.blocks,
        checker.writes,
        rarest.len(),
        rarest[0].1,
        checker.differences,
        start.elapsed().as_secs_f64()
    );
    found
}

/// Lists of calls.
fn sessions(options: &Options) -> Found {
    let start = Instant::now();
    let sessions = sessions::run(options.seed, options.calls);
    let rarest = sessions.reached.rarest();
    let found = Found::new(sessions.differences, &rarest, options.calls / ONCE_IN);
    println!(
        "lists {} calls {} accepted {} outcomes {} each at least {} times differences {} in {:.1} s",
        sessions.lists,
        sessions.calls,
        sessions.accepted,
        rarest.len(),
        rarest[0].1,
        sessions.differences,
        start.elapsed().as_secs_f64()
    );
    found
}

/// The listing program.
fn logs(options: &Options, program: &Program) -> Result<Found, String> {
    let start = Instant::now();
    let listings = listings::run(program, options.seed, options.records).map_err(|error| error.to_string())?;
    let rarest = listings.reached.rarest();
    let found = Found::new(listings.differences, &rarest, 1);
    println!(
        "logs {} records {} accepted {} outcomes {} each at least {} times differences {} in {:.1} s",
        listings.logs,
        listings.records,
        listings.accepted,
        rarest.len(),
        rarest[0].1,
        listings.differences,
        start.elapsed().as_secs_f64()
    );
    Ok(found)
}

/// The program that compares two logs.
fn pairs(options: &Options, program: &Program) -> Result<Found, String> {
    let start = Instant::now();
    let comparisons = comparisons::run(program, options.seed, options.records).map_err(|error| error.to_string())?;
    let rarest = comparisons.reached.rarest();
    let found = Found::new(comparisons.differences, &rarest, 1);
    println!(
        "comparisons {} pairs {} different {} outcomes {} each at least {} times differences {} in {:.1} s",
        comparisons.comparisons,
        comparisons.pairs,
        comparisons.different,
        rarest.len(),
        rarest[0].1,
        comparisons.differences,
        start.elapsed().as_secs_f64()
    );
    Ok(found)
}

/// The error says why a program could not run.
fn run(options: &Options) -> Result<Found, String> {
    let list_log = options.runs(Part::Logs).then(Program::list_log).transpose()?;
    let compare_logs = options.runs(Part::Pairs).then(Program::compare_logs).transpose()?;
    let mut found = Found::default();
    if options.runs(Part::Messages) {
        found.add(messages(options));
    }
    if options.runs(Part::Sessions) {
        found.add(sessions(options));
    }
    if let Some(program) = list_log {
        found.add(logs(options, &program)?);
    }
    if let Some(program) = compare_logs {
        found.add(pairs(options, &program)?);
    }
    Ok(found)
}

fn main() -> ExitCode {
    let Some(options) = options() else {
        eprintln!(
            "usage: compare [--seed N] [--random N] [--calls N] [--records N] [--part messages|sessions|logs|pairs]"
        );
        return ExitCode::from(2);
    };
    println!("seed {}", options.seed);
    match run(&options) {
        Ok(Found {
            differences: 0,
            missing: 0,
        }) => ExitCode::SUCCESS,
        Ok(Found { differences: 0, .. }) => ExitCode::from(3),
        Ok(_) => ExitCode::from(1),
        Err(error) => {
            eprintln!("compare: {error}");
            ExitCode::from(2)
        }
    }
}
