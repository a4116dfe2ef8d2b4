//! Writes the inputs that a run of libFuzzer starts from into a folder: `seeds FOLDER LOG..`. They are made of the messages,
//! records and lists of calls of `compare`, and of the bench logs.
use compare::convert::of_session;
use compare::damage::any_record;
use compare::lists::List;
use compare::random::Random;
use compare::shapes::{of_each_set, Shape};
use compare::{corpus, mixtures, named};
use fuzz::case::{Call, Calls, Case, Forged};
use second::{log_records, logged, read, Configuration, Record, MAX_MESSAGE, TO_TAG};
use std::path::{Path, PathBuf};
use std::process::ExitCode;
use std::{env, fs, io};

/// How many messages with changes, records of chance and lists of calls there are.
const MIXTURES: usize = 200;
const RECORDS: usize = 20;
const LISTS: u64 = 200;

/// A list of calls is cut after so many, or fewer.
const CALLS: usize = 8;

fn main() -> ExitCode {
    let words: Vec<PathBuf> = env::args_os().skip(1).map(PathBuf::from).collect();
    let [folder, logs @ ..] = &words[..] else {
        eprintln!("usage: seeds FOLDER LOG..");
        return ExitCode::from(2);
    };
    match write(folder, logs) {
        Ok(()) => ExitCode::SUCCESS,
        Err(error) => {
            eprintln!("seeds: {error}");
            ExitCode::from(2)
        }
    }
}

fn write(folder: &Path, logs: &[PathBuf]) -> io::Result<()> {
    fs::create_dir_all(folder)?;
    let mut cases = made();
    for log in logs {
        cases.extend(of_log(&fs::read(log)?));
    }
    for (number, case) in cases.iter().enumerate() {
        let kind = match case {
            Case::Message { .. } => "message",
            Case::Record { .. } => "record",
            Case::Calls(_) => "calls",
        };
        fs::write(folder.join(format!("{kind}_{number:04}")), case.input())?;
    }
    Ok(())
}

/// The cases that are made of nothing but a fixed seed.
fn made() -> Vec<Case> {
    let random = &mut Random::new(1);
    let mut messages: Vec<Vec<u8>> = named::messages().chain(corpus::messages()).collect();
    for set in 0..16 {
        messages.extend([0, 3, 6, 7].map(|id| Shape::new(id, set, vec![]).octets()));
    }
    messages.extend(of_each_set(random).iter().map(Shape::octets));
    for length in [MAX_MESSAGE, MAX_MESSAGE + 1] {
        messages.push([&[2, 0, 9, 0][..], &vec![0; length - 4]].concat());
    }
    messages.extend((0..MIXTURES).map(|_| mixtures::any_message(random)));
    let mut cases: Vec<Case> = messages.into_iter().flat_map(of_message).collect();
    cases.extend((0..RECORDS).map(|_| of_record(&any_record(random))));
    cases.extend((1..=LISTS).map(|seed| of_list(&List::new(seed))));
    cases
}

/// A message, and its record if it has one.
fn of_message(octets: Vec<u8>) -> impl Iterator<Item = Case> {
    let record = read(&octets).ok().map(|record| of_record(&record));
    let rooms = [4, 47];
    [Case::Message { rooms, octets }].into_iter().chain(record)
}

fn of_record(record: &Record) -> Case {
    Case::Record {
        rooms: [4, 47],
        record: Box::new(*record),
    }
}

fn of_list(list: &List) -> Case {
    let calls = list.calls.iter().take(1 + list.seed as usize % CALLS).map(|call| Call {
        message: call.message.clone(),
        room: call.room.min(255) as u8,
        filling: call.message.is_none().into(),
    });
    let mut case = Calls {
        profile: list.profile,
        replies: list.replies,
        forged: None,
        calls: calls.collect(),
    };
    if let Some(forged) = &list.forged {
        let (numbers, session) = (&forged.session, of_session(&forged.session));
        case.profile.set = session.profile.set;
        case.profile.capability = session.profile.capability;
        case.replies = session.profile.replies;
        case.forged = Some(Forged {
            flags: [
                numbers.uwb.ranging,
                numbers.nan.ranging,
                numbers.rssi.ranging,
                numbers.mark,
            ],
            settings: Configuration {
                uwb: session.uwb.settings,
                nan: session.nan.settings,
                rssi: session.rssi.settings,
                ..Configuration::ZERO
            },
        });
    }
    Case::Calls(Box::new(case))
}

/// The messages of a bench log, and those to the tag as calls. The log begins with the tag's advertisement.
fn of_log(log: &[u8]) -> Vec<Case> {
    let (records, _) = log_records(log);
    let messages: Vec<_> = records.filter_map(logged).collect();
    let call = |message: Option<&[u8]>| Call {
        message: message.map(<[u8]>::to_vec),
        room: 255,
        filling: message.is_none().into(),
    };
    let to_tag = messages.iter().filter(|(direction, _)| *direction == TO_TAG);
    let calls = Calls {
        profile: messages
            .first()
            .and_then(|(_, message)| read(message).ok())
            .unwrap_or_default(),
        replies: 1,
        forged: None,
        calls: [call(None)]
            .into_iter()
            .chain(to_tag.map(|(_, message)| call(Some(message))))
            .collect(),
    };
    let mut cases = vec![Case::Calls(Box::new(calls))];
    cases.extend(messages.iter().flat_map(|(_, message)| of_message(message.to_vec())));
    cases
}

#[cfg(test)]
mod tests {
    use super::*;
    use second::{log_record, FROM_TAG};

    fn cases() -> Vec<Case> {
        let response = [1, 1, 8, 0, 3, 8, 1, 2, 3, 4, 5, 6];
        let log = [log_record(FROM_TAG, &response), log_record(TO_TAG, &[1, 0, 9, 0])].concat();
        let mut cases = made();
        cases.extend(of_log(&log));
        cases
    }

    #[test]
    fn inputs_say_what_they_were_made_of() {
        for case in cases() {
            assert_eq!(Case::of(&case.input()), case);
        }
    }

    #[test]
    fn no_differences() {
        for case in cases() {
            assert_eq!(fuzz::differences(&case), 0);
        }
    }
}
