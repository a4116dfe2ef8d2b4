//! Has both implementations do what a case says, and counts and prints how they differ.
use crate::case::{Calls, Case, Forged, Rooms};
use compare::checker::{hex, Checker};
use compare::convert::{of_block, to_library};
use compare::pair::Pair;
use raydulcimer::{raw, MESSAGE_LIMIT};
use second::Record;

pub fn differences(case: &Case) -> u64 {
    let mut checker = Checker::new();
    match case {
        Case::Message { rooms, octets } => read(&mut checker, octets, rooms),
        Case::Record { rooms, record } => write(&mut checker, record, rooms),
        Case::Calls(calls) => call(&mut checker, calls),
    }
    checker.differences
}

/// Reads a message, whose record is valid and is written too, and asks for a block by a number that is often too high.
fn read(checker: &mut Checker, octets: &[u8], rooms: &Rooms) {
    for number in [rooms[0].into(), usize::MAX] {
        let proved = raydulcimer::block(octets, number).map(of_block);
        let plain = second::blocks(octets).nth(number);
        if proved != plain {
            checker.differ(|| format!("block {number} of {}: proved {proved:?}, second {plain:?}", hex(octets)));
        }
    }
    if let Some(record) = checker.message(octets) {
        if !second::is_valid(&record) {
            checker.differ(|| format!("{} is read as {record:X?}, which is not valid", hex(octets)));
        }
        write(checker, &record, rooms);
    }
}

/// Writes a record into buffers of these lengths, of just its need and of one octet less, and reads back what is written.
fn write(checker: &mut Checker, record: &Record, rooms: &Rooms) {
    for room in rooms {
        let _ = checker.write(record, usize::from(*room));
    }
    let written = checker.write(record, MESSAGE_LIMIT);
    if written.is_ok() != second::is_valid(record) {
        checker.differ(|| format!("validity of {record:X?}: written {written:?}"));
    }
    let Ok(need) = written else { return };
    let _ = checker.write(record, need);
    let _ = checker.write(record, need - 1);
    let mut out = [0; MESSAGE_LIMIT];
    let length = second::write(record, &mut out).unwrap_or(0);
    let read = checker.message(&out[..length]);
    if read != Some(*record) {
        checker.differ(|| format!("{record:X?} is read back as {read:X?}"));
    }
}

fn call(checker: &mut Checker, calls: &Calls) {
    let mut done = 0;
    let mut run = || -> Result<(), String> {
        let (mut pair, _) = Pair::start(&calls.profile, calls.replies)?;
        if let Some(forged) = &calls.forged {
            pair = Pair::forged(&session(calls, forged));
        }
        for call in &calls.calls {
            done += 1;
            let _ = pair.call(call.message.as_deref(), call.room.into(), call.filling)?;
        }
        Ok(())
    };
    if let Err(what) = run() {
        checker.differ(|| format!("after {done} calls: {what}"));
    }
}

/// The session that is forged.
fn session(calls: &Calls, forged: &Forged) -> raw::Session {
    let record = to_library(&Record {
        configuration: forged.settings,
        ..calls.profile
    });
    let [uwb, nan, rssi, mark] = forged.flags;
    let settings = record.configuration;
    raw::Session {
        profile: raw::Profile {
            set: record.set,
            replies: calls.replies,
            capability: record.capability,
        },
        uwb: state(uwb, settings.uwb),
        nan: state(nan, settings.nan),
        rssi: state(rssi, settings.rssi),
        mark,
    }
}

fn state<T>(ranging: u8, settings: T) -> raw::State<T> {
    raw::State { ranging, settings }
}
