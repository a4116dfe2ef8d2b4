//! Header, bindings and library agree on the layout of every struct: sizes, alignments and places of all fields, and patterns
//! that the library's calls put into them and take from them, seen from C and from Rust.
use raydulcimer::raw::{self, Profile, Started, State};
use raydulcimer::{
    block, read, write, Block, Capability, Channel, Channels, ConfigId, ConfigIds, Configuration, CsCapability,
    CsConfiguration, MessageId, NanCapability, NanConfiguration, PreambleIndex, PreambleIndexes, Record, Refusal,
    Replies, Rssi, Technologies, UwbCapability, UwbConfiguration, MESSAGE_LIMIT,
};
use std::fmt::Write;
use std::io::Write as _;
use std::mem::{align_of, offset_of, size_of};
use std::process::{Command, Stdio};

/// A profile, a Configuration within it, a Stop and a message that is refused. In the first two, each octet that carries any
/// number is different from all others of its message.
const MESSAGES: [&str; 4] = [
    "01 01 0f 00 00 14 10 11 12 13 14 15 16 17 18 19 1a 1b 1c 1d 58 02 02 1e 01 09 1f 20 21 22 23 24 25 \
     02 06 26 01 27 28 03 08 29 2a 2b 2c 2d 2e",
    "01 02 0f 00 0f 00 00 33 30 31 32 33 34 35 04 09 0b 58 02 02 20 40 41 42 43 44 45 46 47 48 49 4a 4b 4c 4d 4e 4f \
     50 51 52 53 54 55 56 57 58 59 5a 5b 5c 5d 5e 5f 41 5a 02 01 01 09 04 60 61 62 63 64 65 \
     02 0a 05 66 67 68 69 6a 01 00 03 08 6b 6c 6d 6e 6f 70",
    "01 06 09 00",
    "01 00 09",
];

fn octets(hex: &str) -> Vec<u8> {
    hex.split_whitespace()
        .map(|octet| u8::from_str_radix(octet, 16).unwrap())
        .collect()
}

fn hex(octets: &[u8]) -> String {
    octets.iter().map(|octet| format!(" {octet:02x}")).collect()
}

/// The numbers that the header names.
const NUMBERS: [(&str, usize); 16] = [
    ("MESSAGE_LIMIT", MESSAGE_LIMIT),
    ("REPLIES_NOT_SAID", Replies::NotSaid as usize),
    ("REPLIES_ON", Replies::On as usize),
    ("REPLIES_OFF", Replies::Off as usize),
    ("TOO_LONG", Refusal::TooLong as usize),
    ("ENDS_EARLY", Refusal::EndsEarly as usize),
    ("RESERVED_ID", Refusal::ReservedId as usize),
    ("WRONG_VERSION", Refusal::WrongVersion as usize),
    ("SETS_DIFFER", Refusal::SetsDiffer as usize),
    ("BLOCK_TOO_SMALL", Refusal::BlockTooSmall as usize),
    ("WRONG_BLOCK", Refusal::WrongBlock as usize),
    ("NOT_ALLOWED", Refusal::NotAllowed as usize),
    ("LEFT_OVER", Refusal::LeftOver as usize),
    ("NOT_FOR_TAG", Refusal::NotForTag as usize),
    ("BUFFER_TOO_SHORT", Refusal::BufferTooShort as usize),
    ("NOT_VALID", Refusal::NotValid as usize),
];

fn sizes() -> String {
    let mut text = String::new();
    macro_rules! sizes {
        ($($name:literal $of:ty),* $(,)?) => {$(
            writeln!(text, "{} size {} alignment {}", $name, size_of::<$of>(), align_of::<$of>()).unwrap();
        )*};
    }
    sizes!(
        "channel" Channel,
        "preamble_index" PreambleIndex,
        "config_id" ConfigId,
        "channels" Channels,
        "preamble_indexes" PreambleIndexes,
        "config_ids" ConfigIds,
        "uwb_capability" UwbCapability,
        "cs_capability" CsCapability,
        "nan_capability" NanCapability,
        "rssi" Rssi,
        "uwb_configuration" UwbConfiguration,
        "cs_configuration" CsConfiguration,
        "nan_configuration" NanConfiguration,
        "capability" Capability,
        "configuration" Configuration,
        "record" Record,
        "profile" Profile,
        "uwb_state" State<UwbConfiguration>,
        "nan_state" State<NanConfiguration>,
        "rssi_state" State<Rssi>,
        "session" raw::Session,
        "answer" raw::Answer,
        "started" Started,
        "block" Block,
    );
    text
}

/// A field by name, with its place in the whole and its octets.
fn field<T, F>(name: &str, whole: &T, field: &F) -> String {
    let at = field as *const F as usize - whole as *const T as usize;
    // SAFETY: a field is a number or an array of octets, and has no padding.
    let octets = unsafe { std::slice::from_raw_parts(field as *const F as *const u8, size_of::<F>()) };
    format!("{name} at {at}:{}\n", hex(octets))
}

/// The text of fields of a struct, which may stand in inner structs: `fields!(it, (uwb.settings.): role mode)`.
macro_rules! fields {
    ($it:expr, $in:tt: $($field:ident)*) => { [$(fields!(one $it, $in $field)),*].concat() };
    (one $it:expr, ($($in:ident.)*) $field:ident) => {
        field(concat!($(stringify!($in), ".",)* stringify!($field)), $it, &$it.$($in.)*$field)
    };
}

macro_rules! capability {
    ($it:expr, ($($in:ident.)*)) => {
        fields!($it, ($($in.)*uwb.): address channels preamble_indexes config_ids shortest_interval shortest_slot roles)
            + &fields!($it, ($($in.)*cs.): security_types address)
            + &fields!($it, ($($in.)*nan.): features periodic bandwidth receive_chains)
            + &fields!($it, ($($in.)*rssi.): address)
    };
}

macro_rules! uwb_configuration {
    ($it:expr, $in:tt) => {
        fields!($it, $in: address session_id config_id channel preamble_index interval slot key_length key country role mode)
    };
}

macro_rules! nan_configuration {
    ($it:expr, $in:tt) => { fields!($it, $in: name_length name role periodic) };
}

fn record(it: &Record) -> String {
    fields!(it, (): id set)
        + &capability!(it, (capability.))
        + &uwb_configuration!(it, (configuration.uwb.))
        + &fields!(it, (configuration.cs.): security_level address)
        + &nan_configuration!(it, (configuration.nan.))
        + &fields!(it, (configuration.rssi.): address)
}

fn session(it: &raw::Session) -> String {
    fields!(it, (profile.): set replies)
        + &capability!(it, (profile.capability.))
        + &fields!(it, (uwb.): ranging)
        + &uwb_configuration!(it, (uwb.settings.))
        + &fields!(it, (nan.): ranging)
        + &nan_configuration!(it, (nan.settings.))
        + &fields!(it, (rssi.): ranging)
        + &fields!(it, (rssi.settings.): address)
        + &fields!(it, (): mark)
}

fn started(it: &Started) -> String {
    let place = format!("session at {}\n", offset_of!(Started, session));
    String::from("started\n") + &fields!(it, (): refusal) + &place + &session(&it.session)
}

fn listed(it: &Block) -> String {
    String::from("block\n") + &fields!(it, (): place id size)
}

/// The answer, the buffer and the session after a call.
fn called(call: &str, it: &raw::Answer, out: &[u8], after: &raw::Session) -> String {
    let buffer = format!("buffer{}\n", hex(out));
    format!("{call}\n") + &fields!(it, (): refusal length set stopped) + &buffer + &session(after)
}

/// What the C program prints, as the bindings have it.
fn seen_from_rust() -> String {
    let mut text: String = NUMBERS.map(|(name, number)| format!("{name} {number}\n")).concat();
    text += &sizes();
    let mut session = raw::start(&Record::default(), Replies::On as u8).session;
    for message in MESSAGES.map(octets) {
        let reading = read(&message);
        let value = reading.unwrap_or_default();
        writeln!(text, "refusal {}", reading.err().map_or(0, |refusal| refusal.number())).unwrap();
        text += &record(&value);
        let mut out = [0; 300];
        let written = write(&value, &mut out);
        let number = written.err().map_or(0, |refusal| refusal.number());
        writeln!(text, "written {number}{}", hex(&out[..written.unwrap_or(0)])).unwrap();

        for n in 0..6 {
            text += &listed(&block(&message, n).unwrap_or_default());
        }

        let fresh = raw::start(&value, Replies::On as u8);
        text += &started(&fresh);
        if fresh.refusal == 0 {
            session = fresh.session;
        }
        let answer = session.message(&message, &mut out);
        text += &called("message", &answer, &out, &session);
        for room in [50, 3] {
            let answer = session.advertise(&mut out[..room]);
            text += &called("advertise", &answer, &out, &session);
        }
    }
    text
}

fn seen_from_c() -> String {
    let here = env!("CARGO_MANIFEST_DIR");
    let program = format!("{}/layout-from-c", env!("CARGO_TARGET_TMPDIR"));
    let source = format!("{here}/tests/layout.c");
    let built = Command::new("gcc")
        .args(["-std=c99", "-pedantic", "-Wall", "-Wextra", "-Werror", "-o", &program])
        .args([&source, env!("RAYDULCIMER_ARCHIVE")])
        .status();
    assert!(built.expect("gcc").success());
    let mut run = Command::new(program)
        .stdin(Stdio::piped())
        .stdout(Stdio::piped())
        .spawn()
        .unwrap();
    run.stdin
        .take()
        .unwrap()
        .write_all((MESSAGES.join("\n") + "\n").as_bytes())
        .unwrap();
    String::from_utf8(run.wait_with_output().unwrap().stdout).unwrap()
}

#[test]
fn header_and_bindings_agree() {
    assert_eq!(seen_from_c(), seen_from_rust());
}

#[test]
fn capability_fields_have_their_octets() {
    let record = read(&octets(MESSAGES[0])).unwrap();
    let (uwb, cs, nan) = (record.capability.uwb, record.capability.cs, record.capability.nan);
    assert_eq!((record.id, record.set), (MessageId(1), Technologies(15)));
    assert_eq!(uwb.address, [0x10, 0x11]);
    assert_eq!(
        (uwb.channels.0, uwb.preamble_indexes.0, uwb.config_ids.0),
        (0x15141312, 0x19181716, 0x1d1c1b1a)
    );
    assert_eq!((uwb.shortest_interval, uwb.shortest_slot, uwb.roles), (600, 2, 0x1e));
    assert_eq!(
        (cs.security_types, cs.address),
        (0x1f, [0x20, 0x21, 0x22, 0x23, 0x24, 0x25])
    );
    assert_eq!(
        (nan.features, nan.periodic, nan.bandwidth, nan.receive_chains),
        (0x26, 1, 0x27, 0x28)
    );
    assert_eq!(record.capability.rssi.address, [0x29, 0x2a, 0x2b, 0x2c, 0x2d, 0x2e]);
    assert_eq!(record.configuration, Default::default());
}

#[test]
fn configuration_fields_have_their_octets() {
    let record = read(&octets(MESSAGES[1])).unwrap();
    let (uwb, cs, nan) = (
        record.configuration.uwb,
        record.configuration.cs,
        record.configuration.nan,
    );
    assert_eq!((record.id, record.set), (MessageId(2), Technologies(15)));
    assert_eq!((uwb.address, uwb.session_id), ([0x30, 0x31], 0x35343332));
    assert_eq!((uwb.config_id.0, uwb.channel.0, uwb.preamble_index.0), (4, 9, 11));
    assert_eq!((uwb.interval, uwb.slot, uwb.key_length), (600, 2, 32));
    assert!(uwb.key.iter().copied().eq(0x40..0x60));
    assert_eq!((uwb.country, uwb.role, uwb.mode), (*b"AZ", 2, 1));
    assert_eq!(
        (cs.security_level, cs.address),
        (4, [0x60, 0x61, 0x62, 0x63, 0x64, 0x65])
    );
    assert_eq!(
        (nan.name_length, &nan.name[..6]),
        (5, &[0x66, 0x67, 0x68, 0x69, 0x6a, 0][..])
    );
    assert_eq!((nan.role, nan.periodic), (1, 0));
    assert_eq!(record.configuration.rssi.address, [0x6b, 0x6c, 0x6d, 0x6e, 0x6f, 0x70]);
    assert_eq!(record.capability, Default::default());
}

#[test]
fn records_written_give_their_octets() {
    for message in &MESSAGES[..2] {
        let mut out = [0; 300];
        let length = write(&read(&octets(message)).unwrap(), &mut out).unwrap();
        assert_eq!(out[..length], octets(message));
    }
}

#[test]
fn session_fields_have_their_octets() {
    let profile = read(&octets(MESSAGES[0])).unwrap();
    let settings = read(&octets(MESSAGES[1])).unwrap().configuration;
    let mut session = raw::start(&profile, 2).session;
    let fresh = raw::Session {
        profile: Profile {
            set: Technologies(15),
            replies: 2,
            capability: profile.capability,
        },
        ..Default::default()
    };
    assert_eq!(session, fresh);
    let answer = session.message(&octets(MESSAGES[1]), &mut []);
    assert_eq!(
        (answer.refusal, answer.length, answer.set.0, answer.stopped.0),
        (0, 0, 15, 0)
    );
    let ranging = raw::Session {
        uwb: State {
            ranging: 1,
            settings: settings.uwb,
        },
        nan: State {
            ranging: 1,
            settings: settings.nan,
        },
        rssi: State {
            ranging: 1,
            settings: settings.rssi,
        },
        ..fresh
    };
    assert_eq!(session, ranging);
    let answer = session.message(&octets(MESSAGES[2]), &mut []);
    assert_eq!(
        (answer.refusal, answer.length, answer.set.0, answer.stopped.0),
        (0, 0, 0, 9)
    );
    let stopped = raw::Session {
        uwb: fresh.uwb,
        rssi: fresh.rssi,
        mark: 1,
        ..ranging
    };
    assert_eq!(session, stopped);
    assert_eq!(session.advertise(&mut [0; 60]).length, 47);
    assert_eq!(session, raw::Session { mark: 0, ..stopped });
}

#[test]
fn blocks_have_their_octets() {
    let places = [(6, 0, 0x33), (57, 1, 9), (66, 2, 10), (76, 3, 8)];
    let listed = places.map(|(place, id, size)| Some(Block { place, id, size }));
    assert_eq!([0, 1, 2, 3].map(|n| block(&octets(MESSAGES[1]), n)), listed);
}
