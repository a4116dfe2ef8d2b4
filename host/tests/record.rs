//! What a record has beside its fields: named IDs and sets, key and name by their length, and what is printed of it.
use raydulcimer::{
    raw, read, write, Capability, Channel, Channels, ConfigIds, Configuration, MessageId, NanConfiguration,
    PreambleIndex, PreambleIndexes, Record, Refusal, Replies, Session, Technologies, UwbCapability, UwbConfiguration,
    MESSAGE_LIMIT,
};
use std::fmt::Debug;

/// A valid Configuration of UWB and NAN with this key and this name.
fn configuration(key: &[u8], name: &[u8]) -> Record {
    let mut uwb = UwbConfiguration {
        channel: Channel(9),
        preamble_index: PreambleIndex(11),
        interval: 120,
        slot: 1,
        country: *b"CH",
        role: 1,
        mode: 1,
        ..Default::default()
    };
    let mut nan = NanConfiguration::default();
    uwb.set_key(key).unwrap();
    nan.set_name(name).unwrap();
    Record {
        id: MessageId::CONFIGURATION,
        set: Technologies::UWB | Technologies::NAN,
        configuration: Configuration {
            uwb,
            nan,
            ..Default::default()
        },
        ..Default::default()
    }
}

fn written(record: &Record) -> Vec<u8> {
    let mut out = [0; MESSAGE_LIMIT];
    let length = write(record, &mut out).unwrap();
    out[..length].to_vec()
}

#[test]
fn message_ids() {
    let ids: [(u8, MessageId, &str); 6] = [
        (0, MessageId::CAPABILITY_REQUEST, "Capability Request"),
        (1, MessageId::CAPABILITY_RESPONSE, "Capability Response"),
        (2, MessageId::CONFIGURATION, "Configuration"),
        (3, MessageId::CONFIGURATION_RESPONSE, "Configuration Response"),
        (6, MessageId::STOP, "Stop"),
        (7, MessageId::STOP_RESPONSE, "Stop Response"),
    ];
    for (octet, id, name) in ids {
        let sets: &[u8] = if octet == 2 { &[0; 4] } else { &[0; 2] };
        assert_eq!(read(&[&[1, octet], sets].concat()).unwrap().id, id);
        assert_eq!(
            (id.to_string(), format!("{id:?}")),
            (name.into(), format!("MessageId({name})"))
        );
    }
    assert_eq!(MessageId(4).to_string(), "reserved 4");
}

#[test]
fn technologies() {
    let named = [
        (1, Technologies::UWB, "UWB"),
        (2, Technologies::CS, "CS"),
        (4, Technologies::NAN, "NAN"),
        (8, Technologies::RSSI, "RSSI"),
        (0, Technologies::EMPTY, "none"),
        (15, Technologies::ALL, "UWB CS NAN RSSI"),
    ];
    for (octet, set, names) in named {
        assert_eq!(read(&[1, 0, octet, 0]).unwrap().set, set);
        assert_eq!(
            (set.to_string(), format!("{set:?}")),
            (names.into(), format!("Technologies({names})"))
        );
    }
    assert_eq!(Technologies(0x8031).to_string(), "UWB 0x8030");
    assert_eq!(Technologies(0x10).to_string(), "0x10");
}

#[test]
fn sets_of_technologies() {
    let set = Technologies::UWB | Technologies::RSSI;
    assert_eq!(set, Technologies(9));
    assert_eq!(set & Technologies(0x18), Technologies::RSSI);
    assert!(set.contains(set) && set.contains(Technologies::RSSI) && set.contains(Technologies::EMPTY));
    assert!(!set.contains(Technologies::CS) && !set.contains(Technologies::UWB | Technologies::CS));
    assert!(Technologies::EMPTY.is_empty() && !Technologies(0x8000).is_empty());
}

#[test]
fn key_and_name_as_they_were_read() {
    let (key, name) = ([1, 2, 3, 4, 5, 6, 7, 8], b"LENT");
    let record = read(&written(&configuration(&key, name))).unwrap();
    assert_eq!(record.configuration.uwb.key(), key);
    assert_eq!(record.configuration.nan.name(), name);
}

#[test]
fn any_length_gives_a_key_and_a_name() {
    let (mut uwb, mut nan) = (UwbConfiguration::default(), NanConfiguration::default());
    for length in 0..=255 {
        (uwb.key_length, nan.name_length) = (length, length);
        assert_eq!(uwb.key().len(), usize::from(length).min(32));
        assert_eq!(nan.name().len(), usize::from(length).min(64));
    }
}

#[test]
fn a_shorter_key_and_name_leave_nothing_of_the_longer() {
    let mut record = configuration(&[7; 32], &[7; 64]);
    assert_eq!(written(&record).len(), 6 + 19 + 32 + 5 + 64);
    record.configuration.uwb.set_key(&[9; 16]).unwrap();
    record.configuration.nan.set_name(&[9]).unwrap();
    assert_eq!(record, configuration(&[9; 16], &[9]));
    assert_eq!(read(&written(&record)), Ok(record));
}

#[test]
fn what_does_not_fit_is_not_set() {
    let mut record = configuration(&[7; 32], &[7; 64]);
    let before = record;
    assert_eq!(record.configuration.uwb.set_key(&[9; 33]), Err(Refusal::NotValid));
    assert_eq!(record.configuration.nan.set_name(&[9; 65]), Err(Refusal::NotValid));
    assert_eq!(record.configuration.uwb.set_key(&[9; 300]), Err(Refusal::NotValid));
    assert_eq!(record, before);
}

/// A session that ranges with what a Configuration says.
fn ranging(configuration: &Record) -> Session {
    let uwb = UwbCapability {
        channels: Channels(u32::MAX),
        preamble_indexes: PreambleIndexes(u32::MAX),
        config_ids: ConfigIds(u32::MAX),
        shortest_interval: 96,
        shortest_slot: 1,
        roles: 3,
        ..Default::default()
    };
    let profile = Record {
        id: MessageId::CAPABILITY_RESPONSE,
        set: Technologies::UWB,
        capability: Capability {
            uwb,
            ..Default::default()
        },
        ..Default::default()
    };
    let mut session = Session::start(&profile, Replies::Off).unwrap();
    let answer = session.message(&written(configuration), &mut []).unwrap();
    assert_eq!(answer.set, Technologies::UWB);
    session
}

fn printed(it: &dyn Debug) -> String {
    format!("{it:?} {it:#?} {it:x?} {it:#x?} {it:X?} {it:#X?}")
}

#[test]
fn no_key_is_printed() {
    let key: [u8; 16] = std::array::from_fn(|place| 0xE0 + place as u8);
    let record = configuration(&key, b"LENT");
    let uwb = record.configuration.uwb;
    let state = raw::State {
        ranging: 1,
        settings: uwb,
    };
    let session = raw::Session {
        uwb: state,
        ..Default::default()
    };
    let started = raw::Started { session, refusal: 0 };
    let printable: [&dyn Debug; 7] = [
        &uwb,
        &record.configuration,
        &record,
        &state,
        &session,
        &started,
        &ranging(&record),
    ];
    for it in printable {
        let text = printed(it);
        assert_eq!(text.matches("key: [16 octets]").count(), 6, "{text}");
        let words = || text.split(|c: char| !c.is_ascii_alphanumeric());
        assert!(words().any(|word| word == "120"));
        for octet in key {
            let forms = [
                format!("{octet}"),
                format!("{octet:x}"),
                format!("{octet:X}"),
                format!("{octet:#x}"),
                format!("{octet:#X}"),
            ];
            assert!(
                !words().any(|word| forms.iter().any(|form| form == word)),
                "{octet} in {text}"
            );
        }
    }
}
