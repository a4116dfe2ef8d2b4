//! Sessions through the safe face: the rules' examples, and each call's part of the state.
use raydulcimer::{
    raw, read, Answer, ConfigId, MessageId, Record, Refusal, Replies, Session, Technologies, MESSAGE_LIMIT,
};

const RSSI_ONLY: [u8; 12] = [1, 1, 8, 0, 3, 8, 0xA1, 0xA2, 0xA3, 0xA4, 0xA5, 0xA6];

/// Config ID 4, channel 9, preamble index 11, interval from 120, slot from 1, role 2; CS levels 1 and 4; NAN periodic.
const ALL_FOUR: [u8; 47] = [
    1, 1, 15, 0, 0, 20, 0xB1, 0xB2, 0, 2, 0, 0, 0, 4, 0, 0, 16, 0, 0, 0, 120, 0, 1, 2, 1, 9, 0b10010, 1, 2, 3, 4, 5, 6,
    2, 6, 3, 1, 4, 5, 3, 8, 7, 8, 9, 10, 11, 12,
];

/// A Configuration of all four within that profile.
const CONFIGURATION: [u8; 56] = [
    1, 2, 15, 0, 15, 0, 0, 27, 0xC1, 0xC2, 1, 0, 0, 0, 4, 9, 11, 120, 0, 1, 8, 1, 2, 3, 4, 5, 6, 7, 8, b'C', b'H', 2,
    1, 1, 9, 4, 6, 5, 4, 3, 2, 1, 2, 6, 1, b'n', 1, 1, 3, 8, 9, 9, 9, 9, 9, 9,
];
const CHANNEL: usize = 15;
const SESSION_ID: usize = 10;

fn started(profile: &[u8], replies: Replies) -> Session {
    Session::start(&read(profile).unwrap(), replies).unwrap()
}

/// Gives a message and returns the reply, and the bits of what was set and of what was stopped.
fn give(session: &mut Session, message: &[u8]) -> Result<(Vec<u8>, u16, u16), Refusal> {
    let mut out = [0x55; MESSAGE_LIMIT];
    let Answer { length, set, stopped } = session.message(message, &mut out)?;
    assert!(out[length..].iter().all(|octet| *octet == 0x55));
    Ok((out[..length].to_vec(), set.0, stopped.0))
}

#[test]
fn profile_of_rssi_only() {
    let mut session = started(&RSSI_ONLY, Replies::On);
    assert_eq!(give(&mut session, &[1, 0, 9, 0]), Ok((RSSI_ONLY.to_vec(), 0, 0)));
    let configuration = [1, 2, 8, 0, 8, 0, 3, 8, 1, 2, 3, 4, 5, 6];
    assert_eq!(give(&mut session, &configuration), Ok((vec![1, 3, 8, 0], 8, 0)));
    assert_eq!(session.rssi().unwrap().address, [1, 2, 3, 4, 5, 6]);
    assert_eq!(give(&mut session, &[1, 6, 9, 0]), Ok((vec![1, 7, 8, 0], 0, 8)));
    assert_eq!(session.rssi(), None);
    assert_eq!(give(&mut session, &[1, 6, 9, 0]), Ok((vec![1, 7, 0, 0], 0, 0)));
    assert_eq!(session, started(&RSSI_ONLY, Replies::On));
}

#[test]
fn all_four_technologies() {
    let mut session = started(&ALL_FOUR, Replies::On);
    assert_eq!(session.profile().set, Technologies::ALL);
    assert_eq!(session.profile().replies, 1);
    assert_eq!(session.profile().capability, read(&ALL_FOUR).unwrap().capability);
    assert_eq!((session.uwb(), session.nan(), session.rssi()), (None, None, None));

    assert_eq!(give(&mut session, &CONFIGURATION), Ok((vec![1, 3, 15, 0], 15, 0)));
    let settings = read(&CONFIGURATION).unwrap().configuration;
    assert_eq!(session.uwb(), Some(&settings.uwb));
    assert_eq!(session.uwb().unwrap().config_id, ConfigId(4));
    assert_eq!(session.nan(), Some(&settings.nan));
    assert_eq!(session.rssi(), Some(&settings.rssi));

    assert_eq!(give(&mut session, &[1, 6, 6, 0]), Ok((vec![1, 7, 4, 0], 0, 4)));
    assert_eq!((session.nan(), session.mark()), (None, false));
    assert_eq!(session.uwb(), Some(&settings.uwb));
}

#[test]
fn unfit_configuration_keeps_the_settings() {
    let mut session = started(&ALL_FOUR, Replies::On);
    give(&mut session, &CONFIGURATION).unwrap();
    let mut second = CONFIGURATION;
    second[SESSION_ID] = 2;
    second[CHANNEL] = 10;
    assert_eq!(give(&mut session, &second), Ok((vec![1, 3, 14, 0], 14, 0)));
    assert_eq!(session.uwb().unwrap().session_id, 1);
    second[CHANNEL] = 9;
    assert_eq!(give(&mut session, &second), Ok((vec![1, 3, 15, 0], 15, 0)));
    assert_eq!(session.uwb().unwrap().session_id, 2);
}

#[test]
fn uwb_after_a_stop() {
    let mut session = started(&ALL_FOUR, Replies::NotSaid);
    for advertised in [false, true] {
        let give_out = |session: &mut Session, out: &mut [u8]| match advertised {
            true => session.advertise(out),
            false => session.message(&[1, 0, 1, 0], out),
        };
        assert_eq!(give(&mut session, &CONFIGURATION).unwrap().1, 15);
        assert_eq!(give(&mut session, &[1, 6, 1, 0]).unwrap().2, 1);
        assert!(session.mark());
        assert_eq!(give(&mut session, &CONFIGURATION).unwrap().1, 14);
        assert_eq!(give_out(&mut session, &mut [0; 23]), Err(Refusal::BufferTooShort));
        assert!(session.mark());
        let mut out = [0; MESSAGE_LIMIT];
        let answer = give_out(&mut session, &mut out).unwrap();
        assert_eq!(
            (answer.length, answer.set, answer.stopped),
            (
                if advertised { 47 } else { 24 },
                Technologies::EMPTY,
                Technologies::EMPTY
            )
        );
        assert_eq!(out[4..24], ALL_FOUR[4..24]);
        assert!(!session.mark());
    }
}

#[test]
fn explicit_replies() {
    for (replies, length) in [(Replies::NotSaid, 0), (Replies::On, 4), (Replies::Off, 0)] {
        let mut session = started(&ALL_FOUR, replies);
        let mut out = [0; 47];
        let answer = session.message(&CONFIGURATION, &mut out[..length]).unwrap();
        assert_eq!((answer.length, answer.set.0, answer.stopped.0), (length, 15, 0));
        let answer = session.message(&[1, 6, 15, 0], &mut out[..length]).unwrap();
        assert_eq!((answer.length, answer.set.0, answer.stopped.0), (length, 0, 13));
        assert_eq!(session.advertise(&mut out[..46]), Err(Refusal::BufferTooShort));
        assert_eq!(session.advertise(&mut out).unwrap().length, 47);
    }
}

#[test]
fn refused_calls_change_nothing() {
    let mut session = started(&ALL_FOUR, Replies::On);
    give(&mut session, &CONFIGURATION).unwrap();
    let before = session.clone();
    let cases: [(&[u8], Refusal); 7] = [
        (&[1; 257], Refusal::TooLong),
        (&[1, 6, 1], Refusal::EndsEarly),
        (&[1, 8, 1, 0], Refusal::ReservedId),
        (&ALL_FOUR, Refusal::NotForTag),
        (&[1, 3, 1, 0], Refusal::NotForTag),
        (&[1, 7, 1, 0, 0], Refusal::LeftOver),
        (&[1, 6, 1, 0], Refusal::BufferTooShort),
    ];
    for (message, refusal) in cases {
        let mut out = [1, 2, 3];
        assert_eq!(session.message(message, &mut out), Err(refusal));
        assert_eq!((&session, out), (&before, [1, 2, 3]));
    }
}

#[test]
fn profiles_that_are_not_valid() {
    let profile = read(&ALL_FOUR).unwrap();
    let not_valid = [
        Record::default(),
        Record {
            id: MessageId::CONFIGURATION_RESPONSE,
            ..profile
        },
        Record {
            set: Technologies(31),
            ..profile
        },
        Record {
            set: Technologies(7),
            ..profile
        },
    ];
    for record in not_valid {
        assert_eq!(Session::start(&record, Replies::On), Err(Refusal::NotValid));
    }
    let refused = raw::Started {
        refusal: Refusal::NotValid.number(),
        ..Default::default()
    };
    assert_eq!(raw::start(&profile, 3), refused);
    let mut session = refused.session;
    assert_eq!(session.advertise(&mut [0; 4]).length, 4);
    // its replies are not said, so off
    assert_eq!(session.message(&[1, 6, 15, 0], &mut []), raw::Answer::default());
}

#[test]
fn forged_sessions() {
    let profile = read(&RSSI_ONLY).unwrap();
    let mut session = raw::start(&profile, Replies::On as u8).session;
    session.uwb.ranging = 7;
    session.nan.settings.role = 9;
    let answer = session.message(&[1, 6, 15, 0], &mut [0; 4]);
    assert_eq!(
        (answer.refusal, answer.length, answer.stopped),
        (0, 4, Technologies::UWB)
    );
    assert_eq!((session.uwb, session.mark), (raw::State::default(), 1));

    session.profile.replies = 3;
    let before = session;
    let refused = raw::Answer {
        refusal: Refusal::NotValid.number(),
        ..Default::default()
    };
    assert_eq!(session.message(&[], &mut []), refused);
    assert_eq!(session.advertise(&mut []), refused);
    assert_eq!(session, before);
}
