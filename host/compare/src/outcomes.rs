//! What the lists of calls have to reach, by chance, again and again.
use crate::fitted::Rule;
use crate::profiles::Fault;

/// The calls that a tag answers.
#[derive(Clone, Copy, PartialEq, Eq, Hash, Debug)]
pub enum Kind {
    Request,
    Configuration,
    Stop,
    Advertisement,
}
use Kind::{Advertisement, Configuration, Request, Stop};

const KINDS: [Kind; 4] = [Request, Configuration, Stop, Advertisement];

/// The IDs of the technologies that range; CS never does.
pub const RANGING: [u8; 3] = [0, 2, 3];

/// A technology stands by its ID, a set by its bits.
#[derive(Clone, Copy, PartialEq, Eq, Hash, Debug)]
pub enum Outcome {
    Started {
        set: u16,
        replies: u8,
    },
    NotStarted(Fault),
    /// Accepted by the session of a refused start.
    ServedWithoutProfile(Kind),
    /// Accepted by a session that is not forged, with what was ranging.
    Accepted {
        kind: Kind,
        ranging: u16,
        mark: bool,
    },
    /// With this number, for a fault of the message; something was ranging or the mark stood.
    Refused {
        number: u8,
        busy: bool,
    },
    NotForTag(u8),
    /// Refused as not for a tag though there was no room either.
    NotForTagWithoutRoom(u8),
    NoRoom(Kind),
    OneShort(Kind),
    ExactRoom(Kind),
    MoreRoom(Kind),
    /// Accepted under this choice of replies, and a reply was written or none.
    Answered {
        kind: Kind,
        replies: u8,
        written: bool,
    },
    /// Accepted with no room, as nothing was to be written.
    NoRoomNeeded {
        kind: Kind,
        replies: u8,
    },
    /// Something was set or stopped.
    Done {
        kind: Kind,
        replies: u8,
    },
    /// What a reply gave out, a Configuration set, a Stop stopped.
    Given(u16),
    Set(u16),
    Stopped(u16),
    /// UWB was set with the country 00.
    SetCountryUnknown,
    NamedOutsideProfile(u8),
    Unfit {
        rule: Rule,
        ranging: bool,
    },
    /// It was ranging and got other settings.
    NewSettings(u8),
    /// It was ranging and kept its settings though it was named.
    OldSettings(u8),
    MarkComes,
    /// A Stop named UWB and ended nothing of it.
    UwbWasNotRanging {
        mark: bool,
    },
    /// UWB's settings lay within the profile and were not taken.
    MarkHolds,
    MarkGoes(Kind),
    /// Capabilities were given out, but not UWB's.
    MarkStays,
    /// For lack of room nothing was given out.
    MarkStaysWithoutRoom(Kind),
    /// A Stop ended UWB ranging, a Configuration did not set UWB, this gave its capabilities out, a Configuration set it.
    SetAgainAfter(Kind),
    /// Refused for a forged profile; the next are of forged sessions too.
    ForgedProfile {
        fault: Fault,
        advertisement: bool,
    },
    /// It was ranging by a flag above 1.
    HighFlagStopped(u8),
    StoppedOutsideProfile(u8),
    /// It had settings that were not zero without ranging, and a Stop named it.
    IdleSettingsLeft(u8),
    IdleSettingsReplaced(u8),
    /// The mark was above 1.
    HighMarkHolds,
    HighMarkGoes(Kind),
    /// The mark held while UWB was ranging.
    MarkHoldsRanging,
}
use Outcome::*;

/// Every outcome that a run has to reach.
pub fn due() -> Vec<Outcome> {
    let marks = [MarkComes, MarkHolds, MarkStays, HighMarkHolds, MarkHoldsRanging];
    let mut due = [&marks[..], &[SetCountryUnknown]].concat();
    due.extend(Fault::ALL.map(NotStarted));
    for fault in Fault::OF_SESSIONS.iter().copied() {
        due.extend([false, true].map(|advertisement| ForgedProfile { fault, advertisement }));
    }
    due.extend((0..16).flat_map(of_set));
    due.extend(of_refusals());
    due.extend(of_kinds());
    due.extend(of_settings());
    due
}

/// With each set as the profile's, as what was ranging, and as what was given, set and stopped.
fn of_set(set: u16) -> Vec<Outcome> {
    let mut due = vec![Given(set), Set(set)];
    due.extend((0..3).map(|replies| Started { set, replies }));
    if set & 2 == 0 {
        due.push(Stopped(set));
    }
    // CS never ranges, and there is a mark only while UWB does not.
    for (mark, never) in [(false, 2), (true, 3)] {
        if set & never == 0 {
            due.extend(KINDS.map(|kind| Accepted {
                kind,
                ranging: set,
                mark,
            }));
        }
    }
    due
}

/// Messages that the reader refuses, and those that are not for a tag.
fn of_refusals() -> Vec<Outcome> {
    let mut due: Vec<Outcome> = [1, 3, 7]
        .into_iter()
        .flat_map(|id| [NotForTag(id), NotForTagWithoutRoom(id)])
        .collect();
    for number in 1..10 {
        due.extend([false, true].map(|busy| Refused { number, busy }));
    }
    due
}

/// By the kind of call: the room for its reply, what it did, and what became of the mark.
fn of_kinds() -> Vec<Outcome> {
    let mut due = Vec::new();
    for of_kind in [ServedWithoutProfile, NoRoom, OneShort, ExactRoom, MoreRoom] {
        due.extend(KINDS.map(of_kind));
    }
    for kind in [Configuration, Stop] {
        due.extend((0..3).map(|replies| Done { kind, replies }));
        due.extend([0, 2].map(|replies| NoRoomNeeded { kind, replies }));
    }
    for kind in KINDS {
        due.extend((0..3).map(|replies| Answered {
            kind,
            replies,
            // messages 3 and 7 with replies on only
            written: replies == 1 || matches!(kind, Request | Advertisement),
        }));
    }
    due.extend([false, true].map(|mark| UwbWasNotRanging { mark }));
    for of_kind in [MarkGoes, MarkStaysWithoutRoom, SetAgainAfter, HighMarkGoes] {
        due.extend([Request, Advertisement].map(of_kind));
    }
    due
}

/// By the technology: settings that do not lie within the profile, new, old and idle ones.
fn of_settings() -> Vec<Outcome> {
    let mut due: Vec<Outcome> = (0..4).map(NamedOutsideProfile).collect();
    for rule in Rule::ALL {
        due.push(Unfit { rule, ranging: false });
        // CS never ranges.
        if rule != Rule::Level {
            due.push(Unfit { rule, ranging: true });
        }
    }
    // RSSI's settings always lie within the profile.
    due.extend([0, 2].map(OldSettings));
    let any = [
        NewSettings,
        HighFlagStopped,
        StoppedOutsideProfile,
        IdleSettingsLeft,
        IdleSettingsReplaced,
    ];
    for of_technology in any {
        due.extend(RANGING.map(of_technology));
    }
    due
}
