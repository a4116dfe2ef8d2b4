//! Records, sessions, answers and blocks of the one implementation as the other's, field by field.
use raydulcimer as proved;
use second as plain;

/// Both directions from one list of fields: those that need a kind of their own, and those that are alike.
macro_rules! block {
    ($to:ident, $of:ident, $name:ident, [$($kind:ident $field:ident),*], [$($alike:ident),*]) => {
        fn $to(r: &plain::$name) -> proved::$name {
            proved::$name { $($field: proved::$kind(r.$field),)* $($alike: r.$alike,)* }
        }
        fn $of(r: &proved::$name) -> plain::$name {
            plain::$name { $($field: r.$field.0,)* $($alike: r.$alike,)* }
        }
    };
}

block!(to_uwb_capability, of_uwb_capability, UwbCapability,
    [Channels channels, PreambleIndexes preamble_indexes, ConfigIds config_ids],
    [address, shortest_interval, shortest_slot, roles]);
block!(to_uwb_configuration, of_uwb_configuration, UwbConfiguration,
    [Channel channel, PreambleIndex preamble_index, ConfigId config_id],
    [address, session_id, interval, slot, key_length, key, country, role, mode]);
block!(
    to_cs_capability,
    of_cs_capability,
    CsCapability,
    [],
    [security_types, address]
);
block!(
    to_cs_configuration,
    of_cs_configuration,
    CsConfiguration,
    [],
    [security_level, address]
);
block!(
    to_nan_capability,
    of_nan_capability,
    NanCapability,
    [],
    [features, periodic, bandwidth, receive_chains]
);
block!(
    to_nan_configuration,
    of_nan_configuration,
    NanConfiguration,
    [],
    [name_length, name, role, periodic]
);
block!(to_rssi, of_rssi, Rssi, [], [address]);

/// The same for the blocks of a message.
macro_rules! blocks {
    ($to:ident, $of:ident, $name:ident, [$($field:ident $to_block:ident $of_block:ident),*]) => {
        fn $to(r: &plain::$name) -> proved::$name {
            proved::$name { $($field: $to_block(&r.$field),)* }
        }
        fn $of(r: &proved::$name) -> plain::$name {
            plain::$name { $($field: $of_block(&r.$field),)* }
        }
    };
}

blocks!(to_capability, of_capability, Capability, [
    uwb to_uwb_capability of_uwb_capability, cs to_cs_capability of_cs_capability,
    nan to_nan_capability of_nan_capability, rssi to_rssi of_rssi
]);
blocks!(to_configuration, of_configuration, Configuration, [
    uwb to_uwb_configuration of_uwb_configuration, cs to_cs_configuration of_cs_configuration,
    nan to_nan_configuration of_nan_configuration, rssi to_rssi of_rssi
]);

pub fn to_library(r: &plain::Record) -> proved::Record {
    let (capability, configuration) = (to_capability(&r.capability), to_configuration(&r.configuration));
    proved::Record {
        id: proved::MessageId(r.id),
        set: proved::Technologies(r.set),
        capability,
        configuration,
    }
}

pub fn of_library(r: &proved::Record) -> plain::Record {
    let (capability, configuration) = (of_capability(&r.capability), of_configuration(&r.configuration));
    plain::Record {
        id: r.id.0,
        set: r.set.0,
        capability,
        configuration,
    }
}

pub fn of_session(s: &proved::raw::Session) -> plain::Session {
    plain::Session {
        profile: plain::Profile {
            set: s.profile.set.0,
            replies: s.profile.replies,
            capability: of_capability(&s.profile.capability),
        },
        uwb: of_state(&s.uwb, of_uwb_configuration),
        nan: of_state(&s.nan, of_nan_configuration),
        rssi: of_state(&s.rssi, of_rssi),
        mark: s.mark != 0,
    }
}

fn of_state<T, U>(state: &proved::raw::State<T>, of_settings: fn(&T) -> U) -> plain::Ranging<U> {
    plain::Ranging {
        on: state.ranging != 0,
        settings: of_settings(&state.settings),
    }
}

pub fn to_answer(answer: Result<plain::Answer, plain::Refusal>) -> proved::raw::Answer {
    match answer {
        Ok(answer) => proved::raw::Answer {
            refusal: 0,
            length: answer.length,
            set: proved::Technologies(answer.set),
            stopped: proved::Technologies(answer.stopped),
        },
        Err(refusal) => proved::raw::Answer {
            refusal: refusal.number(),
            ..Default::default()
        },
    }
}

pub fn of_block(b: proved::Block) -> plain::Block {
    plain::Block {
        place: b.place,
        id: b.id,
        size: b.size,
    }
}
