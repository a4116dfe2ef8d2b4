//! The allowed values of the fields, and the test for a valid record.

use crate::record::*;

pub(crate) fn is_interval(ms: u16) -> bool {
    matches!(ms, 96 | 120 | 240 | 600)
}

pub(crate) fn is_slot(ms: u8) -> bool {
    matches!(ms, 1 | 2)
}

pub(crate) fn is_key_length(length: u8) -> bool {
    matches!(length, 8 | 16 | 32)
}

/// Two letters, or 00 for a country that is not known.
pub(crate) fn is_country(country: [u8; 2]) -> bool {
    country == *b"00" || (country[0].is_ascii_uppercase() && country[1].is_ascii_uppercase())
}

pub(crate) fn is_uwb_role(role: u8) -> bool {
    matches!(role, 1 | 2)
}

pub(crate) fn is_uwb_mode(mode: u8) -> bool {
    matches!(mode, 1 | 2)
}

pub(crate) fn is_security_level(level: u8) -> bool {
    level <= 4
}

pub(crate) fn is_name_length(length: u8) -> bool {
    matches!(length, 1..=64)
}

pub(crate) fn is_nan_role(role: u8) -> bool {
    role <= 1
}

pub(crate) fn is_periodic(periodic: u8) -> bool {
    periodic <= 1
}

/// Whether the record's ID and set are not reserved, every field that it uses
/// is allowed, and everything that it does not use is zero.
pub fn is_valid(record: &Record) -> bool {
    let Record {
        id,
        set,
        capability,
        configuration,
    } = record;
    match *id {
        CAPABILITY_RESPONSE => is_capability(capability, *set) && *configuration == Configuration::ZERO,
        CONFIGURATION => is_configuration(configuration, *set) && *capability == Capability::ZERO,
        CAPABILITY_REQUEST | CONFIGURATION_RESPONSE | STOP | STOP_RESPONSE => {
            is_set(*set) && *capability == Capability::ZERO && *configuration == Configuration::ZERO
        }
        _ => false,
    }
}

/// Whether the set has no reserved bit.
fn is_set(set: u16) -> bool {
    set & !KNOWN == 0
}

/// Whether the set and the capability part of a record are valid together.
pub(crate) fn is_capability(capability: &Capability, set: u16) -> bool {
    const ZERO: Capability = Capability::ZERO;
    let Capability { uwb, cs, nan, rssi } = capability;
    let uwb_valid = if names(set, UWB) {
        is_interval(uwb.shortest_interval) && is_slot(uwb.shortest_slot)
    } else {
        *uwb == ZERO.uwb
    };
    let nan_valid = if names(set, NAN) {
        is_periodic(nan.periodic)
    } else {
        *nan == ZERO.nan
    };
    is_set(set)
        && uwb_valid
        && nan_valid
        && (names(set, CS) || *cs == ZERO.cs)
        && (names(set, RSSI) || *rssi == ZERO.rssi)
}

/// Whether the set and the configuration part of a record are valid together.
fn is_configuration(configuration: &Configuration, set: u16) -> bool {
    const ZERO: Configuration = Configuration::ZERO;
    let Configuration { uwb, cs, nan, rssi } = configuration;
    let uwb_valid = if names(set, UWB) {
        is_uwb_configuration(uwb)
    } else {
        *uwb == ZERO.uwb
    };
    let cs_valid = if names(set, CS) {
        is_security_level(cs.security_level)
    } else {
        *cs == ZERO.cs
    };
    let nan_valid = if names(set, NAN) {
        is_nan_configuration(nan)
    } else {
        *nan == ZERO.nan
    };
    is_set(set) && uwb_valid && cs_valid && nan_valid && (names(set, RSSI) || *rssi == ZERO.rssi)
}

fn is_uwb_configuration(uwb: &UwbConfiguration) -> bool {
    is_interval(uwb.interval)
        && is_slot(uwb.slot)
        && is_key_length(uwb.key_length)
        && is_country(uwb.country)
        && is_uwb_role(uwb.role)
        && is_uwb_mode(uwb.mode)
        && is_zero_from(&uwb.key, uwb.key_length)
}

fn is_nan_configuration(nan: &NanConfiguration) -> bool {
    is_name_length(nan.name_length)
        && is_nan_role(nan.role)
        && is_periodic(nan.periodic)
        && is_zero_from(&nan.name, nan.name_length)
}

/// Whether the octets past the length, which is at most `N`, are zero.
fn is_zero_from<const N: usize>(octets: &[u8; N], length: u8) -> bool {
    octets.get(usize::from(length)..) == [0; N].get(usize::from(length)..)
}

#[cfg(test)]
mod tests {
    use super::*;
    use crate::reader::read;
    use crate::refusal::Refusal;
    use crate::writer::{tests::configuration, write};

    /// A record with this country, and the message of its layout.
    fn with_country(country: &[u8; 2]) -> (Record, [u8; 33]) {
        let mut record = configuration(1 << UWB, 8, 1);
        let mut message = [0; 33];
        write(&record, &mut message).unwrap();
        record.configuration.uwb.country = *country;
        // Only role and mode follow.
        message[29..31].copy_from_slice(country);
        (record, message)
    }

    #[test]
    fn allowed_countries() {
        for country in [b"AA", b"AZ", b"ZA", b"ZZ", b"00"] {
            let (record, message) = with_country(country);
            assert_eq!(read(&message), Ok(record));
            let mut out = [0; 33];
            assert_eq!(write(&record, &mut out), Ok(33));
            assert_eq!(out, message);
        }
        let pairs = (0..=u16::MAX).map(u16::to_le_bytes);
        assert_eq!(pairs.filter(|pair| is_country(*pair)).count(), 26 * 26 + 1);
    }

    #[test]
    fn refused_countries() {
        let digits = [b"A0", b"0A", b"Z0", b"0Z", b"09", b"90", b"11"];
        let beside = [b"/0", b":0", b"0/", b"0:", b"@A", b"A@", b"[Z", b"Z["];
        let small = [b"aa", b"Aa", b"aA", b"zZ", b"Zz", b"0a", b"a0"];
        let zero_octets = [b"\0\0", b"0\0", b"\x000"];
        for country in [&digits[..], &beside, &small, &zero_octets].concat() {
            let (record, message) = with_country(country);
            assert_eq!(read(&message), Err(Refusal::Field), "{country:?}");
            assert_eq!(write(&record, &mut [0; 33]), Err(Refusal::NotValid), "{country:?}");
        }
    }
}
