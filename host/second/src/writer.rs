//! The writer: the normal form of a valid record.

use crate::record::*;
use crate::refusal::Refusal;
use crate::valid::is_valid;

/// Writes the normal form into the first octets of the buffer and returns its
/// length. A refusal leaves the buffer as it was.
pub fn write(record: &Record, out: &mut [u8]) -> Result<usize, Refusal> {
    if !is_valid(record) {
        return Err(Refusal::NotValid);
    }
    match record.id {
        CAPABILITY_RESPONSE => write_capability(record.set, &record.capability, out),
        CONFIGURATION => write_configuration(record.set, &record.configuration, out),
        id => write_set(id, record.set, out),
    }
}

/// Writes a message that carries a set and nothing else.
pub(crate) fn write_set(id: u8, set: u16, out: &mut [u8]) -> Result<usize, Refusal> {
    let message = out.first_chunk_mut().ok_or(Refusal::ShortBuffer)?;
    *message = head(id, set);
    Ok(message.len())
}

/// Writes a Capability Response with the blocks of the set.
pub(crate) fn write_capability(set: u16, capability: &Capability, out: &mut [u8]) -> Result<usize, Refusal> {
    let length = 4 + blocks_length(set, [20, 9, 6, 8]);
    let out = out.get_mut(..length).ok_or(Refusal::ShortBuffer)?;
    // The length is that of the normal form, so nothing is refused from here on.
    put_capability(set, capability, out).ok_or(Refusal::ShortBuffer)?;
    Ok(length)
}

/// Writes a Configuration with the blocks of the set, which are valid.
fn write_configuration(set: u16, configuration: &Configuration, out: &mut [u8]) -> Result<usize, Refusal> {
    let uwb = 19 + usize::from(configuration.uwb.key_length);
    let nan = 5 + usize::from(configuration.nan.name_length);
    let length = 6 + blocks_length(set, [uwb, 9, nan, 8]);
    let out = out.get_mut(..length).ok_or(Refusal::ShortBuffer)?;
    // As above.
    put_configuration(set, configuration, out).ok_or(Refusal::ShortBuffer)?;
    Ok(length)
}

/// Length of the blocks of a set, from the needs by technology ID.
fn blocks_length(set: u16, needs: [usize; 4]) -> usize {
    let mut length = 0;
    for (technology, need) in (UWB..).zip(needs) {
        if names(set, technology) {
            length += need;
        }
    }
    length
}

/// The first octets of every message.
fn head(id: u8, set: u16) -> [u8; 4] {
    let [low, high] = set.to_le_bytes();
    [VERSION, id, low, high]
}

fn put_capability(set: u16, capability: &Capability, out: &mut [u8]) -> Option<()> {
    let (start, mut out) = out.split_first_chunk_mut()?;
    *start = head(CAPABILITY_RESPONSE, set);
    if names(set, UWB) {
        out = put_uwb_capability(&capability.uwb, out)?;
    }
    if names(set, CS) {
        out = put_cs(capability.cs.security_types, &capability.cs.address, out)?;
    }
    if names(set, NAN) {
        let nan = &capability.nan;
        let block;
        (block, out) = out.split_first_chunk_mut()?;
        *block = [NAN, 6, nan.features, nan.periodic, nan.bandwidth, nan.receive_chains];
    }
    if names(set, RSSI) {
        put_rssi(&capability.rssi, out)?;
    }
    Some(())
}

fn put_configuration(set: u16, configuration: &Configuration, out: &mut [u8]) -> Option<()> {
    let (start, out) = out.split_first_chunk_mut()?;
    *start = head(CONFIGURATION, set);
    let (again, mut out) = out.split_first_chunk_mut()?;
    *again = set.to_le_bytes();
    if names(set, UWB) {
        out = put_uwb_configuration(&configuration.uwb, out)?;
    }
    if names(set, CS) {
        let cs = &configuration.cs;
        out = put_cs(cs.security_level, &cs.address, out)?;
    }
    if names(set, NAN) {
        out = put_nan_configuration(&configuration.nan, out)?;
    }
    if names(set, RSSI) {
        put_rssi(&configuration.rssi, out)?;
    }
    Some(())
}

fn put_uwb_capability<'a>(uwb: &UwbCapability, out: &'a mut [u8]) -> Option<&'a mut [u8]> {
    let (block, rest) = out.split_first_chunk_mut::<20>()?;
    block[0] = UWB;
    block[1] = 20;
    block[2..4].copy_from_slice(&uwb.address);
    block[4..8].copy_from_slice(&uwb.channels.to_le_bytes());
    block[8..12].copy_from_slice(&uwb.preamble_indexes.to_le_bytes());
    block[12..16].copy_from_slice(&uwb.config_ids.to_le_bytes());
    block[16..18].copy_from_slice(&uwb.shortest_interval.to_le_bytes());
    block[18] = uwb.shortest_slot;
    block[19] = uwb.roles;
    Some(rest)
}

fn put_uwb_configuration<'a>(uwb: &UwbConfiguration, out: &'a mut [u8]) -> Option<&'a mut [u8]> {
    let key = uwb.key.get(..uwb.key_length.into())?;
    let (block, rest) = out.split_first_chunk_mut::<15>()?;
    block[0] = UWB;
    block[1] = 19 + uwb.key_length;
    block[2..4].copy_from_slice(&uwb.address);
    block[4..8].copy_from_slice(&uwb.session_id.to_le_bytes());
    block[8] = uwb.config_id;
    block[9] = uwb.channel;
    block[10] = uwb.preamble_index;
    block[11..13].copy_from_slice(&uwb.interval.to_le_bytes());
    block[13] = uwb.slot;
    block[14] = uwb.key_length;
    let rest = put_octets(key, rest)?;
    let (block, rest) = rest.split_first_chunk_mut()?;
    *block = [uwb.country[0], uwb.country[1], uwb.role, uwb.mode];
    Some(rest)
}

fn put_nan_configuration<'a>(nan: &NanConfiguration, out: &'a mut [u8]) -> Option<&'a mut [u8]> {
    let name = nan.name.get(..nan.name_length.into())?;
    let (block, rest) = out.split_first_chunk_mut()?;
    *block = [NAN, 5 + nan.name_length, nan.name_length];
    let rest = put_octets(name, rest)?;
    let (block, rest) = rest.split_first_chunk_mut()?;
    *block = [nan.role, nan.periodic];
    Some(rest)
}

/// CS's block; its octet 2 is the security types or the security level.
fn put_cs<'a>(security: u8, address: &[u8; 6], out: &'a mut [u8]) -> Option<&'a mut [u8]> {
    let (block, rest) = out.split_first_chunk_mut::<9>()?;
    block[0] = CS;
    block[1] = 9;
    block[2] = security;
    block[3..].copy_from_slice(address);
    Some(rest)
}

fn put_rssi<'a>(rssi: &Rssi, out: &'a mut [u8]) -> Option<&'a mut [u8]> {
    let (block, rest) = out.split_first_chunk_mut::<8>()?;
    block[0] = RSSI;
    block[1] = 8;
    block[2..].copy_from_slice(&rssi.address);
    Some(rest)
}

fn put_octets<'a>(octets: &[u8], out: &'a mut [u8]) -> Option<&'a mut [u8]> {
    let (place, rest) = out.split_at_mut_checked(octets.len())?;
    place.copy_from_slice(octets);
    Some(rest)
}

#[cfg(test)]
pub(crate) mod tests {
    use super::*;
    use crate::reader::read;

    const ADDRESS: [u8; 6] = [0xA1, 0xA2, 0xA3, 0xA4, 0xA5, 0xA6];

    pub(crate) fn capability(set: u16) -> Record {
        let mut record = Record::ZERO;
        record.id = CAPABILITY_RESPONSE;
        record.set = set;
        let out = &mut record.capability;
        if names(set, UWB) {
            out.uwb = UwbCapability {
                address: [0xB1, 0xB2],
                channels: 0x0000_0220,
                preamble_indexes: 0x8000_0F01,
                config_ids: 0x0102_0304,
                shortest_interval: 600,
                shortest_slot: 2,
                roles: 0xFF,
            };
        }
        if names(set, CS) {
            out.cs.security_types = 0xFF;
            out.cs.address = ADDRESS;
        }
        if names(set, NAN) {
            out.nan = NanCapability {
                features: 3,
                periodic: 1,
                bandwidth: 0xFE,
                receive_chains: 4,
            };
        }
        if names(set, RSSI) {
            out.rssi.address = ADDRESS;
        }
        record
    }

    pub(crate) fn configuration(set: u16, key_length: u8, name_length: u8) -> Record {
        let mut record = Record::ZERO;
        record.id = CONFIGURATION;
        record.set = set;
        let out = &mut record.configuration;
        if names(set, UWB) {
            out.uwb = UwbConfiguration {
                address: [0xB1, 0xB2],
                session_id: 0x0102_0304,
                config_id: 255,
                channel: 9,
                preamble_index: 11,
                interval: 240,
                slot: 1,
                key_length,
                key: [0; 32],
                country: *b"AZ",
                role: 1,
                mode: 2,
            };
            out.uwb.key[..key_length.into()].fill(0xCC);
        }
        if names(set, CS) {
            out.cs.security_level = 4;
            out.cs.address = ADDRESS;
        }
        if names(set, NAN) {
            out.nan.name_length = name_length;
            out.nan.name[..name_length.into()].fill(b'n');
            out.nan.role = 1;
        }
        if names(set, RSSI) {
            out.rssi.address = ADDRESS;
        }
        record
    }

    /// Writes into buffers of every length; reads the normal form back, and
    /// every shorter start of it is refused with 2.
    fn round_trip(record: &Record) -> usize {
        let mut out = [0x55; MAX_MESSAGE];
        let length = write(record, &mut out).unwrap();
        assert!(out[length..].iter().all(|&octet| octet == 0x55));
        assert_eq!(read(&out[..length]), Ok(*record));
        for short in 0..length {
            assert_eq!(read(&out[..short]), Err(Refusal::EndsEarly));
            let mut buffer = [0x55; MAX_MESSAGE];
            let refusal = write(record, &mut buffer[..short]);
            assert_eq!(refusal, Err(Refusal::ShortBuffer));
            assert_eq!(buffer, [0x55; MAX_MESSAGE]);
        }
        length
    }

    #[test]
    fn round_trips() {
        for set in 0..=KNOWN {
            for id in [CAPABILITY_REQUEST, CONFIGURATION_RESPONSE, STOP, STOP_RESPONSE] {
                let record = Record {
                    id,
                    set,
                    ..Record::ZERO
                };
                assert_eq!(round_trip(&record), 4);
            }
            round_trip(&capability(set));
            for (key_length, name_length) in [(8, 1), (16, 2), (32, 63), (8, 64)] {
                round_trip(&configuration(set, key_length, name_length));
            }
        }
        assert_eq!(round_trip(&capability(KNOWN)), 47);
        assert_eq!(round_trip(&configuration(KNOWN, 32, 64)), 143);
    }

    #[test]
    fn normal_form_of_a_capability() {
        let mut out = [0; 47];
        assert_eq!(write(&capability(KNOWN), &mut out), Ok(47));
        let head = [1, 1, 0x0F, 0];
        let uwb = [
            0, 20, 0xB1, 0xB2, 0x20, 2, 0, 0, 1, 0x0F, 0, 0x80, 4, 3, 2, 1, 0x58, 2, 2, 0xFF,
        ];
        let cs = [1, 9, 0xFF, 0xA1, 0xA2, 0xA3, 0xA4, 0xA5, 0xA6];
        let nan = [2, 6, 3, 1, 0xFE, 4];
        let rssi = [3, 8, 0xA1, 0xA2, 0xA3, 0xA4, 0xA5, 0xA6];
        assert_eq!(out[..], [&head[..], &uwb, &cs, &nan, &rssi].concat());
    }

    #[test]
    fn normal_form_of_a_configuration() {
        let mut out = [0; 56];
        assert_eq!(write(&configuration(KNOWN, 8, 1), &mut out[..]), Ok(56));
        let head = [1, 2, 0x0F, 0, 0x0F, 0];
        let uwb = [
            0, 27, 0xB1, 0xB2, 4, 3, 2, 1, 255, 9, 11, 240, 0, 1, 8, 0xCC, 0xCC, 0xCC, 0xCC, 0xCC, 0xCC, 0xCC, 0xCC,
            0x41, 0x5A, 1, 2,
        ];
        let cs = [1, 9, 4, 0xA1, 0xA2, 0xA3, 0xA4, 0xA5, 0xA6];
        let nan = [2, 6, 1, b'n', 1, 0];
        let rssi = [3, 8, 0xA1, 0xA2, 0xA3, 0xA4, 0xA5, 0xA6];
        assert_eq!(out[..], [&head[..], &uwb, &cs, &nan, &rssi].concat());
    }

    #[test]
    fn records_that_are_not_valid() {
        let refused = |base: Record, change: fn(&mut Record)| {
            let mut record = base;
            change(&mut record);
            assert!(is_valid(&base) && !is_valid(&record));
            // 12 comes before 11.
            assert_eq!(write(&record, &mut []), Err(Refusal::NotValid));
        };
        let stop = Record {
            id: STOP,
            ..Record::ZERO
        };
        refused(stop, |r| r.id = 8);
        refused(stop, |r| r.set = 0x10);
        refused(stop, |r| r.capability.cs.security_types = 1);
        refused(stop, |r| r.configuration.nan.name[63] = 1);
        refused(capability(KNOWN), |r| r.configuration.rssi.address[5] = 1);
        refused(capability(KNOWN), |r| r.capability.uwb.shortest_interval = 95);
        refused(capability(KNOWN), |r| r.capability.uwb.shortest_slot = 0);
        refused(capability(KNOWN), |r| r.capability.nan.periodic = 2);
        let full = configuration(KNOWN, 16, 5);
        refused(full, |r| r.capability.rssi.address[0] = 1);
        refused(full, |r| r.configuration.uwb.key[16] = 1);
        refused(full, |r| r.configuration.uwb.key_length = 33);
        refused(full, |r| r.configuration.uwb.country = *b"Zz");
        refused(full, |r| r.configuration.cs.security_level = 5);
        refused(full, |r| r.configuration.nan.name_length = 0);
        refused(full, |r| r.configuration.nan.name_length = 65);
        refused(full, |r| r.configuration.nan.name[5] = 1);
        refused(full, |r| r.configuration.nan.role = 2);
    }

    #[test]
    fn fields_of_an_absent_technology() {
        for technology in [UWB, CS, NAN, RSSI] {
            let mut record = capability(KNOWN);
            record.set ^= 1 << technology;
            assert!(!is_valid(&record));
            let mut record = configuration(KNOWN, 16, 5);
            record.set ^= 1 << technology;
            assert!(!is_valid(&record));
        }
    }

    #[test]
    fn changed_messages() {
        // What is accepted is valid and is read back from its normal form.
        let mut state = 1u32;
        let mut random = move || {
            state ^= state << 13;
            state ^= state >> 17;
            state ^= state << 5;
            state as usize
        };
        let mut accepted = 0;
        for round in 0..200_000 {
            let set = random() as u16 & KNOWN;
            let record = match round % 2 {
                0 => capability(set),
                _ => configuration(set, [8, 16, 32][random() % 3], 1 + random() as u8 % 64),
            };
            let mut message = [0; MAX_MESSAGE];
            let length = write(&record, &mut message).unwrap();
            for _ in 0..1 + random() % 2 {
                message[random() % length] ^= 1 << (random() % 8);
            }
            if let Ok(record) = read(&message[..length]) {
                accepted += 1;
                let mut out = [0; MAX_MESSAGE];
                let length = write(&record, &mut out).unwrap();
                assert_eq!(read(&out[..length]), Ok(record));
            }
        }
        assert!(accepted > 10_000);
    }
}
