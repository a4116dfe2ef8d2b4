//! Profiles for sessions: valid ones of every set, and faults that make a record or a choice of replies no profile.
use crate::random::Random;
use crate::shapes::INTERVALS;
use second::{Capability, CsCapability, NanCapability, Record, Rssi, UwbCapability};

/// Bits of a set: any, none, all, and the ends.
fn bits(random: &mut Random) -> u32 {
    match random.below(16) {
        0 => 0,
        1 => u32::MAX,
        2 => 1,
        3 => 1 << 31,
        4 => 1 << 31 | 1,
        _ => random.next() as u32,
    }
}

fn address<const N: usize>(random: &mut Random) -> [u8; N] {
    std::array::from_fn(|_| random.octet())
}

/// A valid profile of this set.
pub fn any(random: &mut Random, set: u16) -> Record {
    let mut record = Record {
        id: 1,
        set,
        ..Record::default()
    };
    let capability = &mut record.capability;
    if set & 1 != 0 {
        capability.uwb = UwbCapability {
            address: address(random),
            channels: bits(random),
            preamble_indexes: bits(random),
            config_ids: bits(random),
            shortest_interval: random.pick(&INTERVALS),
            shortest_slot: random.pick(&[1, 2]),
            roles: random.pick(&[0, 1, 1, 2, 2, 3, 3, 0xFC, 0xFD, 0xFE, 0xFF]),
        };
    }
    if set & 2 != 0 {
        let any = random.octet();
        capability.cs = CsCapability {
            security_types: random.pick(&[any, any, 0, 1, 0x10, 0x1F, 0xE0, 0xFF]),
            address: address(random),
        };
    }
    if set & 4 != 0 {
        capability.nan = NanCapability {
            features: random.octet(),
            periodic: random.below(2) as u8,
            bandwidth: random.octet(),
            receive_chains: random.octet(),
        };
    }
    if set & 8 != 0 {
        capability.rssi = Rssi {
            address: address(random),
        };
    }
    record
}

/// What is wrong with a profile.
#[derive(Clone, Copy, PartialEq, Eq, Hash, Debug)]
pub enum Fault {
    Replies,
    ReservedBit,
    Interval,
    Slot,
    Periodic,
    /// The set has not the technology of this ID, but one of its fields is not zero.
    Absent(u8),
    /// The record is another message's.
    Id,
    /// The record has a Configuration's fields too.
    Configuration,
}

impl Fault {
    pub const ALL: [Fault; 11] = [
        Fault::Replies,
        Fault::ReservedBit,
        Fault::Interval,
        Fault::Slot,
        Fault::Periodic,
        Fault::Absent(0),
        Fault::Absent(1),
        Fault::Absent(2),
        Fault::Absent(3),
        Fault::Id,
        Fault::Configuration,
    ];

    /// Those that a session can have too, as it has no record.
    pub const OF_SESSIONS: &'static [Fault] = Fault::ALL.split_at(9).0;

    pub fn put(self, random: &mut Random, record: &mut Record, replies: &mut u8) {
        let capability = &mut record.capability;
        match self {
            Fault::Replies => *replies = random.pick(&[3, 4, 128, 255]),
            Fault::ReservedBit => record.set |= 1 << (4 + random.below(12)),
            Fault::Interval => capability.uwb.shortest_interval = random.pick(&[1, 95, 97, 121, 352, 599, 601, 65535]),
            Fault::Slot => capability.uwb.shortest_slot = random.pick(&[3, 4, 255]),
            Fault::Periodic => capability.nan.periodic = random.pick(&[2, 3, 255]),
            Fault::Absent(technology) => {
                record.set &= !(1 << technology);
                put_one(random, capability, technology);
            }
            Fault::Id => {
                record.id = random.pick(&[0, 2, 3, 4, 5, 6, 7, 8, 255]);
                *capability = random.pick(&[*capability, Capability::default()]);
            }
            Fault::Configuration => record.configuration.nan.name[random.below(64)] = 1,
        }
    }
}

/// A technology's fields, all zero but one.
fn put_one(random: &mut Random, capability: &mut Capability, technology: u8) {
    let Capability { uwb, cs, nan, rssi } = capability;
    match technology {
        0 => {
            *uwb = UwbCapability::default();
            match random.below(7) {
                0 => uwb.address[random.below(2)] = 1,
                1 => uwb.channels = 1 << random.below(32),
                2 => uwb.preamble_indexes = 1 << random.below(32),
                3 => uwb.config_ids = 1 << random.below(32),
                4 => uwb.shortest_interval = 96,
                5 => uwb.shortest_slot = 1,
                _ => uwb.roles = 1,
            }
        }
        1 => {
            *cs = CsCapability::default();
            match random.below(2) {
                0 => cs.security_types = 1,
                _ => cs.address[random.below(6)] = 1,
            }
        }
        2 => {
            *nan = NanCapability::default();
            match random.below(4) {
                0 => nan.features = 1,
                1 => nan.periodic = 1,
                2 => nan.bandwidth = 1,
                _ => nan.receive_chains = 1,
            }
        }
        _ => {
            *rssi = Rssi::default();
            rssi.address[random.below(6)] = 1;
        }
    }
}
