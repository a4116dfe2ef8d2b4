//! The record of a message: every field of the layouts, used or not.
//! A record can hold anything; `is_valid` tells the valid ones.

/// Longest message, in octets.
pub const MAX_MESSAGE: usize = 256;

/// The version that is written.
pub const VERSION: u8 = 1;

// Message IDs; all others are reserved.
pub const CAPABILITY_REQUEST: u8 = 0;
pub const CAPABILITY_RESPONSE: u8 = 1;
pub const CONFIGURATION: u8 = 2;
pub const CONFIGURATION_RESPONSE: u8 = 3;
pub const STOP: u8 = 6;
pub const STOP_RESPONSE: u8 = 7;

// Technology IDs; technology n has bit n in a set.
pub const UWB: u8 = 0;
pub const CS: u8 = 1;
pub const NAN: u8 = 2;
pub const RSSI: u8 = 3;

/// Bits of the four technologies; the other bits of a set are reserved.
pub const KNOWN: u16 = 0x000F;

/// Whether a set names a technology.
#[inline]
pub const fn names(set: u16, technology: u8) -> bool {
    set & 1 << technology != 0
}

#[derive(Clone, Copy, PartialEq, Eq, Debug, Default)]
pub struct Record {
    pub id: u8,
    pub set: u16,
    /// Used by message 1 only.
    pub capability: Capability,
    /// Used by message 2 only.
    pub configuration: Configuration,
}

#[derive(Clone, Copy, PartialEq, Eq, Debug, Default)]
pub struct Capability {
    pub uwb: UwbCapability,
    pub cs: CsCapability,
    pub nan: NanCapability,
    pub rssi: Rssi,
}

#[derive(Clone, Copy, PartialEq, Eq, Debug, Default)]
pub struct Configuration {
    pub uwb: UwbConfiguration,
    pub cs: CsConfiguration,
    pub nan: NanConfiguration,
    pub rssi: Rssi,
}

#[derive(Clone, Copy, PartialEq, Eq, Debug, Default)]
pub struct UwbCapability {
    pub address: [u8; 2],
    pub channels: u32,
    pub preamble_indexes: u32,
    pub config_ids: u32,
    /// In ms.
    pub shortest_interval: u16,
    /// In ms.
    pub shortest_slot: u8,
    pub roles: u8,
}

#[derive(Clone, Copy, PartialEq, Eq, Debug, Default)]
pub struct UwbConfiguration {
    pub address: [u8; 2],
    pub session_id: u32,
    pub config_id: u8,
    pub channel: u8,
    pub preamble_index: u8,
    /// In ms.
    pub interval: u16,
    /// In ms.
    pub slot: u8,
    pub key_length: u8,
    /// The first `key_length` octets are used.
    pub key: [u8; 32],
    pub country: [u8; 2],
    pub role: u8,
    pub mode: u8,
}

#[derive(Clone, Copy, PartialEq, Eq, Debug, Default)]
pub struct CsCapability {
    pub security_types: u8,
    pub address: [u8; 6],
}

#[derive(Clone, Copy, PartialEq, Eq, Debug, Default)]
pub struct CsConfiguration {
    pub security_level: u8,
    pub address: [u8; 6],
}

#[derive(Clone, Copy, PartialEq, Eq, Debug, Default)]
pub struct NanCapability {
    pub features: u8,
    pub periodic: u8,
    pub bandwidth: u8,
    pub receive_chains: u8,
}

#[derive(Clone, Copy, PartialEq, Eq, Debug)]
pub struct NanConfiguration {
    pub name_length: u8,
    /// The first `name_length` octets are used.
    pub name: [u8; 64],
    pub role: u8,
    pub periodic: u8,
}

#[derive(Clone, Copy, PartialEq, Eq, Debug, Default)]
pub struct Rssi {
    pub address: [u8; 6],
}

impl Record {
    pub const ZERO: Self = Record {
        id: 0,
        set: 0,
        capability: Capability::ZERO,
        configuration: Configuration::ZERO,
    };
}

impl Capability {
    pub const ZERO: Self = Capability {
        uwb: UwbCapability {
            address: [0; 2],
            channels: 0,
            preamble_indexes: 0,
            config_ids: 0,
            shortest_interval: 0,
            shortest_slot: 0,
            roles: 0,
        },
        cs: CsCapability {
            security_types: 0,
            address: [0; 6],
        },
        nan: NanCapability {
            features: 0,
            periodic: 0,
            bandwidth: 0,
            receive_chains: 0,
        },
        rssi: Rssi { address: [0; 6] },
    };
}

impl Configuration {
    pub const ZERO: Self = Configuration {
        uwb: UwbConfiguration {
            address: [0; 2],
            session_id: 0,
            config_id: 0,
            channel: 0,
            preamble_index: 0,
            interval: 0,
            slot: 0,
            key_length: 0,
            key: [0; 32],
            country: [0; 2],
            role: 0,
            mode: 0,
        },
        cs: CsConfiguration {
            security_level: 0,
            address: [0; 6],
        },
        nan: NanConfiguration {
            name_length: 0,
            name: [0; 64],
            role: 0,
            periodic: 0,
        },
        rssi: Rssi { address: [0; 6] },
    };
}

impl Default for NanConfiguration {
    fn default() -> Self {
        Configuration::ZERO.nan
    }
}
