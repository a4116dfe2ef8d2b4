//! Records, laid out as the library and `include/raydulcimer.h` have them.
//!
//! A record given to [`write`](crate::write()) may hold anything; the comments name what is allowed in a valid one.
use crate::{MessageId, Refusal, Technologies};
use core::fmt;

macro_rules! kinds {
    ($($(#[$doc:meta])* $name:ident($of:ty);)*) => {$(
        $(#[$doc])*
        #[derive(Clone, Copy, PartialEq, Eq, Debug, Default)]
        #[repr(transparent)]
        pub struct $name(pub $of);
    )*};
}

kinds! {
    /// A UWB channel.
    Channel(u8);
    /// A UWB preamble index.
    PreambleIndex(u8);
    /// A UWB config ID.
    ConfigId(u8);
    /// Bit n for channel n.
    Channels(u32);
    /// Bit n for preamble index n + 1.
    PreambleIndexes(u32);
    /// Bit n for config ID n.
    ConfigIds(u32);
}

/// UWB's block of message 1. Intervals and slots are in ms.
#[derive(Clone, Copy, PartialEq, Eq, Debug, Default)]
#[repr(C)]
#[allow(missing_docs)]
pub struct UwbCapability {
    pub address: [u8; 2],
    pub channels: Channels,
    pub preamble_indexes: PreambleIndexes,
    pub config_ids: ConfigIds,
    /// 96, 120, 240, 600
    pub shortest_interval: u16,
    /// 1, 2
    pub shortest_slot: u8,
    pub roles: u8,
}

/// CS's block of message 1.
#[derive(Clone, Copy, PartialEq, Eq, Debug, Default)]
#[repr(C)]
#[allow(missing_docs)]
pub struct CsCapability {
    /// bit n for level n
    pub security_types: u8,
    pub address: [u8; 6],
}

/// NAN's block of message 1.
#[derive(Clone, Copy, PartialEq, Eq, Debug, Default)]
#[repr(C)]
#[allow(missing_docs)]
pub struct NanCapability {
    pub features: u8,
    /// 0, 1
    pub periodic: u8,
    pub bandwidth: u8,
    pub receive_chains: u8,
}

/// RSSI's block of messages 1 and 2.
#[derive(Clone, Copy, PartialEq, Eq, Debug, Default)]
#[repr(C)]
#[allow(missing_docs)]
pub struct Rssi {
    pub address: [u8; 6],
}

/// UWB's block of message 2. `Debug` does not print the key.
#[derive(Clone, Copy, PartialEq, Eq, Default)]
#[repr(C)]
#[allow(missing_docs)]
pub struct UwbConfiguration {
    pub address: [u8; 2],
    pub session_id: u32,
    pub config_id: ConfigId,
    pub channel: Channel,
    pub preamble_index: PreambleIndex,
    /// 96, 120, 240, 600
    pub interval: u16,
    /// 1, 2
    pub slot: u8,
    /// 8, 16, 32
    pub key_length: u8,
    /// zero past the key length; [`key()`](UwbConfiguration::key()) has the key alone
    pub key: [u8; 32],
    /// letters A to Z, or `b"00"` if not known
    pub country: [u8; 2],
    /// 1, 2
    pub role: u8,
    /// 1, 2
    pub mode: u8,
}

impl UwbConfiguration {
    /// The key: as many octets as the key length says, and all 32 if it says more.
    #[must_use]
    pub fn key(&self) -> &[u8] {
        first(&self.key, self.key_length)
    }

    /// Sets key and key length, and zeros past the key. Whether the length is allowed is said by [`write`](crate::write()).
    ///
    /// # Errors
    ///
    /// [`Refusal::NotValid`] for more than 32 octets; nothing is set.
    pub fn set_key(&mut self, key: &[u8]) -> Result<(), Refusal> {
        self.key_length = put(&mut self.key, key)?;
        Ok(())
    }
}

impl fmt::Debug for UwbConfiguration {
    fn fmt(&self, f: &mut fmt::Formatter<'_>) -> fmt::Result {
        // Each field by name, so that a new one cannot be forgotten here.
        let UwbConfiguration {
            address,
            session_id,
            config_id,
            channel,
            preamble_index,
            interval,
            slot,
            key_length,
            key: _,
            country,
            role,
            mode,
        } = self;
        f.debug_struct("UwbConfiguration")
            .field("address", address)
            .field("session_id", session_id)
            .field("config_id", config_id)
            .field("channel", channel)
            .field("preamble_index", preamble_index)
            .field("interval", interval)
            .field("slot", slot)
            .field("key", &format_args!("[{key_length} octets]"))
            .field("country", country)
            .field("role", role)
            .field("mode", mode)
            .finish()
    }
}

/// CS's block of message 2.
#[derive(Clone, Copy, PartialEq, Eq, Debug, Default)]
#[repr(C)]
#[allow(missing_docs)]
pub struct CsConfiguration {
    /// 0 to 4
    pub security_level: u8,
    pub address: [u8; 6],
}

/// NAN's block of message 2.
#[derive(Clone, Copy, PartialEq, Eq, Debug)]
#[repr(C)]
#[allow(missing_docs)]
pub struct NanConfiguration {
    /// 1 to 64
    pub name_length: u8,
    /// zero past the name length; [`name()`](NanConfiguration::name()) has the name alone
    pub name: [u8; 64],
    /// 0, 1
    pub role: u8,
    /// 0, 1
    pub periodic: u8,
}

impl Default for NanConfiguration {
    fn default() -> Self {
        NanConfiguration {
            name_length: 0,
            name: [0; 64],
            role: 0,
            periodic: 0,
        }
    }
}

impl NanConfiguration {
    /// The name: as many octets as the name length says, and all 64 if it says more.
    #[must_use]
    pub fn name(&self) -> &[u8] {
        first(&self.name, self.name_length)
    }

    /// Sets name and name length, and zeros past the name. Whether the length is allowed is said by
    /// [`write`](crate::write()).
    ///
    /// # Errors
    ///
    /// [`Refusal::NotValid`] for more than 64 octets; nothing is set.
    pub fn set_name(&mut self, name: &[u8]) -> Result<(), Refusal> {
        self.name_length = put(&mut self.name, name)?;
        Ok(())
    }
}

/// The first octets of a field, and all of it if the length is above its own.
fn first(field: &[u8], length: u8) -> &[u8] {
    field.get(..length.into()).unwrap_or(field)
}

/// Puts octets at the start of a field and zeros after them, and returns how many they are.
fn put(field: &mut [u8], octets: &[u8]) -> Result<u8, Refusal> {
    let (start, rest) = field.split_at_mut_checked(octets.len()).ok_or(Refusal::NotValid)?;
    start.copy_from_slice(octets);
    rest.fill(0);
    Ok(octets.len() as u8)
}

/// The blocks of message 1. The fields of a technology that the record does not have are zero.
#[derive(Clone, Copy, PartialEq, Eq, Debug, Default)]
#[repr(C)]
#[allow(missing_docs)]
pub struct Capability {
    pub uwb: UwbCapability,
    pub cs: CsCapability,
    pub nan: NanCapability,
    pub rssi: Rssi,
}

/// The blocks of message 2. The fields of a technology that the record does not have are zero.
#[derive(Clone, Copy, PartialEq, Eq, Debug, Default)]
#[repr(C)]
#[allow(missing_docs)]
pub struct Configuration {
    pub uwb: UwbConfiguration,
    pub cs: CsConfiguration,
    pub nan: NanConfiguration,
    pub rssi: Rssi,
}

/// A message without its version.
#[derive(Clone, Copy, PartialEq, Eq, Debug, Default)]
#[repr(C)]
pub struct Record {
    /// The message's ID, which is not reserved.
    pub id: MessageId,
    /// The technologies, without reserved bits.
    pub set: Technologies,
    /// Zero but in message 1.
    pub capability: Capability,
    /// Zero but in message 2.
    pub configuration: Configuration,
}
