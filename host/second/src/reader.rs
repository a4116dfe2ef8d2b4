//! The reader: one pass over the message, the first fault in the order of the
//! rules deciding the refusal.

use crate::record::*;
use crate::refusal::Refusal;
use crate::valid::*;

/// Reads a message of any length.
pub fn read(message: &[u8]) -> Result<Record, Refusal> {
    let message = Message::new(message)?;
    let mut record = Record::ZERO;
    record.id = message.id;
    record.set = message.named();
    match message.id {
        CAPABILITY_RESPONSE => message.capability(&mut record.capability)?,
        CONFIGURATION => message.configuration(&mut record.configuration)?,
        _ => message.nothing_else()?,
    }
    Ok(record)
}

/// A message whose head and first set are read.
pub(crate) struct Message<'a> {
    version: u8,
    pub id: u8,
    /// Reserved bits included.
    set: u16,
    /// From the first set to the end of the message.
    rest: &'a [u8],
}

impl<'a> Message<'a> {
    #[inline]
    pub fn new(message: &'a [u8]) -> Result<Self, Refusal> {
        if message.len() > MAX_MESSAGE {
            return Err(Refusal::TooLong);
        }
        let (&[version, id], rest) = message.split_first_chunk().ok_or(Refusal::EndsEarly)?;
        if matches!(id, 4 | 5 | 8..) {
            return Err(Refusal::ReservedId);
        }
        if version == 0 || (version > VERSION && id > CAPABILITY_RESPONSE) {
            return Err(Refusal::Version);
        }
        let (set, rest) = take_set(rest)?;
        Ok(Message { version, id, set, rest })
    }

    /// The technologies that the message names.
    pub fn named(&self) -> u16 {
        self.set & KNOWN
    }

    /// Reads the rest of a message that carries a set and nothing else.
    pub fn nothing_else(&self) -> Result<(), Refusal> {
        self.end(self.rest)
    }

    /// Reads the rest of a Capability Response.
    pub fn capability(&self, out: &mut Capability) -> Result<(), Refusal> {
        let mut walk = Walk {
            due: self.set,
            rest: self.rest,
        };
        read_capability(&mut walk, out)?;
        self.end(walk.rest)
    }

    /// Reads the rest of a Configuration.
    pub fn configuration(&self, out: &mut Configuration) -> Result<(), Refusal> {
        let (again, rest) = take_set(self.rest)?;
        if again != self.set {
            return Err(Refusal::SetsDiffer);
        }
        let mut walk = Walk { due: self.set, rest };
        read_configuration(&mut walk, out)?;
        self.end(walk.rest)
    }

    /// Only a later version may have octets left over.
    fn end(&self, left: &[u8]) -> Result<(), Refusal> {
        if self.version == VERSION && !left.is_empty() {
            return Err(Refusal::LeftOver);
        }
        Ok(())
    }
}

/// Takes a technology set, reserved bits included.
fn take_set(rest: &[u8]) -> Result<(u16, &[u8]), Refusal> {
    let (&set, rest) = rest.split_first_chunk().ok_or(Refusal::EndsEarly)?;
    Ok((u16::from_le_bytes(set), rest))
}

fn read_capability(walk: &mut Walk, out: &mut Capability) -> Result<(), Refusal> {
    while walk.due != 0 {
        let (id, size) = walk.head()?;
        match id {
            UWB => uwb_capability(walk.block(size)?, &mut out.uwb)?,
            CS => {
                let (&[_, _, security_types, ref address @ ..], _) = walk.block::<9>(size)?;
                out.cs.security_types = security_types;
                out.cs.address = *address;
            }
            NAN => {
                let (&[_, _, features, periodic, bandwidth, receive_chains], _) = walk.block(size)?;
                allow(is_periodic(periodic))?;
                out.nan = NanCapability {
                    features,
                    periodic,
                    bandwidth,
                    receive_chains,
                };
            }
            RSSI => out.rssi = rssi(walk.block(size)?),
            _ => _ = walk.block::<2>(size)?,
        }
    }
    Ok(())
}

fn read_configuration(walk: &mut Walk, out: &mut Configuration) -> Result<(), Refusal> {
    while walk.due != 0 {
        let (id, size) = walk.head()?;
        match id {
            UWB => uwb_configuration(walk.block(size)?, &mut out.uwb)?,
            CS => {
                let (&[_, _, security_level, ref address @ ..], _) = walk.block::<9>(size)?;
                allow(is_security_level(security_level))?;
                out.cs.security_level = security_level;
                out.cs.address = *address;
            }
            NAN => nan_configuration(walk.block(size)?, &mut out.nan)?,
            RSSI => out.rssi = rssi(walk.block(size)?),
            _ => _ = walk.block::<2>(size)?,
        }
    }
    Ok(())
}

fn uwb_capability((b, _): (&[u8; 20], &[u8]), out: &mut UwbCapability) -> Result<(), Refusal> {
    out.address = [b[2], b[3]];
    out.channels = u32::from_le_bytes([b[4], b[5], b[6], b[7]]);
    out.preamble_indexes = u32::from_le_bytes([b[8], b[9], b[10], b[11]]);
    out.config_ids = u32::from_le_bytes([b[12], b[13], b[14], b[15]]);
    out.shortest_interval = u16::from_le_bytes([b[16], b[17]]);
    out.shortest_slot = b[18];
    out.roles = b[19];
    allow(is_interval(out.shortest_interval) && is_slot(out.shortest_slot))
}

fn uwb_configuration((b, more): (&[u8; 15], &[u8]), out: &mut UwbConfiguration) -> Result<(), Refusal> {
    out.address = [b[2], b[3]];
    out.session_id = u32::from_le_bytes([b[4], b[5], b[6], b[7]]);
    out.config_id = b[8];
    out.channel = b[9];
    out.preamble_index = b[10];
    out.interval = u16::from_le_bytes([b[11], b[12]]);
    out.slot = b[13];
    out.key_length = b[14];
    allow(is_interval(out.interval) && is_slot(out.slot) && is_key_length(out.key_length))?;
    // Fails exactly if the size is below 19 + k.
    let Some((key, &[first, second, role, mode, ..])) = more.split_at_checked(b[14].into()) else {
        return Err(Refusal::BlockSize);
    };
    out.key[..key.len()].copy_from_slice(key);
    out.country = [first, second];
    out.role = role;
    out.mode = mode;
    allow(is_country(out.country) && is_uwb_role(role) && is_uwb_mode(mode))
}

fn nan_configuration(
    (&[_, _, name_length], more): (&[u8; 3], &[u8]),
    out: &mut NanConfiguration,
) -> Result<(), Refusal> {
    allow(is_name_length(name_length))?;
    // Fails exactly if the size is below 5 + n.
    let Some((name, &[role, periodic, ..])) = more.split_at_checked(name_length.into()) else {
        return Err(Refusal::BlockSize);
    };
    out.name_length = name_length;
    out.name[..name.len()].copy_from_slice(name);
    out.role = role;
    out.periodic = periodic;
    allow(is_nan_role(role) && is_periodic(periodic))
}

fn rssi((&[_, _, ref address @ ..], _): (&[u8; 8], &[u8])) -> Rssi {
    Rssi { address: *address }
}

fn allow(allowed: bool) -> Result<(), Refusal> {
    if allowed {
        Ok(())
    } else {
        Err(Refusal::Field)
    }
}

/// The walk over the blocks of a message.
struct Walk<'a> {
    /// Bits of the blocks that are still to come, reserved bits included.
    due: u16,
    /// From the next block to the end of the message.
    rest: &'a [u8],
}

impl<'a> Walk<'a> {
    /// ID and size of the next block, whose bit is then no longer due.
    #[inline]
    fn head(&mut self) -> Result<(u8, u8), Refusal> {
        let &[id, size, ..] = self.rest else {
            return Err(Refusal::EndsEarly);
        };
        let bit = 1u16.checked_shl(id.into()).unwrap_or(0);
        if self.due & bit == 0 {
            return Err(Refusal::BlockId);
        }
        self.due ^= bit;
        Ok((id, size))
    }

    /// Takes the next block: its first `NEED` octets, head included, and its
    /// other octets.
    #[inline]
    fn block<const NEED: usize>(&mut self, size: u8) -> Result<(&'a [u8; NEED], &'a [u8]), Refusal> {
        let size = usize::from(size);
        if size < NEED {
            return Err(Refusal::BlockSize);
        }
        let (block, rest) = (self.rest.split_at_checked(size)).ok_or(Refusal::EndsEarly)?;
        self.rest = rest;
        block.split_first_chunk().ok_or(Refusal::BlockSize)
    }
}

#[cfg(test)]
mod tests {
    use super::*;
    use crate::writer::write;

    /// Octets of a message in hex.
    fn hex(text: &str) -> Vec<u8> {
        let octet = |word| u8::from_str_radix(word, 16).unwrap();
        text.split_whitespace().map(octet).collect()
    }

    /// ID and set, or the number of the refusal.
    fn answer(text: &str) -> Result<(u8, u16), u8> {
        match read(&hex(text)) {
            Ok(record) => Ok((record.id, record.set)),
            Err(refusal) => Err(refusal.number()),
        }
    }

    /// Whether an accepted message is its own normal form.
    fn is_normal(text: &str) -> bool {
        let message = hex(text);
        let mut out = [0; MAX_MESSAGE];
        let length = write(&read(&message).unwrap(), &mut out).unwrap();
        out[..length] == message[..]
    }

    #[test]
    fn heads_and_sets() {
        assert_eq!(answer(""), Err(2));
        assert_eq!(answer("01"), Err(2));
        assert_eq!(answer("01 00 09"), Err(2));
        assert_eq!(answer("01 00 09 00"), Ok((0, 9)));
        assert_eq!(answer("01 00 09 00 00"), Err(9));
        assert_eq!(answer("03 00 19 00 AA"), Ok((0, 9)));
        assert_eq!(answer("00 06 01 00"), Err(4));
        assert_eq!(answer("03 06 01 00"), Err(4));
        assert_eq!(answer("01 02 02 00 0A 00"), Err(5));
        assert_eq!(answer("01 02 00 00 00 00"), Ok((2, 0)));
        assert_eq!(answer("03 08 00"), Err(3));
        assert_eq!(answer("00 04"), Err(3));
        assert_eq!(answer("01 02 02 00 0A"), Err(2));
        assert_eq!(answer("01 02 02 10 02 00"), Err(5));
    }

    #[test]
    fn reserved_ids() {
        for id in 0..=255 {
            let reserved = !matches!(id, 0..=3 | 6 | 7);
            let refusal = read(&[0, id]).unwrap_err().number();
            assert_eq!(refusal, if reserved { 3 } else { 4 });
            let refusal = read(&[2, id]).unwrap_err().number();
            assert_eq!(refusal, [3, 4, 2][usize::from(!reserved) + usize::from(id < 2)]);
        }
    }

    #[test]
    fn rssi_blocks() {
        assert_eq!(answer("01 01 08 00 03 08 A1 A2 A3 A4 A5 A6"), Ok((1, 8)));
        assert_eq!(answer("01 01 08 00 03 07 A1 A2 A3 A4 A5"), Err(6));
        assert_eq!(answer("01 01 08 00 03 08 A1"), Err(2));
        assert_eq!(answer("01 01 08 00 00 14"), Err(7));
        assert_eq!(answer("01 01 08 00 00"), Err(2));
        assert_eq!(answer("01 01 08 00"), Err(2));
        let longer = "01 01 08 00 03 09 A1 A2 A3 A4 A5 A6 A7";
        assert_eq!(answer(longer), Ok((1, 8)));
        assert!(!is_normal(longer));
    }

    #[test]
    fn cs_security_level() {
        let level_5 = "01 02 02 00 02 00 01 09 05 A1 A2 A3 A4 A5 A6";
        let level_4 = "01 02 02 00 02 00 01 09 04 A1 A2 A3 A4 A5 A6";
        assert_eq!(answer(level_5), Err(8));
        assert_eq!(answer(level_4), Ok((2, 2)));
        assert!(is_normal(level_4));
    }

    #[test]
    fn rssi_before_cs() {
        let message = "01 01 0A 00 03 08 A1 A2 A3 A4 A5 A6 01 09 1F B1 B2 B3 B4 B5 B6";
        assert_eq!(answer(message), Ok((1, 0x0A)));
        assert!(!is_normal(message));
        let capability = read(&hex(message)).unwrap().capability;
        assert_eq!(capability.rssi.address, [0xA1, 0xA2, 0xA3, 0xA4, 0xA5, 0xA6]);
        assert_eq!(capability.cs.address, [0xB1, 0xB2, 0xB3, 0xB4, 0xB5, 0xB6]);
        assert_eq!(capability.cs.security_types, 0x1F);
    }

    #[test]
    fn longest_message() {
        let mut message = [0; 257];
        message[0] = 2;
        assert_eq!(read(&message), Err(Refusal::TooLong));
        assert_eq!(read(&message[..256]), Ok(Record::ZERO));
    }

    #[test]
    fn reserved_blocks() {
        // A newer phone's blocks are counted, passed over and left out.
        let newer = "01 01 18 00 04 03 AA 03 08 A1 A2 A3 A4 A5 A6";
        assert_eq!(answer(newer), Ok((1, 8)));
        assert!(!is_normal(newer));
        assert_eq!(answer("01 01 18 00 03 08 A1 A2 A3 A4 A5 A6"), Err(2));
        assert_eq!(answer("01 01 00 80 0F 02"), Ok((1, 0)));
        assert_eq!(answer("01 01 00 80 0F 01"), Err(6));
        assert_eq!(answer("01 01 00 80 0F 03"), Err(2));
        assert_eq!(answer("01 01 00 C0 0F 02 0F 02"), Err(7));
        assert_eq!(answer("01 01 FF FF 10 02"), Err(7));
        assert_eq!(answer("01 01 FF FF FF 02"), Err(7));
        assert_eq!(answer("01 01 00 80 0F 02 00"), Err(9));
        assert_eq!(answer("02 01 00 80 0F 02 00"), Ok((1, 0)));
    }

    #[test]
    fn uwb_configuration_order() {
        let read_block = |block: &str| {
            let mut message = hex("01 02 01 00 01 00");
            message.extend(hex(block));
            read(&message).err().map(Refusal::number)
        };
        // Size, block whole, fields up to k, second size test, fields after the key.
        let fields = "A1 A2 04 03 02 01 05 09 0B";
        let cases = [
            ("00 0E", "60 00 01 08", "", Some(6)),
            ("00 0F", "60 00 01", "", Some(2)),
            ("00 0F", "61 00 01 08", "", Some(8)),
            ("00 0F", "60 00 03 08", "", Some(8)),
            ("00 0F", "60 00 01 09", "", Some(8)),
            ("00 0F", "60 00 01 08", "", Some(6)),
            ("00 1A", "60 00 01 08", "1 2 3 4 5 6 7 8 63 48 1", Some(6)),
            ("00 1B", "60 00 01 08", "1 2 3 4 5 6 7 8 63 48 1", Some(2)),
            ("00 1B", "60 00 01 08", "1 2 3 4 5 6 7 8 43 5B 1 1", Some(8)),
            ("00 1B", "60 00 01 08", "1 2 3 4 5 6 7 8 43 48 3 1", Some(8)),
            ("00 1B", "60 00 01 08", "1 2 3 4 5 6 7 8 43 48 1 0", Some(8)),
            ("00 1B", "58 02 02 08", "1 2 3 4 5 6 7 8 41 5A 2 2", None),
            ("00 1C", "58 02 02 08", "1 2 3 4 5 6 7 8 41 5A 2 2 9", None),
        ];
        for (head, middle, end, refusal) in cases {
            let block = [head, fields, middle, end].join(" ");
            assert_eq!(read_block(&block), refusal, "{block}");
        }
    }

    #[test]
    fn nan_configuration_order() {
        assert_eq!(answer("01 02 04 00 04 00 02 02"), Err(6));
        assert_eq!(answer("01 02 04 00 04 00 02 03"), Err(2));
        assert_eq!(answer("01 02 04 00 04 00 02 03 00"), Err(8));
        assert_eq!(answer("01 02 04 00 04 00 02 03 41"), Err(8));
        assert_eq!(answer("01 02 04 00 04 00 02 03 01"), Err(6));
        assert_eq!(answer("01 02 04 00 04 00 02 05 01 61 02"), Err(6));
        assert_eq!(answer("01 02 04 00 04 00 02 06 01 61 02 00"), Err(8));
        assert_eq!(answer("01 02 04 00 04 00 02 06 01 61 01 02"), Err(8));
        assert_eq!(answer("01 02 04 00 04 00 02 06 01 61 01 01"), Ok((2, 4)));
    }
}
