//! The messages of a phone. Its Configurations are made of blocks, so that they can stand in any order.
use second::*;

const ADDRESS: [u8; 6] = [0xF0, 0x5C, 0x77, 0x18, 0xE3, 0x42];

pub fn request(set: u16) -> Vec<u8> {
    written(CAPABILITY_REQUEST, set, Configuration::ZERO)
}

pub fn stop(set: u16) -> Vec<u8> {
    written(STOP, set, Configuration::ZERO)
}

/// A Configuration of version 1 with these blocks.
pub fn configuration(blocks: &[Vec<u8>]) -> Vec<u8> {
    let set = blocks.iter().fold(0u16, |set, block| set | 1 << block[0]);
    let mut message = vec![VERSION, CONFIGURATION];
    message.extend(set.to_le_bytes());
    message.extend(set.to_le_bytes());
    message.extend(blocks.concat());
    message
}

pub fn uwb(session_id: u32, channel: u8, interval: u16) -> Vec<u8> {
    let key = [0x4C, 0x00, 0x35, 0x07, 0x6E, 0xD1, 0xB8, 0x2A];
    uwb_with_key(session_id, channel, interval, &key)
}

pub fn uwb_with_key(session_id: u32, channel: u8, interval: u16, key: &[u8]) -> Vec<u8> {
    let mut settings = Configuration::ZERO;
    settings.uwb = UwbConfiguration {
        address: [0x90, 0xC2],
        session_id,
        config_id: 1,
        channel,
        preamble_index: 11,
        interval,
        slot: 2,
        key_length: key.len() as u8,
        key: [0; 32],
        country: *b"GB",
        role: 2,
        mode: 2,
    };
    settings.uwb.key[..key.len()].copy_from_slice(key);
    block(UWB, settings)
}

pub fn cs(security_level: u8) -> Vec<u8> {
    let mut settings = Configuration::ZERO;
    settings.cs = CsConfiguration {
        security_level,
        address: ADDRESS,
    };
    block(CS, settings)
}

/// Periodic, with the tag as the publisher of this service.
pub fn nan(name: &str) -> Vec<u8> {
    let mut settings = Configuration::ZERO;
    settings.nan.name_length = name.len() as u8;
    settings.nan.name[..name.len()].copy_from_slice(name.as_bytes());
    settings.nan.periodic = 1;
    block(NAN, settings)
}

pub fn rssi() -> Vec<u8> {
    let mut settings = Configuration::ZERO;
    settings.rssi.address = ADDRESS;
    block(RSSI, settings)
}

/// A block with octets more than its layout needs.
pub fn longer(mut block: Vec<u8>, more: &[u8]) -> Vec<u8> {
    block[1] += more.len() as u8;
    block.extend(more);
    block
}

/// A technology's block: what a Configuration of it alone has after its two sets.
fn block(technology: u8, settings: Configuration) -> Vec<u8> {
    written(CONFIGURATION, 1 << technology, settings)[6..].to_vec()
}

fn written(id: u8, set: u16, configuration: Configuration) -> Vec<u8> {
    let record = Record {
        id,
        set,
        configuration,
        ..Record::ZERO
    };
    let mut out = [0; MAX_MESSAGE];
    let length = write(&record, &mut out).expect("a valid record");
    out[..length].to_vec()
}
