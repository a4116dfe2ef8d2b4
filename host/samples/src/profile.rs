//! What the tag can do, as in `examples/tag.c`, and what an older one could.
use second::{Capability, CsCapability, NanCapability, Record, Rssi, UwbCapability, CAPABILITY_RESPONSE, CS, KNOWN};

const ADDRESS: [u8; 6] = [0xD4, 0x36, 0x39, 0x5A, 0x21, 0x7C];

pub fn profile() -> Record {
    Record {
        id: CAPABILITY_RESPONSE,
        set: KNOWN,
        capability: Capability {
            uwb: UwbCapability {
                address: [0x4B, 0x1D],
                channels: 1 << 5 | 1 << 9,
                // 9 to 12
                preamble_indexes: 0xF << 8,
                config_ids: 1 << 1 | 1 << 3,
                shortest_interval: 120,
                shortest_slot: 2,
                roles: 3,
            },
            cs: CsCapability {
                security_types: 1 << 1 | 1 << 2,
                address: ADDRESS,
            },
            nan: NanCapability {
                features: 3,
                periodic: 1,
                bandwidth: 2,
                receive_chains: 1,
            },
            rssi: Rssi { address: ADDRESS },
        },
        ..Record::ZERO
    }
}

/// An older board has another address and no CS, and is slower with UWB.
pub fn old_profile() -> Record {
    let mut old = profile();
    old.set &= !(1 << CS);
    old.capability.cs = Capability::ZERO.cs;
    old.capability.uwb.shortest_interval = 240;
    old.capability.rssi.address = [0xD4, 0x36, 0x39, 0x58, 0x0E, 0xB3];
    old
}
