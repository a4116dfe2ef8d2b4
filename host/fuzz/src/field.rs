//! Numbers, blocks and records as octets of an input, in both directions.
use second::*;

/// What octets of an input stand for. Past the end of an input every octet is zero.
pub trait Field {
    fn take(input: &mut &[u8]) -> Self;
    fn put(&self, input: &mut Vec<u8>);
}

/// At most so many octets, fewer at the end of an input.
pub fn take_octets<'a>(input: &mut &'a [u8], count: usize) -> &'a [u8] {
    let (octets, rest) = input.split_at(count.min(input.len()));
    *input = rest;
    octets
}

impl<const N: usize> Field for [u8; N] {
    fn take(input: &mut &[u8]) -> Self {
        let (octets, mut field) = (take_octets(input, N), [0; N]);
        field[..octets.len()].copy_from_slice(octets);
        field
    }

    fn put(&self, input: &mut Vec<u8>) {
        input.extend(self);
    }
}

macro_rules! numbers {
    ($($number:ty),*) => {$(
        impl Field for $number {
            fn take(input: &mut &[u8]) -> Self {
                <$number>::from_le_bytes(Field::take(input))
            }

            fn put(&self, input: &mut Vec<u8>) {
                self.to_le_bytes().put(input);
            }
        }
    )*};
}

numbers!(u8, u16, u32);

/// One field after the other.
macro_rules! fields {
    ($($name:ident: $($field:ident),*;)*) => {$(
        impl Field for $name {
            fn take(input: &mut &[u8]) -> Self {
                $name { $($field: Field::take(input)),* }
            }

            fn put(&self, input: &mut Vec<u8>) {
                $(self.$field.put(input);)*
            }
        }
    )*};
}

fields! {
    UwbCapability: address, channels, preamble_indexes, config_ids, shortest_interval, shortest_slot, roles;
    CsCapability: security_types, address;
    NanCapability: features, periodic, bandwidth, receive_chains;
    UwbConfiguration: address, session_id, config_id, channel, preamble_index, interval, slot, key_length, country, role,
        mode, key;
    CsConfiguration: security_level, address;
    NanConfiguration: name_length, role, periodic, name;
    Rssi: address;
    Record: id, set, capability, configuration;
}

/// An octet with a bit for each block that is not all zero, then these blocks.
macro_rules! blocks {
    ($($name:ident: $($block:ident $technology:ident),*;)*) => {$(
        impl Field for $name {
            fn take(input: &mut &[u8]) -> Self {
                let which = u8::take(input).into();
                let mut blocks = $name::ZERO;
                $(if names(which, $technology) {
                    blocks.$block = Field::take(input);
                })*
                blocks
            }

            fn put(&self, input: &mut Vec<u8>) {
                let place = input.len();
                input.push(0);
                $(if self.$block != $name::ZERO.$block {
                    input[place] |= 1 << $technology;
                    self.$block.put(input);
                })*
            }
        }
    )*};
}

blocks! {
    Capability: uwb UWB, cs CS, nan NAN, rssi RSSI;
    Configuration: uwb UWB, cs CS, nan NAN, rssi RSSI;
}
