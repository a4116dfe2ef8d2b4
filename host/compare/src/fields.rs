//! The fields of the messages by their names, in the order in which a comparison of two logs shows them.
use crate::shapes::{Block, Shape};
use std::ops::Range;

/// Those that every two records have, and the ID of accepted ones.
pub const FIRST: [&str; 3] = [DIRECTION, REFUSAL_NUMBER, MESSAGE_ID];
pub const DIRECTION: &str = "direction";
pub const REFUSAL_NUMBER: &str = "refusal number";
pub const MESSAGE_ID: &str = "message ID";

const PRESENCES: [&str; 4] = ["UWB presence", "CS presence", "NAN presence", "RSSI presence"];

/// The fields of a block and how many octets each has.
type Layout = &'static [(&'static str, usize)];

/// As many as the octet before says.
const COUNTED: usize = 0;

/// By technology.
const CAPABILITY: [Layout; 4] = [
    &[
        ("UWB address", 2),
        ("UWB channels", 4),
        ("UWB preamble indexes", 4),
        ("UWB config IDs", 4),
        ("UWB shortest interval", 2),
        ("UWB shortest slot", 1),
        ("UWB roles", 1),
    ],
    &[("CS security types", 1), ("CS address", 6)],
    &[
        ("NAN features", 1),
        ("NAN periodic", 1),
        ("NAN bandwidth", 1),
        ("NAN receive chains", 1),
    ],
    &[("RSSI address", 6)],
];

const CONFIGURATION: [Layout; 4] = [
    &[
        ("UWB address", 2),
        ("UWB session ID", 4),
        ("UWB config ID", 1),
        ("UWB channel", 1),
        ("UWB preamble index", 1),
        ("UWB interval", 2),
        ("UWB slot", 1),
        (KEY_LENGTH, 1),
        (KEY, COUNTED),
        ("UWB country", 2),
        ("UWB role", 1),
        ("UWB mode", 1),
    ],
    &[("CS security level", 1), ("CS address", 6)],
    &[(NAME_LENGTH, 1), (NAME, COUNTED), ("NAN role", 1), ("NAN periodic", 1)],
    &[("RSSI address", 6)],
];

pub const KEY_LENGTH: &str = "UWB key length";
pub const KEY: &str = "UWB key";
pub const NAME_LENGTH: &str = "NAN name length";
pub const NAME: &str = "NAN name";

/// The layout of a technology's block in a message with this ID.
fn layout(id: u8, technology: u8) -> Layout {
    match id {
        1 => CAPABILITY[usize::from(technology)],
        2 => CONFIGURATION[usize::from(technology)],
        _ => &[],
    }
}

/// The names of the fields in the blocks of these technologies.
pub fn of_blocks(id: u8, set: u16) -> impl Iterator<Item = &'static str> {
    let technologies = (0..4).filter(move |technology| set >> technology & 1 == 1);
    technologies.flat_map(move |technology| layout(id, technology).iter().map(|(name, _)| *name))
}

/// The names of all fields that follow the ID.
pub fn after_id(id: u8) -> impl Iterator<Item = &'static str> {
    PRESENCES.into_iter().chain(of_blocks(id, 15))
}

/// The fields of a valid block, and where each lies after the head.
pub fn places(id: u8, block: &Block) -> Vec<(&'static str, Range<usize>)> {
    let mut end = 0;
    let place = |(name, size): &(&'static str, usize)| {
        let start = end;
        end += match *size {
            COUNTED => block.fields[start - 1].into(),
            size => size,
        };
        (*name, start..end)
    };
    layout(id, block.id).iter().map(place).collect()
}

/// The fields in which two valid messages differ.
pub fn differing(left: &Shape, right: &Shape) -> Vec<&'static str> {
    if left.id != right.id {
        return vec![MESSAGE_ID];
    }
    let technologies = (0..4).filter(|technology| (left.set ^ right.set) >> technology & 1 == 1);
    let mut names: Vec<_> = technologies.map(|technology| PRESENCES[technology]).collect();
    for block in &left.blocks {
        if let Some(other) = right.blocks.iter().find(|other| other.id == block.id) {
            names.extend(differing_in(left.id, block, other));
        }
    }
    names
}

/// The same of two blocks of one technology.
fn differing_in<'a>(id: u8, left: &'a Block, right: &'a Block) -> impl Iterator<Item = &'static str> + 'a {
    let both = places(id, left).into_iter().zip(places(id, right));
    let differ = both.filter(|((_, one), (_, other))| left.fields[one.clone()] != right.fields[other.clone()]);
    differ.map(|((name, _), _)| name)
}
