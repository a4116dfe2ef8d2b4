//! Valid messages that differ in the contents of their fields: one alone, all together, keys, names, presences and IDs.
use crate::fields::{differing, of_blocks, places, KEY, KEY_LENGTH, NAME, NAME_LENGTH};
use crate::mixtures::decorate;
use crate::positions::{every_two, Position};
use crate::random::Random;
use crate::readings::IDS;
use crate::shapes::{message, Block, Shape, Values, KEY_LENGTHS};
use second::{log_record, FROM_TAG, TO_TAG};
use std::ops::Range;

/// The directions of two messages, more often the same.
const TWO_DIRECTIONS: [[u8; 2]; 6] = [
    [TO_TAG, TO_TAG],
    [FROM_TAG, FROM_TAG],
    [TO_TAG, TO_TAG],
    [FROM_TAG, FROM_TAG],
    [TO_TAG, FROM_TAG],
    [FROM_TAG, TO_TAG],
];

/// The fields that cannot differ alone.
pub const LENGTHS: [&str; 2] = [KEY_LENGTH, NAME_LENGTH];

/// The right message now and then comes from another direction, or with a change that keeps its reading.
fn position(random: &mut Random, left: &Shape, mut right: Shape) -> Position {
    let [one, other] = random.pick(&TWO_DIRECTIONS);
    if matches!(right.id, 1 | 2) && random.below(2) == 0 {
        decorate(random, &mut right);
    }
    Position::new(log_record(one, &left.octets()), log_record(other, &right.octets()))
}

/// Where a field lies after the head of a block, together with the octet that counts it.
fn place(id: u8, block: &Block, name: &str) -> Range<usize> {
    let mut places = places(id, block).into_iter();
    let (_, place) = places.find(|(of, _)| *of == name).expect("a field of the block");
    match name {
        KEY | NAME => place.start - 1..place.end,
        _ => place,
    }
}

/// The message with these octets in the place of a field of a technology's block.
fn with_contents(shape: &Shape, technology: u8, name: &str, octets: &[u8]) -> Shape {
    let mut changed = shape.clone();
    for block in changed.blocks.iter_mut().filter(|block| block.id == technology) {
        let place = place(shape.id, block, name);
        block.fields.splice(place, octets.iter().copied());
        block.size = block.fields.len() as u8 + 2;
    }
    changed
}

/// A message in which every field of the blocks has other contents, with these lengths of key and name.
fn other(random: &mut Random, shape: &Shape, [key_length, name_length]: [usize; 2]) -> Shape {
    let not_lengths = |names: &[&str]| names.iter().filter(|name| !LENGTHS.contains(name)).count();
    let all: Vec<_> = of_blocks(shape.id, shape.set).collect();
    loop {
        let values = Values {
            key_length,
            name_length,
            ..Values::any(random)
        };
        let other = message(random, shape.id, shape.set, &values);
        if not_lengths(&differing(shape, &other)) == not_lengths(&all) {
            return other;
        }
    }
}

/// For each set every field of every block alone, a key or a name with its length too, and all of them together.
pub fn fields(random: &mut Random) -> Vec<Position> {
    let mut positions = Vec::new();
    for (id, set) in [1, 2].into_iter().flat_map(|id| (1..16).map(move |set| (id, set))) {
        let values = Values::any(random);
        let left = message(random, id, set, &values);
        let (key, name) = (values.key_length, values.name_length);
        for lengths in [[key, name], [if key == 8 { 32 } else { key / 2 }, name % 64 + 1]] {
            let other = other(random, &left, lengths);
            for block in &other.blocks {
                let names = places(id, block).into_iter().map(|(name, _)| name);
                for name in names.filter(|name| !LENGTHS.contains(name)) {
                    let octets = &block.fields[place(id, block, name)];
                    positions.push(position(random, &left, with_contents(&left, block.id, name, octets)));
                }
            }
            positions.push(position(random, &left, other));
        }
    }
    positions
}

/// Many positions with as much to say as there can be: all fields differ, with long contents.
pub fn longest(random: &mut Random) -> Vec<Position> {
    let mut positions = Vec::new();
    for _ in 0..1000 {
        let values = Values {
            key_length: 32,
            name_length: 64,
            ..Values::any(random)
        };
        let mut left = message(random, 2, 15, &values);
        let mut right = other(random, &left, [16, 63]);
        for name in ["UWB session ID", "UWB config ID", "UWB channel", "UWB preamble index"] {
            let size = place(2, &left.blocks[0], name).len();
            left = with_contents(&left, 0, name, &vec![0xFF; size]);
            right = with_contents(&right, 0, name, &vec![0xFE; size]);
        }
        positions.push(Position::new(
            log_record(TO_TAG, &left.octets()),
            log_record(FROM_TAG, &right.octets()),
        ));
    }
    positions
}

/// A Configuration beside itself with another key or name of this length, which may begin as the first does.
fn counted(random: &mut Random, name: &str, values: &Values, length: usize, common: bool) -> Position {
    let (set, technology) = (random.below(16) as u16 | 5, if name == KEY { 0 } else { 2 });
    let left = message(random, 2, set, values);
    let mut blocks = left.blocks.iter().filter(|block| block.id == technology);
    let block = blocks.next().expect("a block of the set");
    let first = &block.fields[place(2, block, name)][1..];
    let mut octets = [vec![length as u8], random.octets(length)].concat();
    if common {
        let both = first.len().min(length);
        octets[1..=both].copy_from_slice(&first[..both]);
    }
    let right = with_contents(&left, technology, name, &octets);
    position(random, &left, right)
}

/// Keys and names of every two lengths, with and without a common start.
pub fn lengths(random: &mut Random) -> Vec<Position> {
    let mut positions = Vec::new();
    for (key_length, length) in every_two(&KEY_LENGTHS) {
        for common in [false, true].repeat(8) {
            let any = Values::any(random);
            let values = Values { key_length, ..any };
            positions.push(counted(random, KEY, &values, length, common));
        }
    }
    let all: Vec<_> = (1..=64).collect();
    for (name_length, length) in every_two(&all) {
        for common in [false, true] {
            let any = Values::any(random);
            let values = Values { name_length, ..any };
            positions.push(counted(random, NAME, &values, length, common));
        }
    }
    positions
}

/// The message with the technologies of this set alone.
fn only(shape: &Shape, set: u16) -> Shape {
    let mut shape = shape.with_set(set);
    shape.blocks.retain(|block| set >> block.id & 1 == 1);
    shape
}

/// Every two sets in every message, with blocks that have the same contents and with others.
pub fn presences(random: &mut Random) -> Vec<Position> {
    let mut positions = Vec::new();
    let sets: Vec<_> = (0..16).collect();
    for id in IDS {
        for (one, other) in every_two(&sets) {
            let (values, others) = (Values::any(random), Values::any(random));
            let (whole, another) = (message(random, id, 15, &values), message(random, id, 15, &others));
            for right in [&whole, &another] {
                positions.push(position(random, &only(&whole, one), only(right, other)));
            }
        }
    }
    positions
}

/// Messages of every two IDs.
pub fn ids(random: &mut Random) -> Vec<Position> {
    let mut positions = Vec::new();
    for (one, other) in every_two(&IDS).filter(|(one, other)| one != other) {
        for set in 0..16 {
            let (values, any) = (Values::any(random), random.below(16) as u16);
            let (left, right) = (message(random, one, set, &values), message(random, other, any, &values));
            positions.push(position(random, &left, right));
        }
    }
    positions
}
