//! Every shape of valid message: all sets, key and name lengths, and allowed values.
use crate::random::Random;

pub const INTERVALS: [u16; 4] = [96, 120, 240, 600];
pub const KEY_LENGTHS: [usize; 3] = [8, 16, 32];

/// A block as it is written: the size octet may say anything.
#[derive(Clone)]
pub struct Block {
    pub id: u8,
    pub size: u8,
    pub fields: Vec<u8>,
}

impl Block {
    pub fn new(id: u8, fields: Vec<u8>) -> Self {
        Block {
            id,
            size: fields.len() as u8 + 2,
            fields,
        }
    }
}

/// A message in parts. `again` is the second set of a Configuration.
#[derive(Clone)]
pub struct Shape {
    pub version: u8,
    pub id: u8,
    pub set: u16,
    pub again: u16,
    pub blocks: Vec<Block>,
}

impl Shape {
    pub fn new(id: u8, set: u16, blocks: Vec<Block>) -> Self {
        Shape {
            version: 1,
            id,
            set,
            again: set,
            blocks,
        }
    }

    /// The parts of a message in normal form.
    pub fn of(message: &[u8]) -> Self {
        let (id, set) = (message[1], u16::from_le_bytes([message[2], message[3]]));
        let (mut blocks, mut rest) = (Vec::new(), &message[if id == 2 { 6 } else { 4 }..]);
        while let [id, size, ..] = *rest {
            let (block, after) = rest.split_at(size.into());
            blocks.push(Block::new(id, block[2..].to_vec()));
            rest = after;
        }
        Shape::new(id, set, blocks)
    }

    pub fn with_set(&self, set: u16) -> Self {
        Shape {
            set,
            again: set,
            ..self.clone()
        }
    }

    pub fn octets(&self) -> Vec<u8> {
        let mut octets = vec![self.version, self.id];
        octets.extend(self.set.to_le_bytes());
        if self.id == 2 {
            octets.extend(self.again.to_le_bytes());
        }
        for block in &self.blocks {
            octets.extend([block.id, block.size]);
            octets.extend(&block.fields);
        }
        octets
    }
}

/// The values of the fields that allow some numbers only.
#[derive(Clone, Copy)]
pub struct Values {
    pub interval: u16,
    pub slot: u8,
    pub role: u8,
    pub mode: u8,
    pub level: u8,
    pub nan_role: u8,
    pub periodic: u8,
    pub country: [u8; 2],
    pub key_length: usize,
    pub name_length: usize,
}

impl Values {
    pub fn any(random: &mut Random) -> Self {
        Values {
            interval: random.pick(&INTERVALS),
            slot: random.pick(&[1, 2]),
            role: random.pick(&[1, 2]),
            mode: random.pick(&[1, 2]),
            level: random.below(5) as u8,
            nan_role: random.below(2) as u8,
            periodic: random.below(2) as u8,
            country: any_country(random),
            key_length: random.pick(&KEY_LENGTHS),
            name_length: 1 + random.below(64),
        }
    }
}

/// Two letters, or 00.
fn any_country(random: &mut Random) -> [u8; 2] {
    match [random.pick(b"0ABMYZ"), random.pick(b"ABMYZ")] {
        [b'0', _] => *b"00",
        letters => letters,
    }
}

fn capability_block(random: &mut Random, v: &Values, id: u8) -> Block {
    let fields = match id {
        0 => [
            &random.octets(14)[..],
            &v.interval.to_le_bytes(),
            &[v.slot, random.octet()],
        ]
        .concat(),
        1 => random.octets(7),
        2 => vec![random.octet(), v.periodic, random.octet(), random.octet()],
        _ => random.octets(6),
    };
    Block::new(id, fields)
}

fn configuration_block(random: &mut Random, v: &Values, id: u8) -> Block {
    let fields = match id {
        0 => {
            let timing = [&v.interval.to_le_bytes()[..], &[v.slot, v.key_length as u8]].concat();
            let after = [v.country[0], v.country[1], v.role, v.mode];
            [random.octets(9), timing, random.octets(v.key_length), after.to_vec()].concat()
        }
        1 => [vec![v.level], random.octets(6)].concat(),
        2 => {
            let name = random.octets(v.name_length);
            [vec![v.name_length as u8], name, vec![v.nan_role, v.periodic]].concat()
        }
        _ => random.octets(6),
    };
    Block::new(id, fields)
}

fn ids(set: u16) -> impl Iterator<Item = u8> {
    (0..4).filter(move |id| set >> id & 1 == 1)
}

/// A Capability Response in normal form.
pub fn response(random: &mut Random, set: u16, v: &Values) -> Shape {
    let blocks = ids(set).map(|id| capability_block(random, v, id)).collect();
    Shape::new(1, set, blocks)
}

/// A Configuration in normal form.
pub fn configuration(random: &mut Random, set: u16, v: &Values) -> Shape {
    let blocks = ids(set).map(|id| configuration_block(random, v, id)).collect();
    Shape::new(2, set, blocks)
}

/// Any of the six messages in normal form.
pub fn message(random: &mut Random, id: u8, set: u16, v: &Values) -> Shape {
    match id {
        1 => response(random, set, v),
        2 => configuration(random, set, v),
        _ => Shape::new(id, set, vec![]),
    }
}

/// A Capability Response and a Configuration of each set, with short key and name.
pub fn of_each_set(random: &mut Random) -> Vec<Shape> {
    let mut shapes = Vec::new();
    for set in 0..16 {
        let v = Values {
            key_length: 8,
            name_length: 3,
            ..Values::any(random)
        };
        shapes.push(response(random, set, &v));
        shapes.push(configuration(random, set, &v));
    }
    shapes
}

/// Every set of numbers below these limits.
fn choices(limits: &[usize]) -> Vec<Vec<usize>> {
    limits.iter().fold(vec![vec![]], |all, limit| {
        all.iter()
            .flat_map(|one| (0..*limit).map(move |x| [&one[..], &[x]].concat()))
            .collect()
    })
}

/// Every shape in normal form.
pub fn every(random: &mut Random) -> Vec<Shape> {
    let mut shapes = Vec::new();
    for set in 0..16 {
        shapes.extend([0, 3, 6, 7].map(|id| Shape::new(id, set, vec![])));
        for c in choices(&[4, 2, 2]) {
            let v = Values {
                interval: INTERVALS[c[0]],
                slot: 1 + c[1] as u8,
                periodic: c[2] as u8,
                ..Values::any(random)
            };
            shapes.push(response(random, set, &v));
        }
        let keys = if set & 1 == 0 { &KEY_LENGTHS[..1] } else { &KEY_LENGTHS };
        for key_length in keys {
            for name_length in 1..=if set & 4 == 0 { 1 } else { 64 } {
                let v = Values {
                    key_length: *key_length,
                    name_length,
                    ..Values::any(random)
                };
                shapes.push(configuration(random, set, &v));
            }
        }
    }
    for c in choices(&[4, 2, 2, 2, 5, 2, 2]) {
        let v = Values {
            interval: INTERVALS[c[0]],
            slot: 1 + c[1] as u8,
            role: 1 + c[2] as u8,
            mode: 1 + c[3] as u8,
            level: c[4] as u8,
            nan_role: c[5] as u8,
            periodic: c[6] as u8,
            ..Values::any(random)
        };
        shapes.push(configuration(random, 15, &v));
    }
    shapes
}
