//! Messages that differ in octets and have the same reading.
use crate::changes::permutations;
use crate::logs::DIRECTIONS;
use crate::positions::Position;
use crate::random::Random;
use crate::shapes::{message, Block, Shape, Values};
use second::log_record;

/// Those of two technologies or more, so that there is an order.
const SETS: [u16; 11] = [3, 5, 6, 7, 9, 10, 11, 12, 13, 14, 15];

/// Why two messages have the same reading though their octets differ.
#[derive(Clone, Copy, PartialEq, Eq, Hash, Debug)]
pub enum Disguise {
    LongerBlock,
    /// Of the blocks.
    Order,
    ReservedBlock,
    /// In a message without blocks.
    ReservedBits,
    LaterVersion,
    /// In a later version, after the known part.
    OctetsAfter,
}
use Disguise::*;

impl Disguise {
    pub const ALL: [Disguise; 6] = [
        LongerBlock,
        Order,
        ReservedBlock,
        ReservedBits,
        LaterVersion,
        OctetsAfter,
    ];

    /// The IDs of the messages that can have it.
    pub fn ids(self) -> &'static [u8] {
        match self {
            LongerBlock | Order | ReservedBlock => &[1, 2],
            ReservedBits => &[0, 3, 6, 7],
            LaterVersion | OctetsAfter => &[0, 1],
        }
    }

    /// The octets of a valid message of several technologies so disguised.
    fn put_on(self, random: &mut Random, mut shape: Shape) -> Vec<u8> {
        match self {
            LongerBlock => {
                let at = random.below(shape.blocks.len());
                let more = 1 + random.below(30);
                let fields = [&shape.blocks[at].fields[..], &random.octets(more)].concat();
                shape.blocks[at] = Block::new(shape.blocks[at].id, fields);
            }
            Order => {
                let mut orders = permutations(shape.blocks.len());
                orders.retain(|order| !order.is_sorted());
                let order = &orders[random.below(orders.len())];
                shape.blocks = order.iter().map(|place| shape.blocks[*place].clone()).collect();
            }
            ReservedBlock => {
                let (id, size) = (4 + random.below(12) as u8, random.below(30));
                let block = Block::new(id, random.octets(size));
                shape = shape.with_set(shape.set | 1 << id);
                shape.blocks.insert(random.below(shape.blocks.len() + 1), block);
            }
            ReservedBits => shape.set |= 1 << (4 + random.below(12)) | random.next() as u16 & 0xFFF0,
            LaterVersion | OctetsAfter => shape.version = 2 + random.below(254) as u8,
        }
        let mut octets = shape.octets();
        if self == OctetsAfter {
            let more = 1 + random.below(100);
            octets.extend(random.octets(more));
        }
        octets
    }
}

/// Every disguise of messages with every ID, on one side and on both.
pub fn disguised(random: &mut Random) -> Vec<Position> {
    let mut positions = Vec::new();
    for disguise in Disguise::ALL {
        for id in disguise.ids().repeat(40) {
            let (set, values) = (random.pick(&SETS), Values::any(random));
            let (shape, direction) = (message(random, id, set, &values), random.pick(&DIRECTIONS));
            let right = disguise.put_on(random, shape.clone());
            let lefts = [shape.octets(), disguise.put_on(random, shape)];
            for left in lefts.iter().filter(|left| **left != right) {
                positions.push(Position {
                    left: log_record(direction, left),
                    right: log_record(direction, &right),
                    disguise: Some(disguise),
                });
            }
        }
    }
    positions
}
