//! Random mixtures: messages of any shape with several changes at once, and octets of nothing but chance.
use crate::checker::Checker;
use crate::random::Random;
use crate::shapes::{configuration, response, Block, Shape, Values};

/// Characters of which most pairs are no country.
const COUNTRY: &[u8] = b"\0/09:AZaz";

/// A valid shape, except that its country may not be allowed.
pub fn any_shape(random: &mut Random) -> Shape {
    let (set, mut v) = (random.below(16) as u16, Values::any(random));
    if random.below(8) == 0 {
        v.country = [random.pick(COUNTRY), random.pick(COUNTRY)];
    }
    match random.below(8) {
        0 => Shape::new(random.pick(&[0, 3, 6, 7]), set, vec![]),
        1..=3 => response(random, set, &v),
        _ => configuration(random, set, &v),
    }
}

/// A block's place, if there is a block.
fn place(random: &mut Random, shape: &Shape) -> Option<usize> {
    (!shape.blocks.is_empty()).then(|| random.below(shape.blocks.len()))
}

/// A change that keeps a message with blocks well formed: a reserved block more, another order, or a longer block.
pub fn decorate(random: &mut Random, shape: &mut Shape) -> Option<()> {
    match random.below(3) {
        0 => {
            let at = random.below(shape.blocks.len() + 1);
            let (id, size) = (4 + random.below(12) as u8, random.below(12));
            shape.set |= 1 << id;
            shape.again |= 1 << id;
            shape.blocks.insert(at, Block::new(id, random.octets(size)));
        }
        1 => {
            let (one, other) = (place(random, shape)?, place(random, shape)?);
            shape.blocks.swap(one, other);
        }
        _ => {
            let at = place(random, shape)?;
            let more = random.below(4);
            shape.blocks[at].fields.extend(random.octets(more));
            shape.blocks[at].size = shape.blocks[at].fields.len() as u8 + 2;
        }
    }
    Some(())
}

/// A change that keeps the message in parts.
fn change_shape(random: &mut Random, shape: &mut Shape) -> Option<()> {
    match random.below(7) {
        0 => shape.version = random.pick(&[0, 1, 2, 3, 255]),
        1..=3 => decorate(random, shape)?,
        4 => {
            let at = place(random, shape)?;
            shape.blocks[at].size = shape.blocks[at]
                .size
                .wrapping_add(random.below(5) as u8)
                .wrapping_sub(2);
        }
        5 => shape.again ^= 1 << random.below(16),
        _ => {
            let at = place(random, shape)?;
            shape.blocks[at].id = random.below(17) as u8;
        }
    }
    Some(())
}

/// A change of the octets.
fn change_octets(random: &mut Random, message: &mut Vec<u8>) {
    let at = random.below(message.len() + 1);
    match random.below(4) {
        0 => message.truncate(at),
        1 => message.insert(at, random.octet()),
        2 if at < message.len() => drop(message.remove(at)),
        _ if at < message.len() => message[at] = random.octet(),
        _ => message.extend(random.octets(at % 7)),
    }
}

/// The message of a shape, with fewer than so many changes of the shape and then a few of its octets.
pub fn changed(random: &mut Random, mut shape: Shape, changes: usize) -> Vec<u8> {
    for _ in 0..random.below(changes) {
        change_shape(random, &mut shape);
    }
    let mut message = shape.octets();
    for _ in 0..random.below(3) {
        change_octets(random, &mut message);
    }
    message
}

/// The message of any shape, with several changes at once or with none.
pub fn any_message(random: &mut Random) -> Vec<u8> {
    let shape = any_shape(random);
    changed(random, shape, 4)
}

pub fn run(checker: &mut Checker, random: &mut Random, count: u64) {
    for number in 0..count {
        checker.message(&any_message(random));
        if number % 16 == 0 {
            let length = random.below(301);
            checker.message(&random.octets(length));
        }
    }
}
