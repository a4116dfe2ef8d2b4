//! Every shape as it is and changed: cut, extended, an octet changed, other heads, sets, sizes, orders and IDs.
use crate::checker::Checker;
use crate::random::Random;
use crate::shapes::{every, of_each_set, Block, Shape};

pub fn run(checker: &mut Checker, random: &mut Random) {
    for shape in every(random) {
        let message = shape.octets();
        match checker.message(&message) {
            Some(record) => checker.write_everywhere(&record),
            None => checker.differ(|| format!("a valid message is refused: {}", crate::checker::hex(&message))),
        }
        cut(checker, &message);
        extended(checker, &shape);
        one_octet(checker, &message);
    }
    for shape in of_each_set(random) {
        heads(checker, &shape);
        sets(checker, &shape);
        all_values(checker, &shape.octets());
        sizes(checker, &shape);
        orders(checker, &shape);
        block_ids(checker, &shape);
        reserved_blocks(checker, &shape);
    }
    lengths(checker, random);
}

fn cut(checker: &mut Checker, message: &[u8]) {
    for length in 0..message.len() {
        checker.message(&message[..length]);
    }
}

fn extended(checker: &mut Checker, shape: &Shape) {
    for version in [1, 2, 255] {
        let mut message = Shape {
            version,
            ..shape.clone()
        }
        .octets();
        for octet in [0, 1, 4, 255] {
            message.push(octet);
            checker.message(&message);
        }
    }
}

/// Each octet with each bit turned, one more and one less, none and all bits.
fn one_octet(checker: &mut Checker, message: &[u8]) {
    let mut changed = message.to_vec();
    for place in 0..message.len() {
        let octet = message[place];
        let turned = (0..8).map(|bit| octet ^ 1 << bit);
        for other in turned.chain([octet.wrapping_add(1), octet.wrapping_sub(1), 0, 255]) {
            changed[place] = other;
            checker.message(&changed);
        }
        changed[place] = octet;
    }
}

fn all_values(checker: &mut Checker, message: &[u8]) {
    let mut changed = message.to_vec();
    for place in 0..message.len() {
        for other in 0..=255 {
            changed[place] = other;
            checker.message(&changed);
        }
        changed[place] = message[place];
    }
}

/// All versions with the IDs up to 16, and all IDs with the versions up to 4 and from 254.
fn heads(checker: &mut Checker, shape: &Shape) {
    let mut message = shape.octets();
    for version in 0..=255 {
        for id in 0..=255 {
            if id <= 16 || version <= 4 || version >= 254 {
                message[0] = version;
                message[1] = id;
                checker.message(&message);
            }
        }
    }
}

/// All sets, with the blocks of the shape and with those that the set's reserved bits ask for too.
fn sets(checker: &mut Checker, shape: &Shape) {
    for reserved in 0..4096 {
        let set = shape.set | reserved << 4;
        let mut more = shape.with_set(set);
        checker.message(&more.octets());
        more.blocks
            .extend((4..16).filter(|id| set >> id & 1 == 1).map(|id| Block::new(id, vec![])));
        checker.message(&more.octets());
    }
    for bit in 0..16 {
        checker.message(&shape.with_set(shape.set ^ 1 << bit).octets());
        checker.message(
            &Shape {
                again: shape.again ^ 1 << bit,
                ..shape.clone()
            }
            .octets(),
        );
    }
}

/// Each block with each size, its octets as they are and cut or extended to fit.
fn sizes(checker: &mut Checker, shape: &Shape) {
    for place in 0..shape.blocks.len() {
        for size in 0..=255 {
            let mut changed = shape.clone();
            changed.blocks[place].size = size;
            checker.message(&changed.octets());
            changed.blocks[place]
                .fields
                .resize((size as usize).saturating_sub(2), 1);
            checker.message(&changed.octets());
        }
    }
}

fn orders(checker: &mut Checker, shape: &Shape) {
    let count = shape.blocks.len();
    for order in permutations(count) {
        let mut changed = shape.clone();
        changed.blocks = order.iter().map(|place| shape.blocks[*place].clone()).collect();
        let message = changed.octets();
        checker.message(&message);
        one_octet(checker, &message);
    }
}

pub fn permutations(count: usize) -> Vec<Vec<usize>> {
    (0..count).fold(vec![vec![]], |all, next| {
        let inserted = |one: &Vec<usize>, at: usize| [&one[..at], &[next], &one[at..]].concat();
        all.iter()
            .flat_map(|one| (0..=one.len()).map(move |at| inserted(one, at)))
            .collect()
    })
}

/// Each block with every ID, in sets with every one reserved bit added and in the shape's own.
fn block_ids(checker: &mut Checker, shape: &Shape) {
    for place in 0..shape.blocks.len() {
        for id in 0..=255 {
            let mut changed = shape.clone();
            changed.blocks[place].id = id;
            checker.message(&changed.octets());
            for bit in 0..16 {
                checker.message(&changed.with_set(changed.set | 1 << bit).octets());
            }
        }
    }
}

/// A reserved block of each ID and small sizes at every place, alone and twice.
fn reserved_blocks(checker: &mut Checker, shape: &Shape) {
    for id in 4..16 {
        for size in 0..6u8 {
            let block = Block {
                id,
                size,
                fields: vec![9; size.saturating_sub(2) as usize],
            };
            for place in 0..=shape.blocks.len() {
                let mut once = shape.with_set(shape.set | 1 << id);
                once.blocks.insert(place, block.clone());
                checker.message(&once.octets());
                let mut twice = once.with_set(once.set | 1 << (4 + (id - 3) % 12));
                twice.blocks.push(block.clone());
                checker.message(&twice.octets());
            }
        }
    }
}

fn lengths(checker: &mut Checker, random: &mut Random) {
    for length in 0..=300 {
        for version in [0, 1, 2, 3, 255] {
            for id in 0..9 {
                let mut message = vec![0; length];
                checker.message(&message);
                let head = [version, id, 9, 0];
                let known = head.len().min(length);
                message[..known].copy_from_slice(&head[..known]);
                checker.message(&message);
                for octet in message.iter_mut().skip(4) {
                    *octet = random.octet();
                }
                checker.message(&message);
            }
        }
    }
}
