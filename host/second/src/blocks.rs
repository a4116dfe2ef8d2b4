//! The listing of the blocks of a message.

use crate::reader::read;
use crate::record::*;

/// A block of a known or a reserved technology.
#[derive(Clone, Copy, PartialEq, Eq, Debug)]
pub struct Block {
    /// How many octets of the message come before it.
    pub place: usize,
    pub id: u8,
    /// Its two head octets counted.
    pub size: u8,
}

/// The blocks of a message as they lie; a refused message has none.
pub fn blocks(message: &[u8]) -> impl Iterator<Item = Block> + '_ {
    let mut place = match read(message) {
        Ok(record) if record.id == CAPABILITY_RESPONSE => 4,
        Ok(record) if record.id == CONFIGURATION => 6,
        _ => message.len(),
    };
    let mut left = match message {
        [_, _, low, high, ..] => low.count_ones() + high.count_ones(),
        _ => 0,
    };
    std::iter::from_fn(move || {
        left = left.checked_sub(1)?;
        let &[id, size, ..] = message.get(place..)? else {
            return None;
        };
        let block = Block { place, id, size };
        place += usize::from(size);
        Some(block)
    })
}

#[cfg(test)]
mod tests {
    use super::*;

    fn listed(message: &[u8]) -> Vec<(usize, u8, u8)> {
        blocks(message).map(|b| (b.place, b.id, b.size)).collect()
    }

    #[test]
    fn blocks_as_they_lie() {
        let response = [1, 1, 0x18, 0x80, 3, 9, 1, 2, 3, 4, 5, 6, 7, 15, 2, 4, 3, 9];
        assert_eq!(listed(&response), [(4, 3, 9), (13, 15, 2), (15, 4, 3)]);
        let configuration = [1, 2, 8, 0, 8, 0, 3, 8, 1, 2, 3, 4, 5, 6];
        assert_eq!(listed(&configuration), [(6, 3, 8)]);
        // What a later version has after the last block is none.
        let later = [2, 1, 0x10, 0, 4, 2, 4, 2, 4, 2];
        assert_eq!(listed(&later), [(4, 4, 2)]);
    }

    #[test]
    fn messages_without_blocks() {
        for id in [0, 3, 6, 7] {
            assert_eq!(listed(&[1, id, 15, 0]), []);
        }
        assert_eq!(listed(&[1, 1, 0, 0]), []);
        assert_eq!(listed(&[1, 2, 0, 0, 0, 0]), []);
        // A later Request's octets after its set are no blocks.
        assert_eq!(listed(&[2, 0, 0x10, 0, 4, 2]), []);
    }

    #[test]
    fn refused_messages() {
        let response = [1, 1, 0x18, 0, 4, 2, 3, 8, 1, 2, 3, 4, 5, 6];
        assert_eq!(listed(&response), [(4, 4, 2), (6, 3, 8)]);
        for short in 0..response.len() {
            assert_eq!(listed(&response[..short]), []);
        }
    }
}
