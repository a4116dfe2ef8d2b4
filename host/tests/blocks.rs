//! The listing of blocks.
use raydulcimer::{block, blocks, Block, Technologies};

/// A reserved block, RSSI's with an octet more than it needs, and CS's.
const RESPONSE: [u8; 28] = [
    1, 1, 0x1A, 0, 4, 3, 0xAA, 3, 9, 1, 2, 3, 4, 5, 6, 0xEE, 1, 12, 0x1F, 1, 2, 3, 4, 5, 6, 7, 8, 9,
];

#[test]
fn blocks_of_a_response() {
    let listed = [
        Block {
            place: 4,
            id: 4,
            size: 3,
        },
        Block {
            place: 7,
            id: 3,
            size: 9,
        },
        Block {
            place: 16,
            id: 1,
            size: 12,
        },
    ];
    assert!(blocks(&RESPONSE).eq(listed));
    let technologies = [Technologies(0x10), Technologies::RSSI, Technologies::CS];
    assert!(blocks(&RESPONSE).map(|block| block.technology()).eq(technologies));
    assert_eq!(block(&RESPONSE, 2), Some(listed[2]));
    for n in [3, 4, 255, 256, 1 << 16, 1 << 32, usize::MAX] {
        assert_eq!(block(&RESPONSE, n), None);
    }
}

#[test]
fn blocks_of_a_configuration() {
    let message = [1, 2, 8, 0, 8, 0, 3, 8, 1, 2, 3, 4, 5, 6];
    assert!(blocks(&message).eq([Block {
        place: 6,
        id: 3,
        size: 8
    }]));
    assert_eq!(blocks(&[1, 2, 0, 0, 0, 0]).count(), 0);
}

#[test]
fn messages_without_blocks() {
    for id in [0, 3, 6, 7] {
        assert_eq!(block(&[1, id, 15, 0], 0), None);
    }
}

#[test]
fn refused_messages() {
    for length in 0..RESPONSE.len() {
        assert_eq!(block(&RESPONSE[..length], 0), None);
    }
    let left_over = [&RESPONSE[..], &[0]].concat();
    assert_eq!(block(&left_over, 0), None);
}

#[test]
fn technology_of_any_id() {
    for id in 0..=255 {
        let block = Block {
            id,
            ..Default::default()
        };
        let bits = if id < 16 { 1 << id } else { 0 };
        assert_eq!(block.technology(), Technologies(bits));
    }
}
