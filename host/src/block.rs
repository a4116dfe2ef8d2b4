//! The listing of a message's blocks.
use crate::Technologies;

/// A block of a message.
#[derive(Clone, Copy, PartialEq, Eq, Debug, Default)]
#[repr(C)]
pub struct Block {
    /// Where it stands in the message, counted from 0.
    pub place: usize,
    /// The ID of its technology.
    pub id: u8,
    /// Its size, the two octets of ID and size counted.
    pub size: u8,
}

impl Block {
    /// Its technology as a set of one. It is empty for an ID above 15, which no block of a message has.
    #[must_use]
    pub fn technology(&self) -> Technologies {
        Technologies(1u16.checked_shl(self.id.into()).unwrap_or(0))
    }
}

extern "C" {
    fn raydulcimer_nth_block(message: *const u8, length: usize, n: usize) -> Block;
}

/// The n-th block, counted from 0, of a Capability Response or a Configuration that [`read`](crate::read) accepts, blocks of
/// unknown technologies among them, in the order of the message. None past the last block, for other messages and for refused
/// ones.
#[must_use]
pub fn block(message: &[u8], n: usize) -> Option<Block> {
    // SAFETY: a slice's pointer is not null and leads to its length of octets, which nobody writes to meanwhile.
    let block = unsafe { raydulcimer_nth_block(message.as_ptr(), message.len(), n) };
    (block.place != 0).then_some(block)
}

/// The blocks of a message, as [`block()`] gives them one by one.
pub fn blocks(message: &[u8]) -> impl Iterator<Item = Block> + '_ {
    (0..).map_while(|n| block(message, n))
}
