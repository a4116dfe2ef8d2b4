//! The refusals, with their numbers and words.
use core::{error, fmt};

/// Why a call was refused.
#[derive(Clone, Copy, PartialEq, Eq, Debug)]
#[repr(u8)]
pub enum Refusal {
    /// The message has more than 256 octets.
    TooLong = 1,
    /// It ends before a field or block that its layout needs.
    EndsEarly = 2,
    /// Its ID is reserved.
    ReservedId = 3,
    /// Version 0, or above 1 with an ID other than 0 and 1.
    WrongVersion = 4,
    /// The two sets of a Configuration differ.
    SetsDiffer = 5,
    /// A block's size is below its need (below 2 for ID 4 to 15).
    BlockTooSmall = 6,
    /// A block's ID has no bit in the set (always so from 16), or came before.
    WrongBlock = 7,
    /// A field is not allowed.
    NotAllowed = 8,
    /// Octets are left over in version 1.
    LeftOver = 9,
    /// The message is sound, but not one that a tag is sent.
    NotForTag = 10,
    /// The lent buffer is shorter than what is to be written.
    BufferTooShort = 11,
    /// A record to be written, or a profile, is not valid.
    NotValid = 12,
}

impl Refusal {
    /// Every refusal, by rising number.
    pub const ALL: [Refusal; 12] = [
        Refusal::TooLong,
        Refusal::EndsEarly,
        Refusal::ReservedId,
        Refusal::WrongVersion,
        Refusal::SetsDiffer,
        Refusal::BlockTooSmall,
        Refusal::WrongBlock,
        Refusal::NotAllowed,
        Refusal::LeftOver,
        Refusal::NotForTag,
        Refusal::BufferTooShort,
        Refusal::NotValid,
    ];

    /// The number that the library gives.
    #[must_use]
    pub fn number(self) -> u8 {
        self as u8
    }

    /// The refusal in words.
    #[must_use]
    pub fn words(self) -> &'static str {
        match self {
            Refusal::TooLong => "the message has more than 256 octets",
            Refusal::EndsEarly => "it ends before a field or block that its layout needs",
            Refusal::ReservedId => "its ID is reserved",
            Refusal::WrongVersion => "version 0, or above 1 with an ID other than 0 and 1",
            Refusal::SetsDiffer => "the two sets of a Configuration differ",
            Refusal::BlockTooSmall => "a block's size is below its need (below 2 for ID 4 to 15)",
            Refusal::WrongBlock => "a block's ID has no bit in the set (always so from 16), or came before",
            Refusal::NotAllowed => "a field is not allowed",
            Refusal::LeftOver => "octets are left over in version 1",
            Refusal::NotForTag => "the message is sound, but not one that a tag is sent",
            Refusal::BufferTooShort => "the lent buffer is shorter than what is to be written",
            Refusal::NotValid => "a record to be written, or a profile, is not valid",
        }
    }

    /// No refusal for 0. The library gives 0 and the numbers above alone.
    pub(crate) fn none(number: u8) -> Result<(), Refusal> {
        match number {
            0 => Ok(()),
            _ => Err(*Refusal::ALL
                .iter()
                .find(|refusal| refusal.number() == number)
                .expect("a refusal's number")),
        }
    }
}

impl fmt::Display for Refusal {
    fn fmt(&self, f: &mut fmt::Formatter<'_>) -> fmt::Result {
        write!(f, "refused {}: {}", self.number(), self.words())
    }
}

impl error::Error for Refusal {}

/// With the feature `std`. A fault of the caller's own record or buffer is [`InvalidInput`](std::io::ErrorKind::InvalidInput),
/// any other one is the message's and [`InvalidData`](std::io::ErrorKind::InvalidData).
#[cfg(feature = "std")]
impl From<Refusal> for std::io::Error {
    fn from(refusal: Refusal) -> Self {
        let kind = match refusal {
            Refusal::BufferTooShort | Refusal::NotValid => std::io::ErrorKind::InvalidInput,
            _ => std::io::ErrorKind::InvalidData,
        };
        std::io::Error::new(kind, refusal)
    }
}
