//! The refusals of codec, session and listing, with the numbers and words of
//! the rules.

#[derive(Clone, Copy, PartialEq, Eq, Debug)]
#[repr(u8)]
pub enum Refusal {
    TooLong = 1,
    EndsEarly = 2,
    ReservedId = 3,
    Version = 4,
    SetsDiffer = 5,
    BlockSize = 6,
    BlockId = 7,
    Field = 8,
    LeftOver = 9,
    NotForTag = 10,
    ShortBuffer = 11,
    NotValid = 12,
    BrokenRecord = 13,
}

impl Refusal {
    pub const fn number(self) -> u8 {
        self as u8
    }

    pub const fn words(self) -> &'static str {
        match self {
            Refusal::TooLong => "the message has more than 256 octets",
            Refusal::EndsEarly => "it ends before a field or block that its layout needs",
            Refusal::ReservedId => "its ID is reserved",
            Refusal::Version => "version 0, or above 1 with an ID other than 0 and 1",
            Refusal::SetsDiffer => "the two sets of a Configuration differ",
            Refusal::BlockSize => "a block's size is below its need (below 2 for ID 4 to 15)",
            Refusal::BlockId => "a block's ID has no bit in the set (always so from 16), or came before",
            Refusal::Field => "a field is not allowed",
            Refusal::LeftOver => "octets are left over in version 1",
            Refusal::NotForTag => "a session is given message 1, 3 or 7",
            Refusal::ShortBuffer => "the lent buffer is shorter than what is to be written",
            Refusal::NotValid => "a record to be written, or a profile, is not valid",
            Refusal::BrokenRecord => "a log record breaks its layout",
        }
    }
}
