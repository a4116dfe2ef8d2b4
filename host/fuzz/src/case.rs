//! What an input says: a message to read, a record to write, or a session's start and its calls.
use crate::field::{take_octets, Field};
use second::{Configuration, Record};

/// The bits of a message's length that count: a message may be longer than any that is read.
const LENGTH_BITS: u16 = 0x1FF;

#[derive(Clone, PartialEq, Debug)]
pub enum Case {
    Message { rooms: Rooms, octets: Vec<u8> },
    Record { rooms: Rooms, record: Box<Record> },
    Calls(Box<Calls>),
}

/// Lengths of buffers to write into. The first is the number of a block too.
pub type Rooms = [u8; 2];

#[derive(Clone, PartialEq, Debug)]
pub struct Calls {
    /// Any record, often one that is no profile.
    pub profile: Record,
    pub replies: u8,
    pub forged: Option<Forged>,
    pub calls: Vec<Call>,
}

/// With the profile and the choice of replies it is the session that the calls begin with, in place of the started one.
#[derive(Clone, PartialEq, Debug)]
pub struct Forged {
    /// Whether UWB, NAN and RSSI are ranging, and the mark.
    pub flags: [u8; 4],
    pub settings: Configuration,
}

#[derive(Clone, PartialEq, Debug)]
pub struct Call {
    /// None for an advertisement.
    pub message: Option<Vec<u8>>,
    pub room: u8,
    /// What the buffer holds before the call follows from it. It is odd for an advertisement.
    pub filling: u8,
}

impl Case {
    /// The first octet says what it is. Every input is a case.
    pub fn of(mut input: &[u8]) -> Case {
        let input = &mut input;
        match u8::take(input) % 3 {
            0 => Case::Message {
                rooms: Field::take(input),
                octets: input.to_vec(),
            },
            1 => Case::Record {
                rooms: Field::take(input),
                record: Box::new(Field::take(input)),
            },
            _ => Case::Calls(Box::new(Calls::of(input))),
        }
    }

    /// An input that says this.
    pub fn input(&self) -> Vec<u8> {
        let mut input = Vec::new();
        match self {
            Case::Message { rooms, octets } => {
                input.push(0);
                rooms.put(&mut input);
                input.extend(octets);
            }
            Case::Record { rooms, record } => {
                input.push(1);
                rooms.put(&mut input);
                record.put(&mut input);
            }
            Case::Calls(calls) => {
                input.push(2);
                calls.put(&mut input);
            }
        }
        input
    }
}

impl Calls {
    fn of(input: &mut &[u8]) -> Self {
        let (profile, replies) = (Field::take(input), u8::take(input));
        let forged = (u8::take(input) % 2 == 1).then(|| Forged {
            flags: Field::take(input),
            settings: Field::take(input),
        });
        let mut calls = Vec::new();
        while !input.is_empty() {
            calls.push(Call::of(input));
        }
        Calls {
            profile,
            replies,
            forged,
            calls,
        }
    }

    fn put(&self, input: &mut Vec<u8>) {
        self.profile.put(input);
        self.replies.put(input);
        input.push(self.forged.is_some().into());
        if let Some(Forged { flags, settings }) = &self.forged {
            flags.put(input);
            settings.put(input);
        }
        for call in &self.calls {
            call.put(input);
        }
    }
}

impl Call {
    fn of(input: &mut &[u8]) -> Self {
        let (filling, room) = (u8::take(input), u8::take(input));
        let message = (filling % 2 == 0).then(|| {
            let length = u16::take(input) & LENGTH_BITS;
            take_octets(input, length.into()).to_vec()
        });
        Call { message, room, filling }
    }

    fn put(&self, input: &mut Vec<u8>) {
        self.filling.put(input);
        self.room.put(input);
        if let Some(message) = &self.message {
            (message.len() as u16).put(input);
            input.extend(message);
        }
    }
}
