//! The IDs of the messages.
use core::fmt;

/// A message's ID. A record may hold any number; those without a constant here are reserved.
#[derive(Clone, Copy, PartialEq, Eq, Hash, Default)]
#[repr(transparent)]
pub struct MessageId(pub u8);

impl MessageId {
    /// Asks a tag what it can do.
    pub const CAPABILITY_REQUEST: MessageId = MessageId(0);
    /// What a tag can do; also its advertisement.
    pub const CAPABILITY_RESPONSE: MessageId = MessageId(1);
    /// Tells a tag to range, and with which settings.
    pub const CONFIGURATION: MessageId = MessageId(2);
    /// What a Configuration has set.
    pub const CONFIGURATION_RESPONSE: MessageId = MessageId(3);
    /// Tells a tag to end ranging.
    pub const STOP: MessageId = MessageId(6);
    /// What a Stop has ended.
    pub const STOP_RESPONSE: MessageId = MessageId(7);
}

/// The message's name, or `reserved 4`.
impl fmt::Display for MessageId {
    fn fmt(&self, f: &mut fmt::Formatter<'_>) -> fmt::Result {
        f.write_str(match *self {
            MessageId::CAPABILITY_REQUEST => "Capability Request",
            MessageId::CAPABILITY_RESPONSE => "Capability Response",
            MessageId::CONFIGURATION => "Configuration",
            MessageId::CONFIGURATION_RESPONSE => "Configuration Response",
            MessageId::STOP => "Stop",
            MessageId::STOP_RESPONSE => "Stop Response",
            MessageId(number) => return write!(f, "reserved {number}"),
        })
    }
}

impl fmt::Debug for MessageId {
    fn fmt(&self, f: &mut fmt::Formatter<'_>) -> fmt::Result {
        write!(f, "MessageId({self})")
    }
}
