//! The tag's session.
use crate::raw;
use crate::{NanConfiguration, Record, Refusal, Rssi, Technologies, UwbConfiguration};

/// The choice of explicit replies: message 3 to a Configuration, message 7 to a Stop.
#[derive(Clone, Copy, PartialEq, Eq, Debug, Default)]
#[repr(u8)]
pub enum Replies {
    /// Which means off.
    #[default]
    NotSaid = 0,
    /// They are written.
    On = 1,
    /// They are not written.
    Off = 2,
}

/// What an accepted call gives.
#[derive(Clone, Copy, PartialEq, Eq, Debug)]
#[must_use = "there may be a reply to send, and ranging to start or to end"]
pub struct Answer {
    /// How many octets of reply were written.
    pub length: usize,
    /// The technologies that the call set.
    pub set: Technologies,
    /// The technologies that the call stopped.
    pub stopped: Technologies,
}

impl Answer {
    fn of(answer: raw::Answer) -> Result<Answer, Refusal> {
        Refusal::none(answer.refusal).map(|()| Answer {
            length: answer.length,
            set: answer.set,
            stopped: answer.stopped,
        })
    }
}

/// A tag's session. A clone is a session of its own.
#[derive(Clone, PartialEq, Eq, Debug)]
#[must_use = "a session is there to be given messages"]
pub struct Session(raw::Session);

impl Session {
    /// Starts a session for a tag with this profile, a valid record of a Capability Response (no technology at all is valid).
    /// It ranges with nothing.
    ///
    /// # Errors
    ///
    /// [`Refusal::NotValid`] for any other record.
    pub fn start(profile: &Record, replies: Replies) -> Result<Session, Refusal> {
        let started = raw::start(profile, replies as u8);
        Refusal::none(started.refusal).map(|()| Session(started.session))
    }

    /// Takes a message, with a buffer for the reply. Only the reply's own octets change in the buffer. With explicit replies
    /// off, or not said, a Configuration or a Stop is answered with length 0, and with its set all the same.
    ///
    /// A Request is answered with the blocks that it names and the profile has. A Configuration sets each technology that it
    /// names and the profile has, with settings within the profile, and, for UWB, with the mark not standing; what is not set
    /// goes on as before. A Stop ends each technology that it names and that is ranging. CS can be set, but never ranges.
    ///
    /// # Errors
    ///
    /// Tested in this order: the message as [`read`](crate::read) does, that it is a Request, a Configuration or a Stop
    /// ([`Refusal::NotForTag`]), and that the reply fits the buffer ([`Refusal::BufferTooShort`]). A refused call leaves
    /// session and buffer as they were.
    pub fn message(&mut self, octets: &[u8], out: &mut [u8]) -> Result<Answer, Refusal> {
        Answer::of(self.0.message(octets, out))
    }

    /// Writes an advertisement, a Capability Response with the whole profile. Only its own octets change in the buffer.
    ///
    /// # Errors
    ///
    /// [`Refusal::BufferTooShort`] if it does not fit the buffer. A refused call leaves session and buffer as they were.
    pub fn advertise(&mut self, out: &mut [u8]) -> Result<Answer, Refusal> {
        Answer::of(self.0.advertise(out))
    }

    /// The profile with the choice of explicit replies.
    #[must_use]
    pub fn profile(&self) -> &raw::Profile {
        &self.0.profile
    }

    /// UWB's settings in force, if it is ranging.
    #[must_use]
    pub fn uwb(&self) -> Option<&UwbConfiguration> {
        in_force(&self.0.uwb)
    }

    /// NAN's settings in force, if it is ranging.
    #[must_use]
    pub fn nan(&self) -> Option<&NanConfiguration> {
        in_force(&self.0.nan)
    }

    /// RSSI's settings in force, if it is ranging.
    #[must_use]
    pub fn rssi(&self) -> Option<&Rssi> {
        in_force(&self.0.rssi)
    }

    /// Whether a Stop has ended UWB ranging since UWB's capabilities were last given out.
    #[must_use]
    pub fn mark(&self) -> bool {
        self.0.mark != 0
    }
}

fn in_force<T>(state: &raw::State<T>) -> Option<&T> {
    (state.ranging != 0).then_some(&state.settings)
}
