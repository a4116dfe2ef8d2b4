//! Sessions as the library and `include/raydulcimer.h` have them.
//!
//! A [`Session`](crate::Session) holds only what a start and its calls have made. Here a session may hold any numbers, and
//! an answer is seen whole, a refused one too.
use crate::{Capability, NanConfiguration, Record, Rssi, Technologies, UwbConfiguration};

/// What a tag can do: the set and the capability of a valid Capability Response, and a choice of explicit replies.
#[derive(Clone, Copy, PartialEq, Eq, Debug, Default)]
#[repr(C)]
#[allow(missing_docs)]
pub struct Profile {
    pub set: Technologies,
    /// 0 not said, which means off, 1 on, 2 off
    pub replies: u8,
    pub capability: Capability,
}

/// Whether a technology is ranging, and its settings in force.
#[derive(Clone, Copy, PartialEq, Eq, Debug, Default)]
#[repr(C)]
#[allow(missing_docs)]
pub struct State<T> {
    /// 0 no, anything else yes
    pub ranging: u8,
    /// zero if it is not ranging
    pub settings: T,
}

/// A tag's session.
#[derive(Clone, Copy, PartialEq, Eq, Debug, Default)]
#[repr(C)]
#[allow(missing_docs)]
pub struct Session {
    pub profile: Profile,
    pub uwb: State<UwbConfiguration>,
    pub nan: State<NanConfiguration>,
    pub rssi: State<Rssi>,
    /// A Stop has ended UWB ranging since UWB's capabilities were last given out: 0 no, anything else yes.
    pub mark: u8,
}

/// A refusal's number, length 0 and two empty sets; or 0 and what [`Answer`](crate::Answer) has.
#[derive(Clone, Copy, PartialEq, Eq, Debug, Default)]
#[must_use = "the call may have been refused, or there is a reply to send"]
#[repr(C)]
#[allow(missing_docs)]
pub struct Answer {
    pub refusal: u8,
    pub length: usize,
    pub set: Technologies,
    pub stopped: Technologies,
}

/// 0 and a fresh session with the profile, or a refusal's number and one with an empty profile.
#[derive(Clone, Copy, PartialEq, Eq, Debug, Default)]
#[must_use = "the session is in it"]
#[repr(C)]
#[allow(missing_docs)]
pub struct Started {
    pub session: Session,
    pub refusal: u8,
}

extern "C" {
    fn raydulcimer_start(profile: Record, replies: u8) -> Started;
    fn raydulcimer_message(
        session: *mut Session,
        message: *const u8,
        length: usize,
        out: *mut u8,
        room: usize,
    ) -> Answer;
    fn raydulcimer_advertise(session: *mut Session, out: *mut u8, room: usize) -> Answer;
}

/// Starts a session with any record and any number for the choice of explicit replies.
pub fn start(profile: &Record, replies: u8) -> Started {
    // SAFETY: both arguments are values, and the call takes any.
    unsafe { raydulcimer_start(*profile, replies) }
}

impl Session {
    /// As [`Session::message`](crate::Session::message), after a test of the session's profile.
    pub fn message(&mut self, octets: &[u8], out: &mut [u8]) -> Answer {
        // SAFETY: the pointers are those of a session and of slices: not null, aligned, and to memory that does not overlap
        // and is borrowed for this call alone. The call takes any session.
        unsafe { raydulcimer_message(self, octets.as_ptr(), octets.len(), out.as_mut_ptr(), out.len()) }
    }

    /// As [`Session::advertise`](crate::Session::advertise), after the same test.
    pub fn advertise(&mut self, out: &mut [u8]) -> Answer {
        // SAFETY: as above.
        unsafe { raydulcimer_advertise(self, out.as_mut_ptr(), out.len()) }
    }
}
