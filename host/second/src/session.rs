//! The tag's session: what a message or an advertisement answers, and what
//! ranges after it.

use crate::reader::Message;
use crate::record::*;
use crate::refusal::Refusal;
use crate::valid::{is_capability, is_valid};
use crate::writer::{write_capability, write_set};

// Choices of explicit replies, messages 3 and 7; not said means off.
pub const REPLIES_NOT_SAID: u8 = 0;
pub const REPLIES_ON: u8 = 1;
pub const REPLIES_OFF: u8 = 2;

/// A session can hold anything; the profile is tested at every call.
#[derive(Clone, Copy, PartialEq, Eq, Debug, Default)]
pub struct Session {
    pub profile: Profile,
    pub uwb: Ranging<UwbConfiguration>,
    pub nan: Ranging<NanConfiguration>,
    pub rssi: Ranging<Rssi>,
    /// A Stop has ended UWB ranging since UWB's capabilities were last given out.
    pub mark: bool,
}

/// What the tag is capable of: set and capability part of a valid record.
#[derive(Clone, Copy, PartialEq, Eq, Debug, Default)]
pub struct Profile {
    pub set: u16,
    pub replies: u8,
    pub capability: Capability,
}

/// Whether a technology is ranging, and its settings in force, zero if it is not.
#[derive(Clone, Copy, PartialEq, Eq, Debug, Default)]
pub struct Ranging<T> {
    pub on: bool,
    pub settings: T,
}

/// Length of the reply, and the technologies that the call set and stopped.
#[derive(Clone, Copy, PartialEq, Eq, Debug)]
pub struct Answer {
    pub length: usize,
    pub set: u16,
    pub stopped: u16,
}

/// A fresh session for a valid record of message 1 and a choice of replies.
pub fn start(profile: &Record, replies: u8) -> Result<Session, Refusal> {
    if profile.id != CAPABILITY_RESPONSE || !is_valid(profile) || replies > REPLIES_OFF {
        return Err(Refusal::NotValid);
    }
    let mut session = Session::empty();
    session.profile = Profile {
        set: profile.set,
        replies,
        capability: profile.capability,
    };
    Ok(session)
}

impl Session {
    /// The session of a refused start: fresh, with an empty profile, replies not said and so off.
    pub fn empty() -> Session {
        Session::default()
    }

    /// Takes a message. A refusal leaves session and buffer as they were.
    pub fn message(&mut self, octets: &[u8], out: &mut [u8]) -> Result<Answer, Refusal> {
        self.profile.check()?;
        let message = Message::new(octets)?;
        match message.id {
            CAPABILITY_REQUEST => {
                message.nothing_else()?;
                self.give_out(message.named(), out)
            }
            CONFIGURATION => self.configure(&message, out),
            STOP => {
                message.nothing_else()?;
                self.stop(message.named(), out)
            }
            // Not for a tag, but the faults of reading come first.
            CAPABILITY_RESPONSE => message
                .capability(&mut Capability::default())
                .and(Err(Refusal::NotForTag)),
            _ => message.nothing_else().and(Err(Refusal::NotForTag)),
        }
    }

    /// Advertises the whole profile. A refusal leaves session and buffer as they were.
    pub fn advertise(&mut self, out: &mut [u8]) -> Result<Answer, Refusal> {
        self.profile.check()?;
        self.give_out(self.profile.set, out)
    }

    /// Gives out the capabilities of those named that the profile has.
    fn give_out(&mut self, named: u16, out: &mut [u8]) -> Result<Answer, Refusal> {
        let given = named & self.profile.set;
        let length = write_capability(given, &self.profile.capability, out)?;
        if names(given, UWB) {
            self.mark = false;
        }
        Ok(Answer {
            length,
            set: 0,
            stopped: 0,
        })
    }

    /// Sets those named that fit; the others go on as they were.
    fn configure(&mut self, message: &Message, out: &mut [u8]) -> Result<Answer, Refusal> {
        let mut settings = Configuration::ZERO;
        message.configuration(&mut settings)?;
        let mut set = message.named() & self.profile.fitting(&settings);
        if self.mark {
            set &= !(1 << UWB);
        }
        let length = self.reply(CONFIGURATION_RESPONSE, set, out)?;
        if names(set, UWB) {
            self.uwb.start(&settings.uwb);
        }
        if names(set, NAN) {
            self.nan.start(&settings.nan);
        }
        if names(set, RSSI) {
            self.rssi.start(&settings.rssi);
        }
        Ok(Answer {
            length,
            set,
            stopped: 0,
        })
    }

    /// Stops those named that are ranging.
    fn stop(&mut self, named: u16, out: &mut [u8]) -> Result<Answer, Refusal> {
        let stopped = named & self.ranging();
        let length = self.reply(STOP_RESPONSE, stopped, out)?;
        if names(stopped, UWB) {
            self.uwb = Ranging::default();
            self.mark = true;
        }
        if names(stopped, NAN) {
            self.nan = Ranging::default();
        }
        if names(stopped, RSSI) {
            self.rssi = Ranging::default();
        }
        Ok(Answer {
            length,
            set: 0,
            stopped,
        })
    }

    /// The technologies that are ranging; CS never is.
    fn ranging(&self) -> u16 {
        u16::from(self.uwb.on) << UWB | u16::from(self.nan.on) << NAN | u16::from(self.rssi.on) << RSSI
    }

    /// Writes message 3 or 7 if explicit replies are on; otherwise nothing.
    fn reply(&self, id: u8, set: u16, out: &mut [u8]) -> Result<usize, Refusal> {
        if self.profile.replies != REPLIES_ON {
            return Ok(0);
        }
        write_set(id, set, out)
    }
}

impl Profile {
    fn check(&self) -> Result<(), Refusal> {
        if self.replies <= REPLIES_OFF && is_capability(&self.capability, self.set) {
            Ok(())
        } else {
            Err(Refusal::NotValid)
        }
    }

    /// The technologies of the profile for which settings as read lie within it.
    fn fitting(&self, settings: &Configuration) -> u16 {
        let Capability { uwb, cs, nan, .. } = &self.capability;
        let mut set = self.set;
        if !uwb_fits(uwb, &settings.uwb) {
            set &= !(1 << UWB);
        }
        if !has_bit(cs.security_types.into(), settings.cs.security_level) {
            set &= !(1 << CS);
        }
        if settings.nan.periodic > nan.periodic {
            set &= !(1 << NAN);
        }
        set
    }
}

impl<T: Copy> Ranging<T> {
    fn start(&mut self, settings: &T) {
        self.on = true;
        self.settings = *settings;
    }
}

/// Whether settings as read, so with role 1 or 2, lie within the capability.
fn uwb_fits(uwb: &UwbCapability, settings: &UwbConfiguration) -> bool {
    has_bit(uwb.config_ids, settings.config_id)
        && has_bit(uwb.channels, settings.channel)
        // Index n has bit n - 1; index 0 has none.
        && has_bit(uwb.preamble_indexes, settings.preamble_index.wrapping_sub(1))
        && settings.interval >= uwb.shortest_interval
        && settings.slot >= uwb.shortest_slot
        && settings.role & uwb.roles != 0
}

/// Whether there is such a bit and it is one.
fn has_bit(bits: u32, bit: u8) -> bool {
    bits.checked_shr(bit.into()).is_some_and(|bits| bits & 1 != 0)
}

#[cfg(test)]
mod tests {
    use super::*;
    use crate::writer::{tests as samples, write};

    const UNTOUCHED: [u8; 64] = [0x55; 64];

    /// A profile with channel 9, preamble indexes 9 to 12 and config IDs 0 and 1.
    fn profile(set: u16) -> Record {
        let mut record = samples::capability(set);
        let out = &mut record.capability;
        if names(set, UWB) {
            out.uwb.channels = 1 << 9;
            out.uwb.preamble_indexes = 0x0F00;
            out.uwb.config_ids = 3;
            out.uwb.shortest_interval = 120;
            out.uwb.shortest_slot = 1;
            out.uwb.roles = 2;
        }
        if names(set, CS) {
            out.cs.security_types = 0b10010;
        }
        out.nan.periodic = 0;
        record
    }

    /// A Configuration that fits the profile.
    fn configuration(set: u16) -> Record {
        let mut record = samples::configuration(set, 8, 1);
        let out = &mut record.configuration;
        if names(set, UWB) {
            out.uwb.config_id = 1;
            out.uwb.preamble_index = 12;
            out.uwb.interval = 120;
            out.uwb.role = 2;
        }
        if names(set, CS) {
            out.cs.security_level = 1;
        }
        if names(set, RSSI) {
            out.rssi.address = [1; 6];
        }
        record
    }

    /// A fresh session with explicit replies on.
    fn session(set: u16) -> Session {
        start(&profile(set), REPLIES_ON).unwrap()
    }

    fn octets(record: &Record) -> Vec<u8> {
        let mut out = [0; MAX_MESSAGE];
        let length = write(record, &mut out).unwrap();
        out[..length].to_vec()
    }

    /// Makes a call. If it succeeds, it changes the reply's octets alone, a buffer
    /// of the reply's length is enough, and with every shorter one it is refused
    /// with 11. A refusal changes nothing.
    fn call(session: &mut Session, message: Option<&[u8]>) -> Result<(Vec<u8>, u16, u16), u8> {
        let run = |session: &mut Session, out: &mut [u8]| match message {
            Some(octets) => session.message(octets, out),
            None => session.advertise(out),
        };
        let refused = |length: usize, refusal: Refusal| {
            let (mut after, mut out) = (*session, UNTOUCHED);
            assert_eq!(run(&mut after, &mut out[..length]), Err(refusal));
            assert_eq!((after, out), (*session, UNTOUCHED));
        };
        let (mut after, mut out) = (*session, UNTOUCHED);
        match run(&mut after, &mut out) {
            Ok(answer) => {
                (0..answer.length).for_each(|short| refused(short, Refusal::ShortBuffer));
                assert_eq!(out[answer.length..], UNTOUCHED[answer.length..]);
                let (mut again, mut exact) = (*session, UNTOUCHED);
                assert_eq!(run(&mut again, &mut exact[..answer.length]), Ok(answer));
                assert_eq!((again, exact), (after, out));
                *session = after;
                Ok((out[..answer.length].to_vec(), answer.set, answer.stopped))
            }
            Err(refusal) => {
                refused(0, refusal);
                refused(64, refusal);
                Err(refusal.number())
            }
        }
    }

    fn request(session: &mut Session, set: u8) -> Vec<u8> {
        let (reply, set, stopped) = call(session, Some(&[1, 0, set, 0])).unwrap();
        assert_eq!((set, stopped), (0, 0));
        reply
    }

    /// Configures and checks that what is set is answered; returns it.
    fn configure(session: &mut Session, record: &Record) -> u16 {
        let (reply, set, stopped) = call(session, Some(&octets(record))).unwrap();
        assert_eq!((&reply[..], stopped), (&[1, 3, set as u8, 0][..], 0));
        set
    }

    /// Stops and checks that what ended is answered; returns it.
    fn stop(session: &mut Session, named: u8) -> u16 {
        let (reply, set, stopped) = call(session, Some(&[1, 6, named, 0])).unwrap();
        assert_eq!((&reply[..], set), (&[1, 7, stopped as u8, 0][..], 0));
        stopped
    }

    #[test]
    fn profile_of_rssi_only() {
        let mut s = session(8);
        let response = [1, 1, 8, 0, 3, 8, 0xA1, 0xA2, 0xA3, 0xA4, 0xA5, 0xA6];
        assert_eq!(request(&mut s, 9), response);
        assert_eq!(call(&mut s, None), Ok((response.to_vec(), 0, 0)));
        assert_eq!(configure(&mut s, &configuration(8)), 8);
        assert!(s.rssi.on);
        assert_eq!(s.rssi.settings.address, [1; 6]);
        assert_eq!(stop(&mut s, 9), 8);
        assert_eq!(s, session(8));
        assert_eq!(stop(&mut s, 9), 0);
        // A technology that the profile has not is not set.
        assert_eq!(configure(&mut s, &configuration(15)), 8);
    }

    #[test]
    fn requests() {
        let mut s = session(15);
        for set in 0..=15 {
            assert_eq!(request(&mut s, set), octets(&profile(set.into())));
        }
        assert_eq!(request(&mut s, 0xF0), [1, 1, 0, 0]);
        assert_eq!(call(&mut s, None), Ok((octets(&profile(15)), 0, 0)));
        // A newer phone is answered in version 1.
        assert_eq!(
            call(&mut s, Some(&[3, 0, 0x14, 0, 0xAA])),
            Ok((octets(&profile(4)), 0, 0))
        );
        assert_eq!(s, session(15));
    }

    #[test]
    fn unfit_configuration_keeps_the_settings() {
        let mut s = session(15);
        let first = configuration(15);
        assert_eq!(configure(&mut s, &first), 15);
        let mut second = configuration(15);
        second.configuration.uwb.session_id = 8;
        second.configuration.uwb.channel = 5;
        second.configuration.nan.periodic = 1;
        second.configuration.rssi.address = [2; 6];
        assert_eq!(configure(&mut s, &second), 0b1010);
        assert_eq!((s.uwb.on, s.uwb.settings), (true, first.configuration.uwb));
        assert_eq!((s.nan.on, s.nan.settings), (true, first.configuration.nan));
        assert_eq!((s.rssi.on, s.rssi.settings), (true, second.configuration.rssi));
        second.configuration.uwb.channel = 9;
        assert_eq!(configure(&mut s, &second), 0b1011);
        assert_eq!(s.uwb.settings, second.configuration.uwb);
        // What is not named goes on.
        let before = s;
        assert_eq!(configure(&mut s, &configuration(2)), 2);
        assert_eq!(s, before);
    }

    #[test]
    fn stop_answers_what_ended() {
        let mut s = session(15);
        assert_eq!(configure(&mut s, &configuration(0b1110)), 0b1110);
        assert_eq!(stop(&mut s, 0b0011), 0);
        assert_eq!(stop(&mut s, 0b0111), 0b0100);
        assert!(s.rssi.on && !s.mark);
        assert_eq!(stop(&mut s, 0xFF), 0b1000);
        assert_eq!(s, session(15));
    }

    #[test]
    fn uwb_after_a_stop() {
        let mut s = session(15);
        assert_eq!(stop(&mut s, 1), 0);
        assert_eq!(configure(&mut s, &configuration(1)), 1);
        assert_eq!(stop(&mut s, 1), 1);
        assert_eq!((s.mark, s.uwb), (true, Ranging::default()));
        assert_eq!(configure(&mut s, &configuration(15)), 0b1110);
        request(&mut s, 0b1110);
        assert_eq!(s.message(&[1, 0, 1, 0], &mut [0; 23]), Err(Refusal::ShortBuffer));
        assert_eq!(configure(&mut s, &configuration(1)), 0);
        request(&mut s, 1);
        assert_eq!(configure(&mut s, &configuration(1)), 1);
        // Capabilities given out while ranging do not outlast the Stop.
        request(&mut s, 1);
        assert_eq!(stop(&mut s, 1), 1);
        assert_eq!(stop(&mut s, 1), 0);
        assert_eq!(configure(&mut s, &configuration(1)), 0);
        call(&mut s, None).unwrap();
        assert_eq!(configure(&mut s, &configuration(1)), 1);
    }

    #[test]
    fn cs_is_set_and_never_ranging() {
        let mut s = session(15);
        for level in 0..=4 {
            let mut record = configuration(2);
            record.configuration.cs.security_level = level;
            assert_eq!(configure(&mut s, &record), if matches!(level, 1 | 4) { 2 } else { 0 });
        }
        assert_eq!(s, session(15));
        assert_eq!(stop(&mut s, 2), 0);
    }

    #[test]
    fn nan_periodic() {
        let mut record = configuration(4);
        record.configuration.nan.periodic = 1;
        assert_eq!(configure(&mut session(15), &record), 0);
        let mut able = profile(15);
        able.capability.nan.periodic = 1;
        let mut s = start(&able, REPLIES_ON).unwrap();
        assert_eq!(configure(&mut s, &record), 4);
        assert_eq!(configure(&mut s, &configuration(4)), 4);
    }

    #[test]
    fn uwb_numbers_and_their_bits() {
        let fits = |number: u8, change: fn(&mut UwbConfiguration, u8)| {
            let mut record = configuration(1);
            change(&mut record.configuration.uwb, number);
            configure(&mut session(15), &record) == 1
        };
        let mut ends = profile(15);
        ends.capability.uwb.preamble_indexes = 0x8000_0001;
        for number in 0..=255 {
            assert_eq!(fits(number, |uwb, n| uwb.channel = n), number == 9);
            assert_eq!(fits(number, |uwb, n| uwb.config_id = n), number <= 1);
            assert_eq!(fits(number, |uwb, n| uwb.preamble_index = n), matches!(number, 9..=12));
            let mut record = configuration(1);
            record.configuration.uwb.preamble_index = number;
            let set = configure(&mut start(&ends, REPLIES_ON).unwrap(), &record);
            assert_eq!(set == 1, matches!(number, 1 | 32));
        }
    }

    #[test]
    fn uwb_times_and_roles() {
        let set = |change: fn(&mut UwbCapability, &mut UwbConfiguration)| {
            let (mut profile, mut record) = (profile(15), configuration(1));
            change(&mut profile.capability.uwb, &mut record.configuration.uwb);
            configure(&mut start(&profile, REPLIES_ON).unwrap(), &record)
        };
        assert_eq!(set(|_, uwb| uwb.interval = 96), 0);
        assert_eq!(set(|_, uwb| uwb.interval = 600), 1);
        assert_eq!(set(|able, _| able.shortest_slot = 2), 0);
        assert_eq!(set(|_, uwb| uwb.slot = 2), 1);
        assert_eq!(set(|_, uwb| uwb.role = 1), 0);
        assert_eq!(set(|able, _| able.roles = 0xFD), 0);
        assert_eq!(set(|able, uwb| (able.roles, uwb.role) = (1, 1)), 1);
    }

    #[test]
    fn quiet_unless_replies_are_on() {
        for replies in [REPLIES_NOT_SAID, REPLIES_OFF] {
            let mut s = start(&profile(15), replies).unwrap();
            let message = octets(&configuration(11));
            assert_eq!(call(&mut s, Some(&message)), Ok((Vec::new(), 11, 0)));
            assert!(s.uwb.on && s.rssi.on && !s.nan.on);
            assert_eq!(call(&mut s, Some(&[1, 6, 15, 0])), Ok((Vec::new(), 0, 9)));
            assert!(s.mark && !s.uwb.on && !s.rssi.on);
            // Nothing set and nothing stopped is quiet too.
            let message = octets(&configuration(1));
            assert_eq!(call(&mut s, Some(&message)), Ok((Vec::new(), 0, 0)));
            assert_eq!(call(&mut s, Some(&[1, 6, 15, 0])), Ok((Vec::new(), 0, 0)));
            // Capabilities are given out whatever the choice, and need room.
            assert_eq!(request(&mut s, 15), octets(&profile(15)));
            assert!(!s.mark);
            assert_eq!(call(&mut s, None), Ok((octets(&profile(15)), 0, 0)));
            assert_eq!(s.advertise(&mut [0; 46]), Err(Refusal::ShortBuffer));
        }
    }

    #[test]
    fn refused_start_is_quiet() {
        // The choice of replies is refused with the profile.
        let refused = start(&Record::ZERO, REPLIES_ON);
        assert_eq!(refused, Err(Refusal::NotValid));
        let mut s = refused.unwrap_or(Session::empty());
        assert_eq!(s.profile.replies, REPLIES_NOT_SAID);
        assert_eq!(request(&mut s, 15), [1, 1, 0, 0]);
        assert_eq!(call(&mut s, None), Ok((vec![1, 1, 0, 0], 0, 0)));
        let message = octets(&configuration(15));
        assert_eq!(call(&mut s, Some(&message)), Ok((Vec::new(), 0, 0)));
        assert_eq!(call(&mut s, Some(&[1, 6, 15, 0])), Ok((Vec::new(), 0, 0)));
        assert_eq!(s, Session::empty());
    }

    #[test]
    fn messages_that_are_not_for_a_tag() {
        let mut s = session(15);
        configure(&mut s, &configuration(15));
        let response = octets(&profile(15));
        let mut longer = response.clone();
        longer.push(0);
        assert_eq!(call(&mut s, Some(&response)), Err(10));
        assert_eq!(call(&mut s, Some(&longer)), Err(9));
        assert_eq!(call(&mut s, Some(&response[..46])), Err(2));
        longer[0] = 2;
        assert_eq!(call(&mut s, Some(&longer)), Err(10));
        for id in [3, 7] {
            assert_eq!(call(&mut s, Some(&[1, id, 1, 0])), Err(10));
            assert_eq!(call(&mut s, Some(&[1, id, 1, 0, 0])), Err(9));
            assert_eq!(call(&mut s, Some(&[2, id, 1, 0])), Err(4));
            assert_eq!(call(&mut s, Some(&[1, id, 1])), Err(2));
        }
        assert_eq!(call(&mut s, Some(&[1, 0, 1, 0, 0])), Err(9));
        assert_eq!(call(&mut s, Some(&[1, 6, 1, 0, 0])), Err(9));
        assert_eq!(call(&mut s, Some(&[1, 2, 1, 0, 0, 0])), Err(5));
        assert_eq!(call(&mut s, Some(&[])), Err(2));
        assert_eq!(call(&mut s, Some(&[1; 257])), Err(1));
        assert_eq!(call(&mut s, Some(&[1, 8])), Err(3));
    }

    #[test]
    fn profiles_that_are_not_valid() {
        assert_eq!(start(&profile(15), 3), Err(Refusal::NotValid));
        assert_eq!(start(&configuration(15), REPLIES_NOT_SAID), Err(Refusal::NotValid));
        assert_eq!(start(&Record::ZERO, REPLIES_NOT_SAID), Err(Refusal::NotValid));
        assert_eq!(start(&profile(0), REPLIES_NOT_SAID), Ok(Session::empty()));
        let changes: [fn(&mut Session); 6] = [
            |s| s.profile.replies = 3,
            |s| s.profile.set |= 0x10,
            |s| s.profile.set = 14,
            |s| s.profile.capability.uwb.shortest_interval = 0,
            |s| s.profile.capability.uwb.shortest_slot = 3,
            |s| s.profile.capability.nan.periodic = 2,
        ];
        for change in changes {
            let mut s = session(15);
            configure(&mut s, &configuration(15));
            change(&mut s);
            for message in [&[][..], &[1; 257], &[1, 3, 0, 0], &[1, 0, 0, 0], &[1, 6, 1, 0]] {
                assert_eq!(call(&mut s, Some(message)), Err(12));
            }
            assert_eq!(call(&mut s, None), Err(12));
        }
    }

    #[test]
    fn forged_sessions() {
        // Ranging outside the profile ends with a Stop; what does not range is left.
        let mut s = session(8);
        s.uwb.on = true;
        s.nan.settings.role = 9;
        assert_eq!(stop(&mut s, 15), 1);
        assert_eq!((s.mark, s.uwb.on, s.nan.settings.role), (true, false, 9));
        // With the mark, running UWB keeps its settings.
        let mut s = session(15);
        (s.uwb.on, s.mark) = (true, true);
        let before = s;
        assert_eq!(configure(&mut s, &configuration(1)), 0);
        assert_eq!(s, before);
    }
}
