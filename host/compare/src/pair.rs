//! A session of each implementation, taken through the same calls; every answer, buffer and session is compared.
use crate::checker::hex;
use crate::convert::{of_session, to_answer, to_library};
use raydulcimer::raw;
use second::{Record, Session};

/// No lent buffer is longer.
pub const ROOM_LIMIT: usize = 300;

/// The lent buffer lies at the start; what comes after it has to stay too.
type Buffer = [u8; ROOM_LIMIT + 20];

pub struct Pair {
    pub proved: raw::Session,
    plain: Session,
}

fn same<T: PartialEq + std::fmt::Debug>(what: &str, proved: &T, plain: &T) -> Result<(), String> {
    if proved == plain {
        Ok(())
    } else {
        Err(format!("{what}: proved {proved:X?}, second {plain:X?}"))
    }
}

impl Pair {
    /// Starts both, and returns the number of their refusal too. The error says what differs.
    pub fn start(profile: &Record, replies: u8) -> Result<(Pair, u8), String> {
        let started = raw::start(&to_library(profile), replies);
        let plain = second::start(profile, replies);
        let refusal = plain.err().map_or(0, |refusal| refusal.number());
        same("refusal of the start", &started.refusal, &refusal)?;
        let pair = Pair {
            proved: started.session,
            plain: plain.unwrap_or(Session::empty()),
        };
        pair.same_sessions()?;
        Ok((pair, refusal))
    }

    /// Both with a session of any numbers.
    pub fn forged(session: &raw::Session) -> Pair {
        Pair {
            proved: *session,
            plain: of_session(session),
        }
    }

    /// Gives both a message, or has them advertise, with a buffer of this length; the octets that it holds before follow from
    /// the filling. The error says what differs, or what both did that no call may do.
    pub fn call(&mut self, message: Option<&[u8]>, room: usize, filling: u8) -> Result<raw::Answer, String> {
        let before = self.proved;
        let buffer: Buffer = std::array::from_fn(|place| (place * 37) as u8 ^ filling);
        let (mut one, mut other) = (buffer, buffer);
        let (lent, lent_too) = (&mut one[..room], &mut other[..room]);
        let (answer, plain_answer) = match message {
            Some(message) => (
                self.proved.message(message, lent),
                self.plain.message(message, lent_too),
            ),
            None => (self.proved.advertise(lent), self.plain.advertise(lent_too)),
        };
        same("answer", &answer, &to_answer(plain_answer))?;
        if one != other {
            return Err(format!("buffer: proved {}, second {}", hex(&one), hex(&other)));
        }
        self.same_sessions()?;
        if one[answer.length..] != buffer[answer.length..] {
            return Err("both changed octets beside the reply".to_string());
        }
        if answer.refusal != 0 && self.proved != before {
            return Err("a refused call changed the session".to_string());
        }
        Ok(answer)
    }

    fn same_sessions(&self) -> Result<(), String> {
        let (proved, plain) = (of_session(&self.proved), &self.plain);
        same("profile", &proved.profile, &plain.profile)?;
        same("UWB", &proved.uwb, &plain.uwb)?;
        same("NAN", &proved.nan, &plain.nan)?;
        same("RSSI", &proved.rssi, &plain.rssi)?;
        same("mark", &proved.mark, &plain.mark)
    }
}
