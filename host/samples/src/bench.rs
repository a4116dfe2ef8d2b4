//! A bench: a tag, and the log of what goes to it and comes from it.
use second::{log_record, start, Record, Session, FROM_TAG, MAX_MESSAGE, REPLIES_ON, TO_TAG};

pub struct Bench {
    session: Session,
    pub log: Vec<u8>,
}

impl Bench {
    /// Starts a tag with this profile, which advertises.
    pub fn new(profile: &Record) -> Bench {
        let mut session = start(profile, REPLIES_ON).expect("a valid profile");
        let mut out = [0; MAX_MESSAGE];
        let answer = session.advertise(&mut out).expect("room for every message");
        let log = log_record(FROM_TAG, &out[..answer.length]).to_vec();
        Bench { session, log }
    }

    /// Sends the tag a message. It answers unless it refuses it.
    pub fn send(&mut self, message: &[u8]) {
        let mut out = [0; MAX_MESSAGE];
        self.log.extend(log_record(TO_TAG, message));
        if let Ok(answer) = self.session.message(message, &mut out) {
            self.log.extend(log_record(FROM_TAG, &out[..answer.length]));
        }
    }
}
