//! Counts what the lists of calls reach, so that the comparison of sessions cannot go blind.
use crate::counts::Counts;
use crate::fitted::Rule;
use crate::lists::{Call, List};
use crate::outcomes::Kind::{self, Advertisement, Configuration, Request, Stop};
use crate::outcomes::Outcome::{self, *};
use crate::outcomes::{due, RANGING};
use raydulcimer::raw;

/// How far a list has come on the way to `SetAgainAfter`.
#[derive(Clone, Copy, PartialEq)]
enum Way {
    Begin,
    Marked,
    Held,
    GivenBy(Kind),
}

pub struct Reached {
    counts: Counts<Outcome>,
    way: Way,
}

fn has(set: u16, technology: u8) -> bool {
    set >> technology & 1 == 1
}

fn flag(session: &raw::Session, technology: u8) -> u8 {
    match technology {
        0 => session.uwb.ranging,
        2 => session.nan.ranging,
        3 => session.rssi.ranging,
        _ => 0,
    }
}

fn ranging(session: &raw::Session) -> u16 {
    let ranging = RANGING.iter().filter(|technology| flag(session, **technology) != 0);
    ranging.map(|technology| 1 << technology).sum()
}

/// Whether a technology has settings that are not zero without ranging.
fn idle_settings(session: &raw::Session, technology: u8) -> bool {
    let zero = raw::Session::default();
    flag(session, technology) == 0 && !same_settings(session, &zero, technology)
}

fn same_settings(one: &raw::Session, other: &raw::Session, technology: u8) -> bool {
    match technology {
        0 => one.uwb.settings == other.uwb.settings,
        2 => one.nan.settings == other.nan.settings,
        3 => one.rssi.settings == other.rssi.settings,
        _ => true,
    }
}

/// A call with the session before and after it.
pub struct Step<'a> {
    pub list: &'a List,
    pub call: &'a Call,
    pub before: &'a raw::Session,
    pub answer: &'a raw::Answer,
    pub after: &'a raw::Session,
}

impl Step<'_> {
    /// None for a message that no tag is sent.
    fn kind(&self) -> Option<Kind> {
        match self.call.message.as_deref() {
            None => Some(Advertisement),
            Some([_, 0, ..]) => Some(Request),
            Some([_, 2, ..]) => Some(Configuration),
            Some([_, 6, ..]) => Some(Stop),
            Some(_) => None,
        }
    }

    /// What an accepted message names.
    fn named(&self) -> u16 {
        let message = self.call.message.as_deref().unwrap_or(&[]);
        message.get(2).map_or(0, |low| u16::from(low & 15))
    }

    /// What the session's profile has.
    fn profile(&self) -> u16 {
        self.before.profile.set.0
    }

    fn mark(&self) -> bool {
        self.before.mark != 0
    }

    /// How many octets the reply would have.
    fn need(&self) -> usize {
        let (mut session, mut out) = (*self.before, [0; raydulcimer::MESSAGE_LIMIT]);
        match &self.call.message {
            Some(message) => session.message(message, &mut out).length,
            None => session.advertise(&mut out).length,
        }
    }
}

impl Reached {
    pub fn new() -> Self {
        Reached {
            counts: Counts::new(due()),
            way: Way::Begin,
        }
    }

    fn count(&mut self, outcome: Outcome) {
        self.counts.count(outcome);
    }

    /// The outcomes that are due and how often each was reached, the rarest first.
    pub fn rarest(&self) -> Vec<(Outcome, u64)> {
        self.counts.rarest()
    }

    pub fn start(&mut self, list: &List, refused: bool) {
        self.way = Way::Begin;
        match list.fault {
            Some(fault) if refused => self.count(NotStarted(fault)),
            _ => self.count(Started {
                set: list.profile.set,
                replies: list.replies,
            }),
        }
    }

    pub fn call(&mut self, step: &Step) {
        let message = step.call.message.as_deref();
        match (step.answer.refusal, step.kind(), message) {
            (0, Some(kind), _) => self.accepted(step, kind),
            (10, _, Some(&[_, id, ..])) => {
                self.count(NotForTag(id));
                if step.call.room == 0 {
                    self.count(NotForTagWithoutRoom(id));
                }
            }
            (11, Some(kind), _) => self.too_short(step, kind),
            (12, ..) => {
                if let Some(fault) = step.list.forged.as_ref().and_then(|forged| forged.fault) {
                    let advertisement = message.is_none();
                    self.count(ForgedProfile { fault, advertisement });
                }
            }
            (number, ..) => {
                let busy = ranging(step.before) != 0 || step.mark();
                self.count(Refused { number, busy });
            }
        }
    }

    fn too_short(&mut self, step: &Step, kind: Kind) {
        if step.call.room == 0 {
            self.count(NoRoom(kind));
        }
        if step.call.room + 1 == step.need() {
            self.count(OneShort(kind));
        }
        if step.mark() {
            self.count(MarkStaysWithoutRoom(kind));
        }
    }

    fn accepted(&mut self, step: &Step, kind: Kind) {
        let (before, answer) = (step.before, step.answer);
        let (replies, written) = (before.profile.replies, answer.length != 0);
        self.count(Answered { kind, replies, written });
        match &step.list.forged {
            None if step.list.fault.is_some() => self.count(ServedWithoutProfile(kind)),
            None => {
                let (ranging, mark) = (ranging(before), step.mark());
                self.count(Accepted { kind, ranging, mark });
            }
            Some(_) => {}
        }
        match (answer.length, step.call.room) {
            (0, 0) => self.count(NoRoomNeeded { kind, replies }),
            (0, _) => {}
            (length, room) if length == room => self.count(ExactRoom(kind)),
            _ => self.count(MoreRoom(kind)),
        }
        if !(answer.set | answer.stopped).is_empty() {
            self.count(Done { kind, replies });
        }
        match kind {
            Request => self.given_out(step, kind, step.named() & step.profile()),
            Advertisement => self.given_out(step, kind, step.profile()),
            Configuration => self.configured(step),
            Stop => self.stopped(step),
        }
    }

    fn given_out(&mut self, step: &Step, kind: Kind, set: u16) {
        self.count(Given(set));
        match (step.mark(), step.after.mark != 0) {
            (true, true) => self.count(MarkStays),
            (true, false) => {
                self.count(MarkGoes(kind));
                if step.before.mark > 1 {
                    self.count(HighMarkGoes(kind));
                }
                self.way = if self.way == Way::Held {
                    Way::GivenBy(kind)
                } else {
                    Way::Begin
                };
            }
            _ => {}
        }
    }

    fn configured(&mut self, step: &Step) {
        let (before, after, set) = (step.before, step.after, step.answer.set.0);
        self.count(Set(set));
        if has(set, 0) && after.uwb.settings.country == *b"00" {
            self.count(SetCountryUnknown);
        }
        for technology in (0..4).filter(|t| has(step.named(), *t)) {
            let ranging = flag(before, technology) != 0;
            if !has(step.profile(), technology) {
                self.count(NamedOutsideProfile(technology));
            } else if has(set, technology) {
                if ranging && !same_settings(before, after, technology) {
                    self.count(NewSettings(technology));
                }
                if idle_settings(before, technology) {
                    self.count(IdleSettingsReplaced(technology));
                }
            } else if ranging {
                self.count(OldSettings(technology));
            }
        }
        if let Way::GivenBy(kind) = self.way {
            if has(set, 0) {
                self.count(SetAgainAfter(kind));
                self.way = Way::Begin;
            }
        }
        if let Some(aim) = &step.call.aim {
            self.aimed(step, aim.within & step.profile(), aim.broken);
        }
    }

    fn aimed(&mut self, step: &Step, within: u16, broken: Option<Rule>) {
        let (before, named) = (step.before, step.named() & step.profile());
        if step.mark() && has(within, 0) {
            self.count(MarkHolds);
            if before.mark > 1 {
                self.count(HighMarkHolds);
            }
            if before.uwb.ranging != 0 {
                self.count(MarkHoldsRanging);
            }
            if self.way == Way::Marked {
                self.way = Way::Held;
            }
        }
        if let Some(rule) = broken.filter(|rule| has(named, rule.technology())) {
            if rule.technology() != 0 || !step.mark() {
                let ranging = flag(before, rule.technology()) != 0;
                self.count(Unfit { rule, ranging });
            }
        }
    }

    fn stopped(&mut self, step: &Step) {
        let (before, set) = (step.before, step.answer.stopped.0);
        self.count(Stopped(set));
        if has(set, 0) {
            self.count(MarkComes);
            self.way = Way::Marked;
        } else if has(step.named(), 0) {
            self.count(UwbWasNotRanging { mark: step.mark() });
        }
        for technology in RANGING {
            if has(set, technology) && flag(before, technology) > 1 {
                self.count(HighFlagStopped(technology));
            }
            if has(set, technology) && !has(step.profile(), technology) {
                self.count(StoppedOutsideProfile(technology));
            }
            if has(step.named(), technology) && idle_settings(before, technology) {
                self.count(IdleSettingsLeft(technology));
            }
        }
    }
}
