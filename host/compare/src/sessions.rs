//! Takes both implementations through lists of calls and compares every answer, buffer and session.
use crate::checker::hex;
use crate::convert::to_library;
use crate::lists::{Call, List};
use crate::pair::Pair;
use crate::random::Random;
use crate::reached::{Reached, Step};
use raydulcimer::Technologies;

/// After so many lists with a difference the rest is only counted.
const SHOWN: u64 = 3;

pub struct Sessions {
    pub lists: u64,
    pub calls: u64,
    pub accepted: u64,
    pub differences: u64,
    pub reached: Reached,
}

/// After how many calls of a list there is a difference, and which.
struct Difference {
    calls: usize,
    what: String,
}

/// Lists with so many calls, or a few more.
pub fn run(seed: u64, calls: u64) -> Sessions {
    let mut seeds = Random::new(seed);
    let mut sessions = Sessions {
        lists: 0,
        calls: 0,
        accepted: 0,
        differences: 0,
        reached: Reached::new(),
    };
    while sessions.calls < calls {
        let list = List::new(seeds.next());
        sessions.lists += 1;
        if let Err(difference) = sessions.compare(&list) {
            sessions.differences += 1;
            if sessions.differences <= SHOWN {
                show(&list, &difference);
            }
        }
    }
    sessions
}

impl Sessions {
    fn compare(&mut self, list: &List) -> Result<(), Difference> {
        let at = |calls| move |what| Difference { calls, what };
        let mut pair = self.start(list).map_err(at(0))?;
        for (number, call) in list.calls.iter().enumerate() {
            self.call(list, call, &mut pair).map_err(at(number + 1))?;
        }
        Ok(())
    }

    /// The sessions that the calls begin with.
    fn start(&mut self, list: &List) -> Result<Pair, String> {
        let (pair, refusal) = Pair::start(&list.profile, list.replies)?;
        self.reached.start(list, refusal != 0);
        Ok(match &list.forged {
            Some(forged) => Pair::forged(&forged.session),
            None => pair,
        })
    }

    fn call(&mut self, list: &List, call: &Call, pair: &mut Pair) -> Result<(), String> {
        self.calls += 1;
        let before = pair.proved;
        let answer = pair.call(call.message.as_deref(), call.room, call.filling)?;
        if answer.refusal == 0 {
            self.accepted += 1;
            if let Some(aim) = &call.aim {
                let held = u16::from(before.mark != 0);
                let due = Technologies(aim.within & !held) & before.profile.set;
                if answer.set != due {
                    return Err(format!("both set {}, and {due} is due", answer.set));
                }
            }
        }
        self.reached.call(&Step {
            list,
            call,
            before: &before,
            answer: &answer,
            after: &pair.proved,
        });
        Ok(())
    }
}

/// The shortest part of a list that shows a difference.
fn show(list: &List, difference: &Difference) {
    let Difference { calls, what } = difference;
    println!(
        "DIFFERENCE in the list of seed {} after {calls} calls: {what}",
        list.seed
    );
    let (profile, mut out) = (to_library(&list.profile), [0; raydulcimer::MESSAGE_LIMIT]);
    match raydulcimer::write(&profile, &mut out) {
        Ok(length) => println!("  start with {}, replies {}", hex(&out[..length]), list.replies),
        Err(_) => println!("  start with {:X?}, replies {}", list.profile, list.replies),
    }
    if let Some(forged) = &list.forged {
        let key = hex(&forged.session.uwb.settings.key);
        println!("  forged {:X?} with the key {key}", forged.session);
    }
    for call in &list.calls[..*calls] {
        match &call.message {
            Some(message) => print!("  message {}", hex(message)),
            None => print!("  advertisement"),
        }
        println!(", room {}, buffer from {:02X}", call.room, call.filling);
    }
}
