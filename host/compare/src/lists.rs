//! Lists of calls, each made from a seed: a start, perhaps a forged session in its place, then messages and advertisements.
use crate::convert::to_library;
use crate::damage::any_record;
use crate::fitted::{fitted, Fitted, Rule};
use crate::mixtures::{changed, decorate};
use crate::pair::ROOM_LIMIT;
use crate::profiles::{self, Fault};
use crate::random::Random;
use crate::shapes::{response, Shape, Values};
use raydulcimer::raw;
use second::Record;

pub struct List {
    pub seed: u64,
    pub profile: Record,
    pub replies: u8,
    /// What is wrong with the profile or the choice.
    pub fault: Option<Fault>,
    pub forged: Option<Forged>,
    pub calls: Vec<Call>,
}

/// A session of any numbers, in place of the started one.
pub struct Forged {
    pub session: raw::Session,
    /// What is wrong with its profile.
    pub fault: Option<Fault>,
}

pub struct Call {
    /// None for an advertisement.
    pub message: Option<Vec<u8>>,
    /// The length of the lent buffer.
    pub room: usize,
    /// The first octet that the buffer holds before the call; the others follow from it.
    pub filling: u8,
    /// What a sound Configuration was made for.
    pub aim: Option<Aim>,
}

/// Which technologies a Configuration has within the profile, and the one rule that it breaks.
pub struct Aim {
    pub within: u16,
    pub broken: Option<Rule>,
}

impl List {
    pub fn new(seed: u64) -> Self {
        let random = &mut Random::new(seed);
        let any_set = random.below(16) as u16;
        let set = random.pick(&[any_set, any_set, any_set, 15, 15, 13, 9]);
        let mut profile = profiles::any(random, set);
        let mut replies = random.below(3) as u8;
        let count = 1 + random.below(32);
        let calls = (0..count).map(|_| Call::any(random, &profile)).collect();
        let forged = (random.below(6) == 0).then(|| Forged::any(random, profile, replies));
        let fault = (random.below(12) == 0).then(|| random.pick(&Fault::ALL));
        if let Some(fault) = fault {
            fault.put(random, &mut profile, &mut replies);
        }
        List {
            seed,
            profile,
            replies,
            fault,
            forged,
            calls,
        }
    }
}

impl Forged {
    fn any(random: &mut Random, mut profile: Record, mut replies: u8) -> Self {
        let fault = (random.below(3) == 0).then(|| random.pick(Fault::OF_SESSIONS));
        if let Some(fault) = fault {
            fault.put(random, &mut profile, &mut replies);
        }
        let settings = to_library(&any_record(random)).configuration;
        let proved = to_library(&profile);
        let session = raw::Session {
            profile: raw::Profile {
                set: proved.set,
                replies,
                capability: proved.capability,
            },
            uwb: any_state(random, settings.uwb),
            nan: any_state(random, settings.nan),
            rssi: any_state(random, settings.rssi),
            mark: any_flag(random),
        };
        Forged { session, fault }
    }
}

fn any_flag(random: &mut Random) -> u8 {
    random.pick(&[0, 0, 1, 2, 128, 255])
}

fn any_state<T: Copy + Default>(random: &mut Random, settings: T) -> raw::State<T> {
    raw::State {
        ranging: any_flag(random),
        settings: random.pick(&[settings, settings, T::default()]),
    }
}

impl Call {
    fn any(random: &mut Random, profile: &Record) -> Self {
        let mut aim = None;
        let message = match random.below(100) {
            0..=41 => {
                let made = configuration(random, profile);
                aim = Some(Aim {
                    within: made.within,
                    broken: made.broken,
                });
                Some(made.shape.octets())
            }
            42..=57 => Some(stop(random).octets()),
            58..=69 => Some(request(random)),
            70..=77 => None,
            78..=83 => Some(not_for_tag(random).octets()),
            84..=95 => Some(damaged(random, profile)),
            96..=97 => Some(too_long(random)),
            _ => {
                let length = random.below(40);
                Some(random.octets(length))
            }
        };
        let need = need(profile, message.as_deref());
        let room = match random.below(16) {
            0 => 0,
            1 => need - 1,
            2 => need,
            3 => random.below(need),
            _ => need + random.below(ROOM_LIMIT - need),
        };
        Call {
            message,
            room,
            filling: random.octet(),
            aim,
        }
    }
}

/// How many octets the reply has, if there is one.
fn need(profile: &Record, message: Option<&[u8]>) -> usize {
    let given = match message {
        None => profile.set,
        Some(&[_, 0, named, ..]) => profile.set & u16::from(named),
        Some(_) => 0,
    };
    let sizes = [20, 9, 6, 8].iter().enumerate();
    4 + sizes
        .filter(|(id, _)| given >> id & 1 == 1)
        .map(|(_, size)| size)
        .sum::<usize>()
}

/// Any set, now and then with reserved bits.
fn any_set(random: &mut Random) -> u16 {
    let reserved = random.next() as u16 & 0xFFF0;
    random.below(16) as u16 | random.pick(&[0, 0, 0, reserved])
}

fn configuration(random: &mut Random, profile: &Record) -> Fitted {
    let any_set = random.below(16) as u16;
    let set = random.pick(&[any_set, any_set, profile.set, profile.set, profile.set & any_set]);
    let rule = random.pick(&Rule::ALL);
    let rule = random.pick(&[Some(rule), None]);
    let mut made = fitted(random, &profile.capability, set, rule);
    if random.below(4) == 0 {
        decorate(random, &mut made.shape);
    }
    made
}

fn stop(random: &mut Random) -> Shape {
    Shape::new(6, any_set(random), vec![])
}

/// A Request, now and then of a later version and with octets after its set.
fn request(random: &mut Random) -> Vec<u8> {
    let mut shape = Shape::new(0, any_set(random), vec![]);
    shape.version = random.pick(&[1, 1, 1, 1, 1, 2, 3, 255]);
    let mut message = shape.octets();
    if shape.version != 1 {
        let more = random.pick(&[0, 1, 2, 252]);
        message.extend(random.octets(more));
    }
    message
}

/// A Capability, Configuration or Stop Response.
fn not_for_tag(random: &mut Random) -> Shape {
    let (set, values) = (any_set(random), Values::any(random));
    match random.pick(&[1, 3, 7]) {
        1 => response(random, set & 15, &values),
        id => Shape::new(id, set, vec![]),
    }
}

fn damaged(random: &mut Random, profile: &Record) -> Vec<u8> {
    let shape = match random.below(6) {
        0 => stop(random),
        1 => not_for_tag(random),
        _ => configuration(random, profile).shape,
    };
    changed(random, shape, 3)
}

fn too_long(random: &mut Random) -> Vec<u8> {
    let mut message = request(random);
    let length = random.pick(&[257, 258, 300]);
    message.resize(length, 0);
    message
}
