//! Every pair of octets as the country of a message that is read and of a record that is written, and what that has to reach.
use crate::checker::{hex, Checker};
use crate::counts::Counts;
use crate::random::Random;
use crate::shapes::{configuration, Values};

/// What two octets are as a country.
#[derive(Clone, Copy, PartialEq, Eq, Hash, Debug)]
pub enum Country {
    Letters,
    /// 00
    Unknown,
    LetterThenZero,
    ZeroThenLetter,
    /// A letter and a digit that is not 0, in either order.
    LetterAndDigit,
    /// Two digits, and not 00.
    OtherDigits,
    /// A 0 and a character beside the digits.
    BesideDigits([char; 2]),
    ZeroOctets,
    /// Two letters, and not both large.
    SmallLetters,
    Other,
}
use Country::*;

/// With the number of the refusal, or 0.
#[derive(Clone, Copy, PartialEq, Eq, Hash, Debug)]
pub enum Outcome {
    Read(Country, u8),
    Written(Country, u8),
}
use Outcome::{Read, Written};

impl Country {
    const ALL: [Country; 13] = [
        Letters,
        Unknown,
        LetterThenZero,
        ZeroThenLetter,
        LetterAndDigit,
        OtherDigits,
        BesideDigits(['/', '0']),
        BesideDigits([':', '0']),
        BesideDigits(['0', '/']),
        BesideDigits(['0', ':']),
        ZeroOctets,
        SmallLetters,
        Other,
    ];

    fn of(octets: [u8; 2]) -> Self {
        match octets {
            [b'A'..=b'Z', b'A'..=b'Z'] => Letters,
            [b'0', b'0'] => Unknown,
            [b'A'..=b'Z', b'0'] => LetterThenZero,
            [b'0', b'A'..=b'Z'] => ZeroThenLetter,
            [b'A'..=b'Z', b'1'..=b'9'] | [b'1'..=b'9', b'A'..=b'Z'] => LetterAndDigit,
            [b'0'..=b'9', b'0'..=b'9'] => OtherDigits,
            [b'/' | b':', b'0'] | [b'0', b'/' | b':'] => BesideDigits(octets.map(char::from)),
            [0, 0] => ZeroOctets,
            [one, other] if one.is_ascii_alphabetic() && other.is_ascii_alphabetic() => SmallLetters,
            _ => Other,
        }
    }

    /// What reader and writer have to say of it.
    fn due(self) -> [Outcome; 2] {
        match self {
            Letters | Unknown => [Read(self, 0), Written(self, 0)],
            _ => [Read(self, 8), Written(self, 12)],
        }
    }
}

/// What reader and writer say of a message and a record that have this country and are sound otherwise; none where a message with
/// an allowed country is refused.
fn answers(checker: &mut Checker, random: &mut Random, octets: [u8; 2]) -> Option<[Outcome; 2]> {
    let (set, values) = (1 | random.below(16) as u16, Values::any(random));
    let mut record = second::read(&configuration(random, set, &values).octets()).ok()?;
    record.configuration.uwb.country = octets;
    let written = checker.write(&record, raydulcimer::MESSAGE_LIMIT).err();
    let values = Values {
        country: octets,
        ..values
    };
    let message = configuration(random, set, &values).octets();
    checker.message(&message);
    let read = second::read(&message).err().map(|refusal| refusal.number());
    let country = Country::of(octets);
    Some([Read(country, read.unwrap_or(0)), Written(country, written.unwrap_or(0))])
}

pub fn run(checker: &mut Checker, random: &mut Random) -> Counts<Outcome> {
    let mut reached = Counts::new(Country::ALL.into_iter().flat_map(Country::due).collect());
    for octets in (0..=u16::MAX).map(u16::to_be_bytes) {
        let outcomes = answers(checker, random, octets);
        if outcomes != Some(Country::of(octets).due()) {
            checker.differ(|| format!("country {}: {outcomes:?}", hex(&octets)));
        }
        for outcome in outcomes.into_iter().flatten() {
            reached.count(outcome);
        }
    }
    reached
}
