//! Configurations made for a profile: within it, or outside it by one rule.
use crate::random::Random;
use crate::shapes::{configuration, Shape, Values, INTERVALS};
use second::Capability;

/// The rules of what lies within a profile, each with the ways to break it that are easy to miss.
#[derive(Clone, Copy, PartialEq, Eq, Hash, Debug)]
pub enum Rule {
    ConfigIdWithoutBit,
    ConfigIdAbove31,
    ChannelWithoutBit,
    ChannelAbove31,
    PreambleIndexWithoutBit,
    /// Bit n is there, but preamble index n has bit n - 1.
    PreambleIndexBesideBit,
    PreambleIndex0,
    PreambleIndexAbove32,
    Interval,
    Slot,
    Role,
    Level,
    Periodic,
}

impl Rule {
    pub const ALL: [Rule; 13] = [
        Rule::ConfigIdWithoutBit,
        Rule::ConfigIdAbove31,
        Rule::ChannelWithoutBit,
        Rule::ChannelAbove31,
        Rule::PreambleIndexWithoutBit,
        Rule::PreambleIndexBesideBit,
        Rule::PreambleIndex0,
        Rule::PreambleIndexAbove32,
        Rule::Interval,
        Rule::Slot,
        Rule::Role,
        Rule::Level,
        Rule::Periodic,
    ];

    /// The technology whose settings it is about.
    pub fn technology(self) -> u8 {
        match self {
            Rule::Level => 1,
            Rule::Periodic => 2,
            _ => 0,
        }
    }
}

/// A Configuration, which of the four technologies it has within the profile, and the one rule that it breaks.
pub struct Fitted {
    pub shape: Shape,
    pub within: u16,
    pub broken: Option<Rule>,
}

const OCTETS: [u16; 256] = {
    let mut octets = [0; 256];
    let mut n = 0;
    while n < 256 {
        octets[n] = n as u16;
        n += 1;
    }
    octets
};

/// One of these numbers that will do, if there is one.
fn find(random: &mut Random, among: &[u16], will_do: impl Fn(u16) -> bool) -> Option<u16> {
    let mut fitting = among.iter().copied().filter(|number| will_do(*number));
    let count = fitting.clone().count();
    fitting.nth(random.below(count.max(1)))
}

struct Maker<'a> {
    random: &'a mut Random,
    rule: Option<Rule>,
    /// Whether a number breaks the rule.
    broken: bool,
    /// Technologies that the profile cannot set, whatever the settings.
    hopeless: u16,
}

impl Maker<'_> {
    /// A number for a field: one that breaks the rule, if the rule is this field's, or else one that keeps to the profile. If
    /// the profile has none, any.
    fn number(
        &mut self,
        technology: u8,
        among: &[u16],
        keeps: impl Fn(u16) -> bool,
        breaks: impl Fn(Rule, u16) -> bool,
    ) -> u16 {
        let breaking = self.rule.and_then(|rule| find(self.random, among, |n| breaks(rule, n)));
        self.broken |= breaking.is_some();
        breaking.or_else(|| find(self.random, among, keeps)).unwrap_or_else(|| {
            self.hopeless |= 1 << technology;
            self.random.pick(among)
        })
    }
}

/// A Configuration of this set for a profile. Breaks the rule if some number does.
pub fn fitted(random: &mut Random, profile: &Capability, set: u16, rule: Option<Rule>) -> Fitted {
    let mut values = Values::any(random);
    let mut maker = Maker {
        random,
        rule,
        broken: false,
        hopeless: 0,
    };
    let bit = |bits: u32, n: u16| bits >> (n % 32) & 1 == 1;

    let uwb = &profile.uwb;
    let config_id = maker.number(
        0,
        &OCTETS,
        |n| n < 32 && bit(uwb.config_ids, n),
        |rule, n| match rule {
            Rule::ConfigIdWithoutBit => n < 32 && !bit(uwb.config_ids, n),
            Rule::ConfigIdAbove31 => n >= 32 && bit(uwb.config_ids, n),
            _ => false,
        },
    );
    let channel = maker.number(
        0,
        &OCTETS,
        |n| n < 32 && bit(uwb.channels, n),
        |rule, n| match rule {
            Rule::ChannelWithoutBit => n < 32 && !bit(uwb.channels, n),
            Rule::ChannelAbove31 => n >= 32 && bit(uwb.channels, n),
            _ => false,
        },
    );
    let of_index = |n: u16| n != 0 && bit(uwb.preamble_indexes, n - 1);
    let preamble_index = maker.number(
        0,
        &OCTETS,
        |n| n <= 32 && of_index(n),
        |rule, n| match rule {
            Rule::PreambleIndexWithoutBit => (1..=32).contains(&n) && !of_index(n),
            Rule::PreambleIndexBesideBit => (1..32).contains(&n) && !of_index(n) && of_index(n + 1),
            Rule::PreambleIndex0 => n == 0,
            Rule::PreambleIndexAbove32 => n > 32 && of_index(n),
            _ => false,
        },
    );
    let interval = |n| n >= uwb.shortest_interval;
    values.interval = maker.number(0, &INTERVALS, interval, |rule, n| {
        rule == Rule::Interval && !interval(n)
    });
    let slot = |n| n >= u16::from(uwb.shortest_slot);
    values.slot = maker.number(0, &[1, 2], slot, |rule, n| rule == Rule::Slot && !slot(n)) as u8;
    let role = |n| n & u16::from(uwb.roles) != 0;
    values.role = maker.number(0, &[1, 2], role, |rule, n| rule == Rule::Role && !role(n)) as u8;
    let level = |n| bit(profile.cs.security_types.into(), n);
    values.level = maker.number(1, &OCTETS[..5], level, |rule, n| rule == Rule::Level && !level(n)) as u8;
    let periodic = |n| n <= u16::from(profile.nan.periodic);
    values.periodic = maker.number(2, &[0, 1], periodic, |rule, n| rule == Rule::Periodic && !periodic(n)) as u8;

    let broken = rule.filter(|_| maker.broken);
    let outside = broken.map_or(0, |rule| 1 << rule.technology());
    let hopeless = maker.hopeless;
    let mut shape = configuration(random, set, &values);
    if let Some(block) = shape.blocks.iter_mut().find(|block| block.id == 0) {
        block.fields[6..9].copy_from_slice(&[config_id as u8, channel as u8, preamble_index as u8]);
    }
    Fitted {
        shape,
        within: set & !hopeless & !outside,
        broken: broken.filter(|_| hopeless & outside == 0),
    }
}
