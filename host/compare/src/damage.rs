//! Writers on records with any one field damaged, and on records of nothing but chance.
use crate::checker::Checker;
use crate::random::Random;
use crate::shapes::of_each_set;
use second::Record;

/// Each way to put a number into one field, or into one octet of an array.
type Field = Box<dyn Fn(&mut Record, u64)>;

macro_rules! numbers {
    ($($($name:ident).+ : $of:ty),* $(,)?) => {
        vec![$(Box::new(|r: &mut Record, x: u64| r.$($name).+ = x as $of) as Field),*]
    };
}

macro_rules! arrays {
    ($($($name:ident).+ : $count:literal),* $(,)?) => {{
        let mut fields: Vec<Field> = Vec::new();
        $(for at in 0..$count {
            fields.push(Box::new(move |r: &mut Record, x: u64| r.$($name).+[at] = x as u8));
        })*
        fields
    }};
}

fn fields() -> Vec<Field> {
    let mut fields = numbers![
        id: u8, set: u16,
        capability.uwb.channels: u32, capability.uwb.preamble_indexes: u32, capability.uwb.config_ids: u32,
        capability.uwb.shortest_interval: u16, capability.uwb.shortest_slot: u8, capability.uwb.roles: u8,
        capability.cs.security_types: u8,
        capability.nan.features: u8, capability.nan.periodic: u8, capability.nan.bandwidth: u8,
        capability.nan.receive_chains: u8,
        configuration.uwb.session_id: u32, configuration.uwb.config_id: u8, configuration.uwb.channel: u8,
        configuration.uwb.preamble_index: u8, configuration.uwb.interval: u16, configuration.uwb.slot: u8,
        configuration.uwb.key_length: u8, configuration.uwb.role: u8, configuration.uwb.mode: u8,
        configuration.cs.security_level: u8,
        configuration.nan.name_length: u8, configuration.nan.role: u8, configuration.nan.periodic: u8,
    ];
    fields.extend(arrays![
        capability.uwb.address: 2, capability.cs.address: 6, capability.rssi.address: 6,
        configuration.uwb.address: 2, configuration.uwb.key: 32, configuration.uwb.country: 2,
        configuration.cs.address: 6, configuration.nan.name: 64, configuration.rssi.address: 6,
    ]);
    fields
}

/// The numbers at and beside every limit, and those with a single bit.
fn numbers() -> Vec<u64> {
    let limits = [
        3, 5, 6, 7, 9, 15, 17, 31, 33, 47, 48, 49, 63, 64, 65, 66, 90, 91, 95, 96, 97, 119, 120, 121, 239, 240, 241,
    ];
    let wide = [255, 599, 600, 601, 96 + 256, 1 << 16 | 1, u64::MAX];
    [0].into_iter()
        .chain((0..32).map(|bit| 1 << bit))
        .chain(limits)
        .chain(wide)
        .collect()
}

/// A record of nothing but chance.
pub fn any_record(random: &mut Random) -> Record {
    let mut any = Record::default();
    for field in fields() {
        field(&mut any, random.next());
    }
    any
}

pub fn run(checker: &mut Checker, random: &mut Random) {
    let (fields, numbers) = (fields(), numbers());
    let mut records: Vec<Record> = [0, 3, 6, 7]
        .map(|id| Record {
            id,
            set: 9,
            ..Record::default()
        })
        .to_vec();
    for shape in of_each_set(random) {
        records.extend(checker.message(&shape.octets()));
    }
    for record in &records {
        for field in &fields {
            for number in &numbers {
                let mut damaged = *record;
                field(&mut damaged, *number);
                let _ = checker.write(&damaged, raydulcimer::MESSAGE_LIMIT);
            }
            let mut damaged = *record;
            field(&mut damaged, random.next());
            checker.write_everywhere(&damaged);
        }
    }
    for _ in 0..10_000 {
        let any = any_record(random);
        let _ = checker.write(&any, random.below(200));
    }
}
