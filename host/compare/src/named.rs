//! The messages that the rules give to check, by name, with the answer that the rules give.
use crate::checker::Checker;
use crate::corpus::octets;

/// What the rules say of a message.
enum Answer {
    /// Refused with this number.
    No(u8),
    /// Accepted with this set; whether it is in normal form.
    Yes(u16, bool),
}
use Answer::{No, Yes};

const NAMED: &[(&str, &str, Answer)] = &[
    ("empty", "", No(2)),
    ("one octet", "01", No(2)),
    ("a set cut short", "01 00 09", No(2)),
    ("Request for UWB and RSSI", "01 00 09 00", Yes(9, true)),
    ("an octet too many", "01 00 09 00 00", No(9)),
    ("Request of version 3", "03 00 19 00 AA", Yes(9, false)),
    ("Stop of version 0", "00 06 01 00", No(4)),
    ("Stop of version 3", "03 06 01 00", No(4)),
    ("sets that differ", "01 02 02 00 0A 00", No(5)),
    ("Configuration of nothing", "01 02 00 00 00 00", Yes(0, true)),
    ("RSSI block of size 7", "01 01 08 00 03 07 A1 A2 A3 A4 A5", No(6)),
    ("RSSI block cut short", "01 01 08 00 03 08 A1", No(2)),
    ("UWB block not in the set", "01 01 08 00 00 14", No(7)),
    ("CS level 5", "01 02 02 00 02 00 01 09 05 A1 A2 A3 A4 A5 A6", No(8)),
    (
        "CS level 4",
        "01 02 02 00 02 00 01 09 04 A1 A2 A3 A4 A5 A6",
        Yes(2, true),
    ),
    (
        "RSSI before CS",
        "01 01 0A 00 03 08 A1 A2 A3 A4 A5 A6 01 09 01 B1 B2 B3 B4 B5 B6",
        Yes(10, false),
    ),
    (
        "RSSI block of size 9",
        "01 01 08 00 03 09 A1 A2 A3 A4 A5 A6 EE",
        Yes(8, false),
    ),
    (
        "bench log: RSSI Response",
        "01 01 08 00 03 08 A1 A2 A3 A4 A5 A6",
        Yes(8, true),
    ),
    ("bench log: reserved ID", "03 08 00", No(3)),
    ("Configuration Response", "01 03 08 00", Yes(8, true)),
    ("Stop Response", "01 07 08 00", Yes(8, true)),
    ("Stop Response of nothing", "01 07 00 00", Yes(0, true)),
];

fn check(checker: &mut Checker, name: &str, message: &[u8], answer: &Answer) {
    let Some(record) = checker.message(message) else {
        let number = second::read(message).map_err(|refusal| refusal.number()).err();
        let expected = if let No(number) = answer { Some(*number) } else { None };
        if number != expected {
            checker.differ(|| format!("{name}: {number:?}"));
        }
        return;
    };
    let mut out = [0; raydulcimer::MESSAGE_LIMIT];
    let same = second::write(&record, &mut out) == Ok(message.len()) && &out[..message.len()] == message;
    if !matches!(answer, Yes(set, normal) if *set == record.set && *normal == same) {
        checker.differ(|| format!("{name}: set {}, unchanged {same}", record.set));
    }
}

/// The messages of the list, without what the rules say of them.
pub fn messages() -> impl Iterator<Item = Vec<u8>> {
    NAMED.iter().map(|(_, hex, _)| octets(hex))
}

pub fn run(checker: &mut Checker) {
    for (name, hex, answer) in NAMED {
        check(checker, name, &octets(hex), answer);
    }
    check(checker, "257 octets", &[1; 257], &No(1));
    let mut request = [0; 256];
    request[..4].copy_from_slice(&[2, 0, 9, 0]);
    check(checker, "256-octet Request of version 2", &request, &Yes(9, false));
}
