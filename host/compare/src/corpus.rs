//! The corpus: every message on which the two implementations, or one of them with a seeded mistake, ever differed.
use crate::checker::Checker;

const MESSAGES: &str = include_str!("../corpus/messages.txt");

/// The octets of a line of hex; a comment starts with #.
pub fn octets(line: &str) -> Vec<u8> {
    let hex = line.split('#').next().unwrap_or("");
    hex.split_whitespace()
        .map(|octet| u8::from_str_radix(octet, 16).expect("two hex digits"))
        .collect()
}

pub fn messages() -> impl Iterator<Item = Vec<u8>> {
    MESSAGES.lines().filter(|line| !line.starts_with('#')).map(octets)
}

pub fn run(checker: &mut Checker) {
    for message in messages() {
        if let Some(record) = checker.message(&message) {
            checker.write_everywhere(&record);
        }
    }
}
