//! The fields in which two entries of logs differ, a line for each.

use crate::entry::Entry;
use crate::record::*;
use crate::refusal::Refusal;
use std::fmt::{self, Display, Formatter};
use std::io::{self, Write};

/// Prints the fields that differ. Those of one side alone are not compared.
pub(crate) struct Differences<'a, Output> {
    pub output: &'a mut Output,
    /// The position of the entries.
    pub number: u64,
}

impl<Output: Write> Differences<'_, Output> {
    pub fn of_entries(&mut self, left: &Entry, right: &Entry) -> io::Result<()> {
        let number = |entry: &Entry| entry.reading.map_or_else(Refusal::number, |_| 0);
        self.field("direction", left.direction, right.direction)?;
        self.field("refusal number", number(left), number(right))?;
        match (&left.reading, &right.reading) {
            (Ok(left), Ok(right)) => self.of_records(left, right),
            _ => Ok(()),
        }
    }

    fn of_records(&mut self, left: &Record, right: &Record) -> io::Result<()> {
        self.field("message ID", left.id, right.id)?;
        if left.id != right.id {
            return Ok(());
        }
        let presence = |record: &Record, technology| u8::from(names(record.set, technology));
        self.field("UWB presence", presence(left, UWB), presence(right, UWB))?;
        self.field("CS presence", presence(left, CS), presence(right, CS))?;
        self.field("NAN presence", presence(left, NAN), presence(right, NAN))?;
        self.field("RSSI presence", presence(left, RSSI), presence(right, RSSI))?;
        let both = left.set & right.set;
        match left.id {
            CAPABILITY_RESPONSE => self.of_capabilities(both, &left.capability, &right.capability),
            CONFIGURATION => self.of_configurations(both, &left.configuration, &right.configuration),
            _ => Ok(()),
        }
    }

    fn of_capabilities(&mut self, both: u16, left: &Capability, right: &Capability) -> io::Result<()> {
        if names(both, UWB) {
            self.of_uwb_capabilities(&left.uwb, &right.uwb)?;
        }
        if names(both, CS) {
            let (left, right) = (&left.cs, &right.cs);
            self.field("CS security types", left.security_types, right.security_types)?;
            self.field("CS address", Octets(&left.address), Octets(&right.address))?;
        }
        if names(both, NAN) {
            let (left, right) = (&left.nan, &right.nan);
            self.field("NAN features", left.features, right.features)?;
            self.field("NAN periodic", left.periodic, right.periodic)?;
            self.field("NAN bandwidth", left.bandwidth, right.bandwidth)?;
            self.field("NAN receive chains", left.receive_chains, right.receive_chains)?;
        }
        if names(both, RSSI) {
            self.of_rssi(&left.rssi, &right.rssi)?;
        }
        Ok(())
    }

    fn of_configurations(&mut self, both: u16, left: &Configuration, right: &Configuration) -> io::Result<()> {
        if names(both, UWB) {
            self.of_uwb_configurations(&left.uwb, &right.uwb)?;
        }
        if names(both, CS) {
            let (left, right) = (&left.cs, &right.cs);
            self.field("CS security level", left.security_level, right.security_level)?;
            self.field("CS address", Octets(&left.address), Octets(&right.address))?;
        }
        if names(both, NAN) {
            self.of_nan_configurations(&left.nan, &right.nan)?;
        }
        if names(both, RSSI) {
            self.of_rssi(&left.rssi, &right.rssi)?;
        }
        Ok(())
    }

    fn of_uwb_capabilities(&mut self, left: &UwbCapability, right: &UwbCapability) -> io::Result<()> {
        self.field("UWB address", Octets(&left.address), Octets(&right.address))?;
        self.field("UWB channels", left.channels, right.channels)?;
        self.field("UWB preamble indexes", left.preamble_indexes, right.preamble_indexes)?;
        self.field("UWB config IDs", left.config_ids, right.config_ids)?;
        self.field("UWB shortest interval", left.shortest_interval, right.shortest_interval)?;
        self.field("UWB shortest slot", left.shortest_slot, right.shortest_slot)?;
        self.field("UWB roles", left.roles, right.roles)
    }

    fn of_uwb_configurations(&mut self, left: &UwbConfiguration, right: &UwbConfiguration) -> io::Result<()> {
        let (left_key, right_key) = (used(&left.key, left.key_length), used(&right.key, right.key_length));
        self.field("UWB address", Octets(&left.address), Octets(&right.address))?;
        self.field("UWB session ID", left.session_id, right.session_id)?;
        self.field("UWB config ID", left.config_id, right.config_id)?;
        self.field("UWB channel", left.channel, right.channel)?;
        self.field("UWB preamble index", left.preamble_index, right.preamble_index)?;
        self.field("UWB interval", left.interval, right.interval)?;
        self.field("UWB slot", left.slot, right.slot)?;
        self.field("UWB key length", left.key_length, right.key_length)?;
        self.field("UWB key", left_key, right_key)?;
        self.field("UWB country", Octets(&left.country), Octets(&right.country))?;
        self.field("UWB role", left.role, right.role)?;
        self.field("UWB mode", left.mode, right.mode)
    }

    fn of_nan_configurations(&mut self, left: &NanConfiguration, right: &NanConfiguration) -> io::Result<()> {
        let (left_name, right_name) = (used(&left.name, left.name_length), used(&right.name, right.name_length));
        self.field("NAN name length", left.name_length, right.name_length)?;
        self.field("NAN name", left_name, right_name)?;
        self.field("NAN role", left.role, right.role)?;
        self.field("NAN periodic", left.periodic, right.periodic)
    }

    fn of_rssi(&mut self, left: &Rssi, right: &Rssi) -> io::Result<()> {
        self.field("RSSI address", Octets(&left.address), Octets(&right.address))
    }

    /// Prints the line of a field if it differs.
    fn field<Contents: PartialEq + Display>(&mut self, name: &str, left: Contents, right: Contents) -> io::Result<()> {
        if left == right {
            return Ok(());
        }
        writeln!(self.output, "{} {name}: left {left}, right {right}", self.number)
    }
}

/// Octets, printed in hexadecimal.
#[derive(PartialEq)]
struct Octets<'a>(&'a [u8]);

impl Display for Octets<'_> {
    fn fmt(&self, f: &mut Formatter) -> fmt::Result {
        let digit = |number: u8| char::from(b"0123456789ABCDEF"[usize::from(number)]);
        let digits = self.0.iter().flat_map(|octet| [digit(octet >> 4), digit(octet & 15)]);
        f.write_str(&digits.collect::<String>())
    }
}

/// The first octets, so many as are used.
fn used(octets: &[u8], length: u8) -> Octets<'_> {
    Octets(&octets[..length.into()])
}

#[cfg(test)]
mod tests {
    use super::*;
    use crate::log::{FROM_TAG, TO_TAG};
    use crate::writer::tests::{capability, configuration};

    type Change = fn(&mut Record);

    fn entry(direction: u8, reading: Result<Record, Refusal>) -> Entry {
        Entry { direction, reading }
    }

    fn of_entries(left: Entry, right: Entry) -> String {
        let mut output = Vec::new();
        let mut differences = Differences {
            output: &mut output,
            number: 7,
        };
        differences.of_entries(&left, &right).unwrap();
        String::from_utf8(output).unwrap()
    }

    fn of_records(left: Record, right: Record) -> String {
        of_entries(entry(TO_TAG, Ok(left)), entry(TO_TAG, Ok(right)))
    }

    /// Each change alone shows its line, and all together show all lines.
    fn shows(left: Record, changes: &[(Change, &str)]) {
        let (mut all, mut lines) = (left, String::new());
        for (change, line) in changes {
            let mut right = left;
            change(&mut right);
            assert_eq!(of_records(left, right), format!("7 {line}\n"));
            change(&mut all);
            lines += &format!("7 {line}\n");
        }
        assert_eq!(of_records(left, all), lines);
    }

    /// Fields of a part of the record, with other contents and the line that
    /// shows them.
    macro_rules! changes {
        ($part:ident: $($technology:ident.$field:ident $([$place:literal])? = $contents:expr => $line:literal)*) => {
            [$(((|record| record.$part.$technology.$field $([$place])? = $contents) as Change, $line)),*]
        };
    }

    #[test]
    fn fields_of_a_capability() {
        let changes = changes! { capability:
            uwb.address[1] = 0x0F => "UWB address: left B1B2, right B10F"
            uwb.channels = u32::MAX => "UWB channels: left 544, right 4294967295"
            uwb.preamble_indexes = 0 => "UWB preamble indexes: left 2147487489, right 0"
            uwb.config_ids = 1 => "UWB config IDs: left 16909060, right 1"
            uwb.shortest_interval = 96 => "UWB shortest interval: left 600, right 96"
            uwb.shortest_slot = 1 => "UWB shortest slot: left 2, right 1"
            uwb.roles = 3 => "UWB roles: left 255, right 3"
            cs.security_types = 0 => "CS security types: left 255, right 0"
            cs.address[0] = 0 => "CS address: left A1A2A3A4A5A6, right 00A2A3A4A5A6"
            nan.features = 0 => "NAN features: left 3, right 0"
            nan.periodic = 0 => "NAN periodic: left 1, right 0"
            nan.bandwidth = 0 => "NAN bandwidth: left 254, right 0"
            nan.receive_chains = 0 => "NAN receive chains: left 4, right 0"
            rssi.address[5] = 0 => "RSSI address: left A1A2A3A4A5A6, right A1A2A3A4A500"
        };
        shows(capability(KNOWN), &changes);
    }

    #[test]
    fn fields_of_a_configuration() {
        let changes = changes! { configuration:
            uwb.address[0] = 0 => "UWB address: left B1B2, right 00B2"
            uwb.session_id = 1 => "UWB session ID: left 16909060, right 1"
            uwb.config_id = 0 => "UWB config ID: left 255, right 0"
            uwb.channel = 5 => "UWB channel: left 9, right 5"
            uwb.preamble_index = 9 => "UWB preamble index: left 11, right 9"
            uwb.interval = 96 => "UWB interval: left 240, right 96"
            uwb.slot = 2 => "UWB slot: left 1, right 2"
            uwb.key[7] = 0 => "UWB key: left CCCCCCCCCCCCCCCC, right CCCCCCCCCCCCCC00"
            uwb.country = *b"00" => "UWB country: left 415A, right 3030"
            uwb.role = 2 => "UWB role: left 1, right 2"
            uwb.mode = 1 => "UWB mode: left 2, right 1"
            cs.security_level = 0 => "CS security level: left 4, right 0"
            cs.address[3] = 0 => "CS address: left A1A2A3A4A5A6, right A1A2A300A5A6"
            nan.name[1] = b'a' => "NAN name: left 6E6E, right 6E61"
            nan.role = 0 => "NAN role: left 1, right 0"
            nan.periodic = 1 => "NAN periodic: left 0, right 1"
            rssi.address[2] = 0 => "RSSI address: left A1A2A3A4A5A6, right A1A200A4A5A6"
        };
        shows(configuration(KNOWN, 8, 2), &changes);
    }

    #[test]
    fn keys_and_names_of_different_lengths() {
        let (short, long) = (configuration(KNOWN, 8, 1), configuration(KNOWN, 32, 64));
        let (key, name) = ("CC".repeat(32), "6E".repeat(64));
        let lines = format!(
            "7 UWB key length: left 32, right 8\n7 UWB key: left {key}, right {}\n\
            7 NAN name length: left 64, right 1\n7 NAN name: left {name}, right 6E\n",
            &key[..16]
        );
        assert_eq!(of_records(long, short), lines);
        // Octets that are zero count.
        let mut zeros = short;
        zeros.configuration.uwb.key = [0; 32];
        let mut more_zeros = zeros;
        more_zeros.configuration.uwb.key_length = 16;
        let lines = of_records(zeros, more_zeros);
        assert!(lines.ends_with("UWB key: left 0000000000000000, right 00000000000000000000000000000000\n"));
    }

    #[test]
    fn presences() {
        for make in [capability as fn(u16) -> Record, |set| configuration(set, 16, 3)] {
            for (left, right) in (0..=KNOWN).flat_map(|left| (0..=KNOWN).map(move |right| (left, right))) {
                let of = |technology: u8, name: &str| match (names(left, technology), names(right, technology)) {
                    (true, false) => format!("7 {name} presence: left 1, right 0\n"),
                    (false, true) => format!("7 {name} presence: left 0, right 1\n"),
                    _ => String::new(),
                };
                let lines = [of(UWB, "UWB"), of(CS, "CS"), of(NAN, "NAN"), of(RSSI, "RSSI")].concat();
                assert_eq!(of_records(make(left), make(right)), lines);
            }
        }
    }

    #[test]
    fn a_line_exactly_where_entries_differ() {
        let mut readings = vec![Err(Refusal::EndsEarly), Err(Refusal::BrokenRecord)];
        for set in 0..=KNOWN {
            readings.extend([capability(set), configuration(set, 8, 1), configuration(set, 32, 9)].map(Ok));
            readings.extend([CAPABILITY_REQUEST, STOP].map(|id| {
                Ok(Record {
                    id,
                    set,
                    ..Record::ZERO
                })
            }));
        }
        let entries: Vec<Entry> = [TO_TAG, FROM_TAG]
            .into_iter()
            .flat_map(|direction| readings.iter().map(move |reading| entry(direction, *reading)))
            .collect();
        for left in &entries {
            for right in &entries {
                assert_eq!(of_entries(*left, *right).is_empty(), left == right);
            }
        }
    }

    #[test]
    fn what_ends_the_fields() {
        let (accepted, other) = (Ok(capability(KNOWN)), Ok(configuration(0, 8, 1)));
        let ids = "7 direction: left 0, right 1\n7 message ID: left 1, right 2\n";
        assert_eq!(of_entries(entry(TO_TAG, accepted), entry(FROM_TAG, other)), ids);
        let refused = Err(Refusal::BlockSize);
        let refusals = "7 direction: left 1, right 0\n7 refusal number: left 6, right 0\n";
        assert_eq!(of_entries(entry(FROM_TAG, refused), entry(TO_TAG, accepted)), refusals);
        let directions = "7 direction: left 1, right 0\n";
        assert_eq!(of_entries(entry(FROM_TAG, refused), entry(TO_TAG, refused)), directions);
    }
}
