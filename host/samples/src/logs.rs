//! The sample logs.
use crate::bench::Bench;
use crate::phone::*;
use crate::profile::{old_profile, profile};
use second::{log_record, CAPABILITY_REQUEST, CONFIGURATION_RESPONSE, KNOWN, RSSI, STOP, TO_TAG, UWB, VERSION};

/// A whole exchange by UWB, NAN and RSSI.
pub fn exchange() -> Vec<u8> {
    let mut bench = Bench::new(&profile());
    bench.send(&request(KNOWN));
    bench.send(&configuration(&[uwb(1, 9, 240), nan("theodolite"), rssi()]));
    // 96 ms is below the tag's shortest interval: UWB goes on as before.
    bench.send(&configuration(&[uwb(2, 5, 96), nan("theodolite"), rssi()]));
    bench.send(&stop(1 << UWB));
    // UWB is barred until its capabilities are given out again.
    let again = configuration(&[uwb(3, 5, 120), nan("theodolite"), rssi()]);
    bench.send(&again);
    bench.send(&request(1 << UWB));
    bench.send(&again);
    bench.send(&stop(KNOWN));
    bench.log
}

/// A phone that knows more than the tag.
pub fn newer_phone() -> Vec<u8> {
    let mut bench = Bench::new(&profile());
    bench.send(&[3, CAPABILITY_REQUEST, 0x9F, 0x80, 0xE0, 0xE1, 0xE2]);
    let unknown = vec![7, 5, 0xE0, 0xE1, 0xE2];
    let longer_rssi = longer(rssi(), &[0xE3, 0xE4]);
    bench.send(&configuration(&[
        longer_rssi,
        unknown,
        nan("sextant"),
        cs(2),
        uwb(1, 9, 120),
    ]));
    // A tag of version 1 refuses this Stop; the phone repeats it in the tag's version.
    bench.send(&[3, STOP, 0x8F, 0x00]);
    bench.send(&[VERSION, STOP, 0x8F, 0x00]);
    bench.log
}

/// An exchange by UWB, NAN and RSSI with the old board.
pub fn old_board() -> Vec<u8> {
    let mut bench = Bench::new(&old_profile());
    bench.send(&request(KNOWN));
    bench.send(&configuration(&[uwb(11, 9, 240), nan("sextant"), rssi()]));
    bench.send(&stop(KNOWN));
    bench.log
}

/// The same with the new board, by a newer phone: a later Request, a longer key, and a Stop that a tag of version 1 refuses.
pub fn new_board() -> Vec<u8> {
    let mut bench = Bench::new(&profile());
    let key = [
        0xA6, 0x1D, 0x93, 0x58, 0x0C, 0xF2, 0x77, 0xE9, 0x91, 0x5F, 0xE4, 0x3B, 0x08, 0xC7, 0x60, 0xDD,
    ];
    bench.send(&[3, CAPABILITY_REQUEST, 0x9F, 0x80, 0xE0, 0xE1, 0xE2]);
    bench.send(&configuration(&[
        uwb_with_key(12, 5, 240, &key),
        nan("sextant"),
        rssi(),
    ]));
    bench.send(&[3, STOP, 0x8F, 0x00]);
    bench.send(&stop(KNOWN));
    bench.log
}

/// Sound messages, refused ones, broken records and a cut-off end. A broken record holds a Stop, so that a tag that takes it
/// ends what ranges.
pub fn broken() -> Vec<u8> {
    let mut bench = Bench::new(&profile());
    let stop_all = stop(KNOWN);
    let change_rssi = configuration(&[rssi()]);
    let broken_stop = |place, octet| changed(&log_record(TO_TAG, &stop_all), place, octet);

    bench.send(&request(1 << UWB | 1 << RSSI));
    bench.send(&configuration(&[nan("level"), rssi()]));
    // Direction.
    bench.log.extend(broken_stop(0, 2));
    // A left-over octet, a cut set, no octet at all.
    bench.send(&[VERSION, STOP, 0x0F, 0x00, 0x00]);
    bench.send(&stop_all[..3]);
    bench.send(&[]);
    // The octet that is always zero.
    bench.log.extend(broken_stop(1, 1));
    // Reserved ID, version, second set.
    bench.send(&changed(&stop_all, 1, 4));
    bench.send(&changed(&stop_all, 0, 2));
    bench.send(&changed(&change_rssi, 4, 0x09));
    // A length of 260.
    bench.log.extend(broken_stop(3, 1));
    // A block's size, a block's ID, periodic 2.
    bench.send(&changed(&change_rssi, 7, 7));
    bench.send(&changed(&change_rssi, 6, 2));
    let mut not_allowed = configuration(&[nan("level")]);
    *not_allowed.last_mut().expect("a block") = 2;
    bench.send(&not_allowed);
    // An octet after the message.
    bench.log.extend(broken_stop(259, 1));
    bench.send(&[VERSION, CONFIGURATION_RESPONSE, 0x0F, 0x00]);
    bench.send(&stop(1 << UWB | 1 << RSSI));
    bench.log.extend(&log_record(TO_TAG, &stop_all)[..100]);
    bench.log
}

fn changed(octets: &[u8], place: usize, octet: u8) -> Vec<u8> {
    let mut octets = octets.to_vec();
    octets[place] = octet;
    octets
}
