//! Compares what a proved program printed with the second implementation's text.
use std::process::Output;

/// Says what differs, with the first line that does and its number from 0. A program that fails differs.
pub fn difference(proved: &Output, second: &[u8]) -> Option<(usize, String)> {
    if proved.stdout == second && proved.stderr.is_empty() && proved.status.success() {
        return None;
    }
    let (ours, theirs) = (lines(&proved.stdout), lines(second));
    let number = ours.iter().zip(&theirs).take_while(|(one, other)| one == other).count();
    let [one, other] = [&ours, &theirs].map(|lines| lines.get(number).map(|line| String::from_utf8_lossy(line)));
    let (status, errors) = (proved.status, String::from_utf8_lossy(&proved.stderr));
    let what = format!("{status}, errors {errors:?}, line {number}: proved {one:?}, second {other:?}");
    Some((number, what))
}

/// The lines with their ends.
fn lines(text: &[u8]) -> Vec<&[u8]> {
    text.split_inclusive(|octet| *octet == b'\n').collect()
}
