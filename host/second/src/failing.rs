//! A log that cannot be read, for tests.
use std::io::{self, ErrorKind, Read};

pub struct Failing;

impl Read for Failing {
    fn read(&mut self, _: &mut [u8]) -> io::Result<usize> {
        Err(ErrorKind::PermissionDenied.into())
    }
}
