//! Compares left.log and right.log of this folder with the second implementation: `second_compare`. A missing file counts as
//! empty.
use std::env;
use std::fs::File;
use std::io::{self, Error, ErrorKind, Read};
use std::process::ExitCode;

fn main() -> ExitCode {
    if env::args_os().len() > 1 {
        eprintln!("usage: second_compare");
        return ExitCode::from(2);
    }
    match compare() {
        Ok(()) => ExitCode::SUCCESS,
        Err(error) => {
            eprintln!("second_compare: {error}");
            ExitCode::from(2)
        }
    }
}

fn compare() -> io::Result<()> {
    let (left, right) = (Log::open("left.log")?, Log::open("right.log")?);
    second::compare(left, right, io::stdout().lock())
}

/// A log whose errors have its name.
struct Log {
    name: &'static str,
    /// None if it is missing.
    file: Option<File>,
}

impl Log {
    fn open(name: &'static str) -> io::Result<Self> {
        let file = match File::open(name) {
            Ok(file) => Some(file),
            Err(error) if error.kind() == ErrorKind::NotFound => None,
            Err(error) => return Err(of_log(name, error)),
        };
        Ok(Log { name, file })
    }
}

impl Read for Log {
    fn read(&mut self, buffer: &mut [u8]) -> io::Result<usize> {
        match &mut self.file {
            Some(file) => file.read(buffer).map_err(|error| of_log(self.name, error)),
            None => Ok(0),
        }
    }
}

fn of_log(name: &str, error: Error) -> Error {
    Error::new(error.kind(), format!("{name}: {error}"))
}
