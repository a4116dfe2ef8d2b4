//! The proved programs, with logs from files or through a pipe.
use crate::random::Random;
use std::fs::{self, File};
use std::io::{self, ErrorKind, Write};
use std::path::{Path, PathBuf};
use std::process::{ChildStdin, Command, Output, Stdio};
use std::time::Duration;
use std::{env, process, thread};

/// After each of the first pieces the program gets time to read it.
const PAUSES: usize = 8;
const PAUSE: Duration = Duration::from_micros(100);

pub struct Program {
    path: PathBuf,
    /// The folder where logs are written to.
    logs: PathBuf,
}

impl Program {
    /// The program that lists a log. The error says what is missing, as that of the next does.
    pub fn list_log() -> Result<Self, String> {
        Program::find("list_log", "RAYDULCIMER_LIST_LOG")
    }

    /// The program that compares two logs.
    pub fn compare_logs() -> Result<Self, String> {
        Program::find("compare_logs", "RAYDULCIMER_COMPARE_LOGS")
    }

    /// A program where it is built, or in the file that the variable names.
    fn find(name: &str, variable: &str) -> Result<Self, String> {
        let built = || {
            Path::new(env!("CARGO_MANIFEST_DIR"))
                .join("../../target/bin")
                .join(name)
        };
        let path = env::var_os(variable).map_or_else(built, PathBuf::from);
        let missing = |_| {
            let path = path.display();
            format!(
                "{path} is missing: ./raydulcimer list and ./raydulcimer compare build the programs, or set {variable}"
            )
        };
        let path = path.canonicalize().map_err(missing)?;
        let logs = env::temp_dir().join(format!("raydulcimer_{name}_{}", process::id()));
        match fs::create_dir_all(&logs) {
            Ok(()) => Ok(Program { path, logs }),
            Err(error) => Err(format!("{}: {error}", logs.display())),
        }
    }

    fn command(&self) -> Command {
        let mut command = Command::new(&self.path);
        command.current_dir(&self.logs).stdout(Stdio::piped());
        command
    }

    /// Lists a log from a file.
    pub fn list_file(&self, log: &[u8]) -> io::Result<Output> {
        let path = self.logs.join("list.log");
        fs::write(&path, log)?;
        let child = self.command().stdin(File::open(&path)?).spawn()?;
        child.wait_with_output()
    }

    /// Lists a log through a pipe, in pieces of changing odd sizes that follow from the seed.
    pub fn list_pieces(&self, log: &[u8], seed: u64) -> io::Result<Output> {
        let mut child = self.command().stdin(Stdio::piped()).spawn()?;
        let pipe = child.stdin.take().expect("a pipe");
        thread::scope(|scope| {
            scope.spawn(move || feed(pipe, log, &mut Random::new(seed)));
            child.wait_with_output()
        })
    }

    /// Compares two logs; `None` is a missing file.
    pub fn compare(&self, left: Option<&[u8]>, right: Option<&[u8]>) -> io::Result<Output> {
        for (name, log) in [("left.log", left), ("right.log", right)] {
            let path = self.logs.join(name);
            match log {
                Some(log) => fs::write(path, log)?,
                None => remove(&path)?,
            }
        }
        self.command().output()
    }
}

/// Removes a file if it is there.
fn remove(path: &Path) -> io::Result<()> {
    match fs::remove_file(path) {
        Err(error) if error.kind() != ErrorKind::NotFound => Err(error),
        _ => Ok(()),
    }
}

impl Drop for Program {
    fn drop(&mut self) {
        if let Err(error) = fs::remove_dir_all(&self.logs) {
            eprintln!("compare: {}: {error}", self.logs.display());
        }
    }
}

/// Writes the log, unless the program ends before it has read it.
fn feed(mut pipe: ChildStdin, mut log: &[u8], random: &mut Random) {
    let mut pieces = 0;
    while !log.is_empty() {
        let limit = random.pick(&[1, 8, 130, 520, 8_192, 40_000]);
        let (piece, rest) = log.split_at(log.len().min(2 * random.below(limit) + 1));
        if pipe.write_all(piece).is_err() {
            return;
        }
        log = rest;
        pieces += 1;
        if pieces <= PAUSES {
            thread::sleep(PAUSE);
        }
    }
}
