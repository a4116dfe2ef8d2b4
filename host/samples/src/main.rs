//! Writes the sample bench logs into a folder, each with its listing, and what a comparison prints of the two boards' logs:
//! `samples FOLDER`. What the tag sends in them is what the second implementation's session answers, with the profile of
//! `examples/tag.c` but for the old board; listings and comparison are made by it too.
mod bench;
mod logs;
mod phone;
mod profile;

use std::fs::{self, File};
use std::path::Path;
use std::process::ExitCode;
use std::{env, io};

fn main() -> ExitCode {
    let words: Vec<_> = env::args_os().skip(1).collect();
    let [folder] = &words[..] else {
        eprintln!("usage: samples FOLDER");
        return ExitCode::from(2);
    };
    let folder = Path::new(folder);
    match write(folder) {
        Ok(()) => ExitCode::SUCCESS,
        Err(error) => {
            eprintln!("samples: {}: {error}", folder.display());
            ExitCode::from(2)
        }
    }
}

fn write(folder: &Path) -> io::Result<()> {
    fs::create_dir_all(folder)?;
    let (old, new) = (logs::old_board(), logs::new_board());
    let logs = [
        ("exchange", &logs::exchange()),
        ("newer_phone", &logs::newer_phone()),
        ("broken", &logs::broken()),
        ("old_board", &old),
        ("new_board", &new),
    ];
    for (name, log) in logs {
        fs::write(folder.join(format!("{name}.log")), log)?;
        second::list(&log[..], File::create(folder.join(format!("{name}.txt")))?)?;
    }
    second::compare(&old[..], &new[..], File::create(folder.join("boards.txt"))?)
}
