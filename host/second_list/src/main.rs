//! Lists the bench log on standard input with the second implementation: `second_list <LOG`.
use std::process::ExitCode;
use std::{env, io};

fn main() -> ExitCode {
    if env::args_os().len() > 1 {
        eprintln!("usage: second_list <LOG");
        return ExitCode::from(2);
    }
    match second::list(io::stdin().lock(), io::stdout().lock()) {
        Ok(()) => ExitCode::SUCCESS,
        Err(error) => {
            eprintln!("second_list: {error}");
            ExitCode::from(2)
        }
    }
}
