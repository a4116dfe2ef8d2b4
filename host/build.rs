//! Links libraydulcimer.a: from the folder that RAYDULCIMER_LIBRARY names, or from where `./raydulcimer library` puts it.
use std::os::unix::process::parent_id;
use std::path::{Path, PathBuf};
use std::{env, fs, process};

fn main() {
    let folder = library();
    let archive = folder.join("libraydulcimer.a");
    if !archive.is_file() {
        refuse(&format!(
            "{} is missing: run `./raydulcimer library`, or have RAYDULCIMER_LIBRARY name the folder that has it",
            archive.display()
        ));
    }
    println!("cargo:rerun-if-changed={}", archive.display());
    println!("cargo:rustc-link-search=native={}", folder.display());
    println!("cargo:rustc-link-lib=static=raydulcimer");
    // For the tests that link it from C.
    println!("cargo:rustc-env=RAYDULCIMER_ARCHIVE={}", archive.display());
}

/// The library's folder. A path that is not absolute is taken from the folder of the call.
fn library() -> PathBuf {
    println!("cargo:rerun-if-env-changed=RAYDULCIMER_LIBRARY");
    match env::var_os("RAYDULCIMER_LIBRARY").filter(|folder| !folder.is_empty()) {
        None => PathBuf::from(env::var_os("CARGO_MANIFEST_DIR").unwrap()).join("../target/staticlib"),
        Some(folder) if Path::new(&folder).is_absolute() => folder.into(),
        Some(folder) => match folder_of_the_call() {
            Some(of_the_call) => of_the_call.join(folder),
            None => refuse("RAYDULCIMER_LIBRARY has to be an absolute path: the folder of the call is not known"),
        },
    }
}

/// The folder that cargo was called in; this script runs in the package's. The folder of cargo's process comes first, as a
/// program that calls cargo in some folder may leave PWD as it was.
fn folder_of_the_call() -> Option<PathBuf> {
    let by_process = fs::read_link(format!("/proc/{}/cwd", parent_id())).ok();
    let by_shell = env::var_os("PWD").and_then(|folder| fs::canonicalize(folder).ok());
    // Cargo sees by PWD that it is called in another folder. Where PWD is wrong, a file that is never there makes cargo run
    // this script each time.
    println!("cargo:rerun-if-env-changed=PWD");
    if by_process.is_some() && by_process != by_shell {
        println!("cargo:rerun-if-changed=each time");
    }
    by_process.or(by_shell)
}

/// Ends with this text on standard error, which cargo shows.
fn refuse(text: &str) -> ! {
    eprintln!("{text}");
    process::exit(1)
}
