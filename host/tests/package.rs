//! The package as cargo and the compiler see it from outside: README's program, a program without std, results that are
//! dropped, and where the library is looked for.
use std::path::{Path, PathBuf};
use std::process::{Command, Output};
use std::{env, fs};

const HOST: &str = env!("CARGO_MANIFEST_DIR");
const ARCHIVE: &str = env!("RAYDULCIMER_ARCHIVE");

/// A fresh folder.
fn folder(name: &str) -> PathBuf {
    let folder = Path::new(env!("CARGO_TARGET_TMPDIR")).join(name);
    let _ = fs::remove_dir_all(&folder);
    fs::create_dir_all(&folder).unwrap();
    folder.canonicalize().unwrap()
}

/// A fresh folder with a package of this program, which depends on the bindings as this line of its manifest says.
fn package(name: &str, dependency: &str, program: &str) -> PathBuf {
    let package = folder(name);
    let manifest = format!(
        "[package]\nname = \"{name}\"\nedition = \"2021\"\n\n[dependencies]\n{dependency}\n\n\
         [profile.release]\npanic = \"abort\"\nlto = true\n\n[workspace]\n"
    );
    fs::write(package.join("Cargo.toml"), manifest).unwrap();
    fs::create_dir(package.join("src")).unwrap();
    fs::write(package.join("src/main.rs"), program).unwrap();
    package
}

/// A call of cargo in this folder, where it also builds, with the library that this test is linked with.
fn cargo(folder: &Path, words: &[&str]) -> Command {
    let mut cargo = Command::new(env!("CARGO"));
    cargo
        .args(words)
        .arg("--offline")
        .current_dir(folder)
        .env("CARGO_TARGET_DIR", folder.join("target"))
        .env("RAYDULCIMER_LIBRARY", Path::new(ARCHIVE).parent().unwrap());
    cargo
}

/// What a call printed on standard output, and on standard error, and whether it went well.
fn said(command: &mut Command) -> (String, String, bool) {
    let Output { stdout, stderr, status } = command.output().unwrap();
    let text = |octets| String::from_utf8(octets).unwrap();
    (text(stdout), text(stderr), status.success())
}

#[test]
fn readmes_program() {
    let readme = fs::read_to_string(format!("{HOST}/../README.md")).unwrap();
    let (_, section) = readme.split_once("### From Rust\n").unwrap();
    let indented = |line: &&str| line.starts_with("    ");
    let dependency = section.lines().find(indented).unwrap().replace("PATH/host", HOST);
    let (program, after) = section.split_once("```rust\n").unwrap().1.split_once("```\n").unwrap();
    let prints = after.lines().skip_while(|line| !indented(line)).take_while(indented);
    let prints: String = prints.map(|line| format!("{}\n", line.trim_start())).collect();

    let (printed, errors, well) = said(&mut cargo(&package("readme", &dependency, program), &["run"]));
    assert!(well, "{errors}");
    assert_eq!(printed, prints);
}

/// A program with a panic handler. Std has one too, and the compiler refuses two.
const WITHOUT_STD: &str = r#"
#![no_std]
#![no_main]
use raydulcimer::{read, Refusal, Technologies};

#[link(name = "c")]
extern "C" {}

#[panic_handler]
fn panic(_: &core::panic::PanicInfo) -> ! {
    loop {}
}

#[no_mangle]
extern "C" fn main() -> i32 {
    let set = read(&[1, 0, 9, 0]).map(|record| record.set);
    let good = set == Ok(Technologies::UWB | Technologies::RSSI) && read(&[]) == Err(Refusal::EndsEarly);
    i32::from(!good)
}
"#;

#[test]
fn without_std() {
    let run = |name: &str, features: &str| {
        let dependency = format!("raydulcimer = {{ path = \"{HOST}\"{features} }}");
        let package = package(name, &dependency, WITHOUT_STD);
        said(&mut cargo(&package, &["run", "--release"]))
    };
    let (_, errors, well) = run("without_std", ", default-features = false");
    assert!(well, "{errors}");
    let (_, errors, well) = run("with_std", "");
    assert!(!well && errors.contains("duplicate lang item"), "{errors}");
}

/// Calls whose result nobody should drop. `session` is a function of the program that they are put into.
const DROPPED: [&str; 24] = [
    "raydulcimer::read(&[])",
    "raydulcimer::write(&Default::default(), &mut [])",
    "raydulcimer::block(&[], 0)",
    "raydulcimer::blocks(&[])",
    "raydulcimer::Block::default().technology()",
    "raydulcimer::Technologies::UWB.contains(raydulcimer::Technologies::CS)",
    "raydulcimer::Technologies::UWB.is_empty()",
    "raydulcimer::Refusal::NotValid.number()",
    "raydulcimer::Refusal::NotValid.words()",
    "raydulcimer::UwbConfiguration::default().key()",
    "raydulcimer::UwbConfiguration::default().set_key(&[])",
    "raydulcimer::NanConfiguration::default().name()",
    "raydulcimer::NanConfiguration::default().set_name(&[])",
    "raydulcimer::Session::start(&Default::default(), Default::default()).unwrap()",
    "session().message(&[], &mut []).unwrap()",
    "session().advertise(&mut []).unwrap()",
    "session().profile()",
    "session().uwb()",
    "session().nan()",
    "session().rssi()",
    "session().mark()",
    "raydulcimer::raw::start(&Default::default(), 0)",
    "raydulcimer::raw::Session::default().message(&[], &mut [])",
    "raydulcimer::raw::Session::default().advertise(&mut [])",
];

#[test]
fn results_that_are_dropped() {
    let program = format!(
        "fn main() {{\n{};\n}}\n\nfn session() -> raydulcimer::Session {{\n    unimplemented!()\n}}\n",
        DROPPED.join(";\n")
    );
    let dependency = format!("raydulcimer = {{ path = \"{HOST}\" }}");
    let package = package("dropped", &dependency, &program);
    let (_, errors, well) = said(&mut cargo(&package, &["check", "--message-format", "short"]));
    assert!(well, "{errors}");
    for (call, number) in DROPPED.iter().zip(2..) {
        let warning = format!("src/main.rs:{number}:1: warning: unused ");
        assert!(
            errors.contains(&warning),
            "{call} is dropped without a warning\n{errors}"
        );
    }
}

/// Builds the bindings with a call in this folder of `work`, with PWD as said and a relative path of the library.
fn build(work: &Path, called_in: &str, pwd: Option<&str>) -> Result<String, String> {
    let manifest = format!("{HOST}/Cargo.toml");
    let mut cargo = cargo(work, &["build", "--manifest-path", &manifest]);
    cargo
        .current_dir(work.join(called_in))
        .env("RAYDULCIMER_LIBRARY", "lib");
    match pwd {
        Some(folder) => cargo.env("PWD", work.join(folder)),
        None => cargo.env_remove("PWD"),
    };
    let (_, errors, well) = said(&mut cargo);
    if well {
        Ok(errors)
    } else {
        Err(errors)
    }
}

#[test]
fn relative_path_of_the_library() {
    let work = folder("library");
    fs::create_dir_all(work.join("with/lib")).unwrap();
    fs::create_dir_all(work.join("without")).unwrap();
    fs::copy(ARCHIVE, work.join("with/lib/libraydulcimer.a")).unwrap();
    let missing = format!(
        "{} is missing: run `./raydulcimer library`",
        work.join("without/lib/libraydulcimer.a").display()
    );

    // The folder of the call counts, also where PWD does not name it; a call in another folder finds another library.
    for (with, without) in [(Some("with"), Some("without")), (Some("."), Some(".")), (None, None)] {
        build(&work, "with", with).unwrap();
        let errors = build(&work, "without", without).unwrap_err();
        assert!(errors.contains(&missing), "{errors}");
    }
    build(&work, "with", Some("with")).unwrap();
    let again = build(&work, "with", Some("with")).unwrap();
    assert!(!again.contains("Compiling"), "{again}");
}
