//! The C header by itself: C and C++ take it without a warning, its numbers and words are true of the library, and a compiler
//! finds what a caller overlooks.
use raydulcimer::Refusal;
use std::collections::BTreeMap;
use std::io::Write;
use std::process::{Command, Stdio};

const HERE: &str = env!("CARGO_MANIFEST_DIR");

/// The compilers, with the standards that the header is for.
const COMPILERS: [(&str, [&str; 4]); 2] = [
    ("gcc", ["-std=c99", "-std=c11", "-std=c17", "-std=c2x"]),
    ("g++", ["-std=c++98", "-std=c++11", "-std=c++17", "-std=c++20"]),
];

const STRICT: [&str; 7] = [
    "-pedantic",
    "-Wall",
    "-Wextra",
    "-Wshadow",
    "-Wundef",
    "-Wconversion",
    "-Werror",
];

const INCLUDE: &str = "#include \"raydulcimer.h\"\n";

/// A call: the struct that it gives, its name, and its arguments, which are parameters of `caller`.
struct Call {
    gives: &'static str,
    name: &'static str,
    arguments: &'static [&'static str],
}

const fn call(gives: &'static str, name: &'static str, arguments: &'static [&'static str]) -> Call {
    Call { gives, name, arguments }
}

const CALLS: [Call; 6] = [
    call("reading", "read", &["message", "4"]),
    call("written", "write", &["record", "out", "47"]),
    call("block", "nth_block", &["message", "4", "0"]),
    call("started", "start", &["record", "0"]),
    call("answer", "message", &["session", "message", "4", "out", "47"]),
    call("answer", "advertise", &["session", "out", "47"]),
];

impl Call {
    /// A statement that makes the call and leaves what it gives.
    fn left(&self, arguments: &[&str]) -> String {
        format!("raydulcimer_{}({});", self.name, arguments.join(", "))
    }

    /// A statement that makes the call and uses what it gives.
    fn used(&self, arguments: &[&str]) -> String {
        let left = self.left(arguments);
        format!("struct raydulcimer_{} it = {left} (void)it;", self.gives)
    }
}

const POINTERS: [&str; 3] = ["message", "out", "session"];

/// Runs a compiler on a text: what it prints, or what it says against the text.
fn compile(compiler: &str, words: &[&str], source: &str) -> Result<String, String> {
    let language = if compiler == "gcc" { "c" } else { "c++" };
    let mut run = Command::new(compiler)
        .args(["-I", &format!("{HERE}/../include"), "-x", language, "-"])
        .args(words)
        .stdin(Stdio::piped())
        .stdout(Stdio::piped())
        .stderr(Stdio::piped())
        .spawn()
        .expect(compiler);
    run.stdin.take().unwrap().write_all(source.as_bytes()).unwrap();
    let output = run.wait_with_output().unwrap();
    let text = |octets| String::from_utf8(octets).unwrap();
    match output.status.success() {
        true => Ok(text(output.stdout)),
        false => Err(text(output.stderr)),
    }
}

/// What the compiler says against a function with this statement.
fn against(compiler: &str, statement: &str) -> Option<String> {
    let parameters = "struct raydulcimer_session *session, struct raydulcimer_record record, \
                      const uint8_t *message, uint8_t *out";
    let source = format!("{INCLUDE}void caller({parameters}) {{ {statement} }}\n");
    compile(compiler, &["-Wall", "-Werror", "-S", "-o", "-"], &source).err()
}

/// The macros that a text defines.
fn macros(compiler: &str, source: &str) -> BTreeMap<String, String> {
    let defined = compile(compiler, &["-dM", "-E"], source).unwrap();
    let definitions = defined.lines().filter_map(|line| line.strip_prefix("#define "));
    definitions
        .map(|definition| definition.split_once(' ').unwrap_or((definition, "")))
        .map(|(name, value)| (name.to_string(), value.to_string()))
        .collect()
}

/// The header's own macros.
fn own_macros(compiler: &str) -> BTreeMap<String, String> {
    let mut own = macros(compiler, INCLUDE);
    for name in macros(compiler, "#include <stddef.h>\n#include <stdint.h>\n").keys() {
        own.remove(name);
    }
    own
}

/// What header.c prints: nothing is wrong with a length, and a refusal's words are those of the bindings.
fn expected() -> String {
    let mut lines = vec!["0 not refused".to_string()];
    lines.extend(Refusal::ALL.map(|refusal| format!("{} {}", refusal.number(), refusal.words())));
    lines.extend((13..=255).map(|number| format!("{number} no call refuses with this number")));
    lines.join("\n") + "\n"
}

#[test]
fn lengths_and_words_are_true_in_every_standard() {
    for (compiler, standards) in COMPILERS {
        for standard in standards {
            let program = format!("{}/header{standard}", env!("CARGO_TARGET_TMPDIR"));
            let words = [standard, "-o", &program, "-x", "none", env!("RAYDULCIMER_ARCHIVE")];
            compile(compiler, &[&STRICT[..], &words].concat(), include_str!("header.c")).unwrap();
            let said = Command::new(&program).output().unwrap().stdout;
            assert_eq!(String::from_utf8(said).unwrap(), expected(), "{standard}");
        }
    }
}

#[test]
fn unused_results_are_warned_of() {
    for (compiler, _) in COMPILERS {
        for call in CALLS {
            assert_eq!(against(compiler, &call.used(call.arguments)), None);
            let left = call.left(call.arguments);
            let said = against(compiler, &left).expect(&left);
            assert!(said.contains("[-Werror=unused-result]"), "{said}");
        }
    }
}

#[test]
fn null_pointers_are_warned_of() {
    for (compiler, _) in COMPILERS {
        for call in CALLS {
            for pointer in POINTERS.iter().filter(|pointer| call.arguments.contains(pointer)) {
                let with_null = call.arguments.iter().map(|it| if it == pointer { "NULL" } else { it });
                let null = call.used(&with_null.collect::<Vec<_>>());
                let said = against(compiler, &null).expect(&null);
                assert!(said.contains("[-Werror=nonnull]"), "{said}");
            }
        }
    }
}

#[test]
fn another_layout_is_stopped() {
    let packed = |compiler, standard, packing| compile(compiler, &["-fsyntax-only", standard, packing], INCLUDE);
    for (compiler, [old, standards @ ..]) in COMPILERS {
        assert_eq!(packed(compiler, old, "-fpack-struct"), Ok(String::new()));
        for standard in standards {
            let by_one = packed(compiler, standard, "-fpack-struct").unwrap_err();
            let by_four = packed(compiler, standard, "-fpack-struct=4").unwrap_err();
            for (said, name) in [(&by_one, "record"), (&by_one, "session"), (&by_four, "answer")] {
                let stopped = format!("struct raydulcimer_{name} has another layout than in the archive");
                assert!(said.contains(&stopped), "{said}");
            }
        }
    }
}

#[test]
fn macros_are_the_guard_and_numbers() {
    for (compiler, _) in COMPILERS {
        let mut own = own_macros(compiler);
        assert_eq!(own.remove("RAYDULCIMER_H").as_deref(), Some(""));
        for (name, value) in own {
            let hex = value.strip_prefix("0x").map(|digits| u32::from_str_radix(digits, 16));
            let number = hex.unwrap_or(value.parse()).is_ok();
            assert!(name.starts_with("RAYDULCIMER_") && number, "{name} {value}");
        }
    }
}

#[test]
fn version_is_that_of_the_bindings() {
    let own = own_macros("gcc");
    let bindings = [env!("CARGO_PKG_VERSION_MAJOR"), env!("CARGO_PKG_VERSION_MINOR")];
    let header = ["MAJOR", "MINOR"].map(|part| &own[&format!("RAYDULCIMER_VERSION_{part}")][..]);
    assert_eq!(header, bindings);
}

#[test]
fn a_program_without_words_does_not_carry_them() {
    let call = "const char *words(uint8_t n); const char *words(uint8_t n) { return raydulcimer_refusal_words(n); }\n";
    for (compiler, _) in COMPILERS {
        for level in ["-O0", "-O2"] {
            let carries = |source: &str| {
                let words = [level, "-Wall", "-Wextra", "-Werror", "-S", "-o", "-"];
                compile(compiler, &words, source).unwrap().contains("octets")
            };
            assert!(!carries(INCLUDE) && carries(&format!("{INCLUDE}{call}")));
        }
    }
}
