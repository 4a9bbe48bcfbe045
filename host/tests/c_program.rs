//! The header, checked by a C compiler: programs in C and C++ that include it, link the archive
//! and run.

use std::io::{ErrorKind, Write};
use std::path::{Path, PathBuf};
use std::process::Command;

/// Compiles and runs a program; `None` where there is no such compiler.
fn run(compiler: &str, words: &[&str], program: &str) -> Option<String> {
    let host = Path::new(env!("CARGO_MANIFEST_DIR"));
    let label: String = words
        .concat()
        .chars()
        .filter(|c| c.is_alphanumeric())
        .collect();
    let binary: PathBuf = Path::new(env!("CARGO_TARGET_TMPDIR")).join(format!("{program}-{label}"));
    let compiled = Command::new(compiler)
        .args(words)
        .args(["-Wall", "-Wextra", "-Werror", "-pedantic"])
        .arg("-I")
        .arg(host.join("../include"))
        .arg(host.join("tests/c").join(program))
        // The archive is no source, whatever language the words ask for.
        .args(["-x", "none"])
        .arg(env!("STAND_ARCHIVE"))
        .arg("-o")
        .arg(&binary)
        .output();
    let compiled = match compiled {
        Err(e) if e.kind() == ErrorKind::NotFound => {
            let line = format!("skipped: there is no `{compiler}` to compile {program}\n");
            std::io::stderr().write_all(line.as_bytes()).unwrap();
            return None;
        }
        other => other.expect("the compiler"),
    };
    let said = String::from_utf8_lossy(&compiled.stderr);
    assert!(
        compiled.status.success(),
        "{compiler} {words:?} {program}:\n{said}"
    );
    let ran = Command::new(&binary)
        .output()
        .expect("the compiled program");
    assert!(ran.status.success(), "{program}: {:?}", ran.status);
    Some(String::from_utf8(ran.stdout).expect("text"))
}

/// The archive asks of the C library no more than it always did: a host without the rest still links.
#[test]
fn two_names_from_outside() {
    let output = match Command::new("nm")
        .arg("-u")
        .arg(env!("STAND_ARCHIVE"))
        .output()
    {
        Err(e) if e.kind() == ErrorKind::NotFound => {
            let line = b"skipped: there is no `nm` to read the archive\n";
            std::io::stderr().write_all(line).unwrap();
            return;
        }
        other => other.expect("nm"),
    };
    assert!(output.status.success(), "{:?}", output.status);
    let text = String::from_utf8(output.stdout).expect("text");
    let names: Vec<&str> = text
        .lines()
        .filter_map(|line| line.trim().strip_prefix("U "))
        .collect();
    assert_eq!(names, ["memcpy", "memset"]);
}

#[test]
fn five_lines_of_c() {
    if let Some(text) = run("cc", &["-std=c99"], "nearest.c") {
        assert_eq!(text, "0: 0,0\n");
    }
    if let Some(text) = run("cc", &["-std=c99"], "cut.c") {
        assert_eq!(text, "0: 100, columns 0 to 2\n");
    }
}

const EVERY_CALL: &str = "\
nearest 0: 1,0 0,1 1,0 1,0
labels 0, 2: 0 1 2 0
squares 0: 1 1 1 1
distance 0: 1 0 0 1
fill 0: 7 8 9 4 5 6 7 8 9 7 8 9
refused 1 2 3, 1 0 1 2 3
work 0: 95 of 95
work 0: 95 of 95
work 1: 95 of 95
work 2: 95 of 95
work 3: 95 of 95
ground 0 1, 1 1 1: 24
growth 0: 24
cut 0, keyed 1, crop 1 4 1 4: 1, weight 1
bytes 24 32 16 40 40
refused 4 5 6, 6 5 4
colour 0 1 1, 0 1, crop 1 4 1 4: 1
colour 0 0 0, 0 0, crop 0 5 0 5: 25
colour 11 0 0, 11 0, crop 0 0 0 0: 0
colour 11 0 0, 11 0, crop 0 0 0 0: 0
refused 11
next pass 0, 1 joins: 2, kept 7
next pass 0, 1 joins: 3, kept 7
next pass 0, 0 joins: 3, kept 7
next pass 4, 0 joins: 3, kept 7
room 0 0 0 0 22 33570832
version ";

/// What the program writes: the version is that of the crate.
fn every_call() -> String {
    let version = env!("CARGO_PKG_VERSION");
    format!("{EVERY_CALL}{version} {}\n", version.replace('.', " "))
}

#[test]
fn every_call_in_c() {
    for words in [&["-std=c99"], &["-std=c11"]] {
        if let Some(text) = run("cc", words, "every_call.c") {
            assert_eq!(text, every_call());
        }
    }
}

#[test]
fn every_call_in_cpp() {
    if let Some(text) = run("c++", &["-std=c++11", "-x", "c++"], "every_call.c") {
        assert_eq!(text, every_call());
    }
}
