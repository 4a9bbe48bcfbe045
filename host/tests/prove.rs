//! `host/prove` with a stand-in for `rt`: it has all crates of the library, or of cutcard, proved, each
//! after those that it needs, says after each how many are left, and shows what `rt` said where one is
//! not proved. `.ci/run` with one: it fails where `rt ci` does, and where a must-fail edit is bad. And
//! `stand --version`, which says what came of it.

use std::collections::{BTreeMap, BTreeSet};
use std::fs;
use std::os::unix::fs::{symlink, PermissionsExt};
use std::path::{Path, PathBuf};
use std::process::{Command, Output};
use std::sync::{LockResult, Mutex, MutexGuard};

static ONE_AT_A_TIME: Mutex<()> = Mutex::new(());

/// Held by each test: a script cannot be run while a process that another test starts still has it
/// open for writing. At its end the folders of the tests are taken away.
struct Held {
    _one: LockResult<MutexGuard<'static, ()>>,
}

fn held() -> Held {
    let _one = ONE_AT_A_TIME.lock();
    Held { _one }
}

impl Drop for Held {
    fn drop(&mut self) {
        let _ = fs::remove_dir_all(folders());
    }
}

fn root() -> PathBuf {
    Path::new(env!("CARGO_MANIFEST_DIR")).join("..")
}

fn text(bytes: Vec<u8>) -> String {
    String::from_utf8(bytes).expect("a text")
}

/// The crates of crates.txt, each with those that it names.
fn listed() -> BTreeMap<String, Vec<String>> {
    let list = fs::read_to_string(root().join("crates.txt")).unwrap();
    let lines = list.lines().filter(|line| !line.starts_with('#'));
    lines
        .filter_map(|line| line.split_once(':'))
        .map(|(head, needs)| {
            let name = head.split_whitespace().next().expect("a name");
            let needs = needs.split_whitespace().map(str::to_string);
            (name.to_string(), needs.collect())
        })
        .collect()
}

/// The crates that one needs, itself among them.
fn needed(list: &BTreeMap<String, Vec<String>>, name: &str, found: &mut BTreeSet<String>) {
    let needs = list.get(name);
    let needs = needs.unwrap_or_else(|| panic!("{name} is not in crates.txt"));
    if found.insert(name.to_string()) {
        needs.iter().for_each(|other| needed(list, other, found));
    }
}

/// Where the folders of the tests are: outside the repository, below which `rt ci` takes no other crates.txt.
fn folders() -> PathBuf {
    std::env::temp_dir().join(format!("stand-prove-{}", std::process::id()))
}

/// The folder of its own in which a test of this name runs `host/prove`.
fn place(name: &str) -> PathBuf {
    folders().join(name)
}

/// Puts this there as `rt`.
fn stand_in(bin: &Path, script: &str) {
    fs::write(bin.join("rt"), format!("#!/bin/sh\n{script}\n")).unwrap();
    fs::set_permissions(bin.join("rt"), fs::Permissions::from_mode(0o755)).unwrap();
}

/// Puts these of the system's tools there.
fn tools(bin: &Path, names: &[&str]) {
    let own = std::env::var("PATH").expect("PATH");
    for name in names {
        let mut places = own.split(':').map(|place| Path::new(place).join(name));
        let found = places.find(|path| path.is_file()).expect(name);
        symlink(found, bin.join(name)).unwrap();
    }
}

/// Runs a copy of `host/prove` there with these words, with this as `rt`, or without one.
fn prove(name: &str, words: &[&str], rt: Option<&str>) -> Output {
    let folder = place(name);
    let _ = fs::remove_dir_all(&folder);
    for part in ["host", "bin"] {
        fs::create_dir_all(folder.join(part)).unwrap();
    }
    for krate in listed().keys() {
        fs::create_dir_all(folder.join("crates").join(krate)).unwrap();
    }
    fs::copy(root().join("crates.txt"), folder.join("crates.txt")).unwrap();
    fs::copy(root().join("host/prove"), folder.join("host/prove")).unwrap();
    let (bin, own) = (folder.join("bin"), std::env::var("PATH").expect("PATH"));
    let path = match rt {
        Some(script) => {
            stand_in(&bin, script);
            format!("{}:{own}", bin.display())
        }
        None => {
            tools(&bin, &["bash", "dirname"]);
            bin.display().to_string()
        }
    };
    let mut command = Command::new(folder.join("host/prove"));
    command.args(words).env("PATH", path);
    command.output().expect("host/prove")
}

/// A stand-in that answers as `rt lib` and `rt run` do in a crate's folder.
const GOOD: &str = "\
name=${PWD##*/}
case \"$1 $name\" in 'run cutcard') made=cutcard ;; 'run '*) exit 9 ;; lib*) made=libstand.a ;; *) exit 9 ;; esac
[ $# = 1 ] || exit 9
echo \"fn $name::f: proved\"
case $name in stand|cutcard) mkdir -p out && echo \"made of $name\" > out/$made ;; esac";

#[test]
fn every_crate_is_counted() {
    let _held = held();
    let list = listed();
    for (top, words, made) in [
        ("stand", &[][..], "target/staticlib/libstand.a"),
        ("cutcard", &["cutcard"][..], "target/bin/cutcard"),
    ] {
        let mut crates = BTreeSet::new();
        needed(&list, top, &mut crates);
        let all = crates.len();
        assert!(all > 10 && crates.contains("cutfile") == (top == "cutcard"));
        let out = prove(top, words, Some(GOOD));
        assert!(out.status.success() && out.stderr.is_empty(), "{out:?}");
        let wrote = text(out.stdout);
        let lines: Vec<&str> = wrote.lines().collect();
        assert_eq!(lines.len(), all + 2, "{wrote}");
        let mut proved = BTreeSet::new();
        for (index, line) in lines[1..=all].iter().enumerate() {
            let (name, rest) = line.split_once(" proved (").unwrap();
            let (seconds, rest) = rest.split_once(" s), ").unwrap();
            assert!(seconds.parse::<u32>().is_ok(), "{line}");
            assert_eq!(rest, format!("{} of {all} crates left", all - 1 - index));
            let needs: BTreeSet<String> = list[name].iter().cloned().collect();
            assert!(needs.is_subset(&proved), "{name} is too early:\n{wrote}");
            proved.insert(name.to_string());
        }
        assert_eq!(proved, crates);
        let end = format!("all {all} crates are proved, and {made} is built");
        assert_eq!(lines[all + 1], end);
        let copied = fs::read_to_string(place(top).join(made)).unwrap();
        assert_eq!(copied, format!("made of {top}\n"));
        let log = fs::read_to_string(place(top).join("target/prove.log")).unwrap();
        assert_eq!(log.lines().count(), all, "{log}");
    }
}

#[test]
fn what_is_not_proved_is_shown() {
    let _held = held();
    for (name, fails) in [("crate", "line"), ("library", "stand")] {
        let stop =
            format!("[ ${{PWD##*/}} = {fails} ] && {{ echo 'rt: NOT PROVED' >&2; exit 1; }}");
        let out = prove(name, &[], Some(&format!("{stop}\n{GOOD}")));
        assert_eq!(out.status.code(), Some(1));
        let said = text(out.stderr);
        assert!(
            said.contains("NOT PROVED")
                && said.contains(&format!("{fails} is not proved"))
                && said.contains("the lines above say why"),
            "{said}"
        );
        assert!(!place(name).join("target/staticlib/libstand.a").exists());
    }
    let out = prove("none", &[], None);
    assert_eq!(out.status.code(), Some(2));
    assert!(text(out.stderr).contains("is not on the PATH"));
    let out = prove("word", &["stands"], Some(GOOD));
    assert_eq!(out.status.code(), Some(2));
    assert!(text(out.stderr).contains("usage"));
}

/// With no cargo on the PATH.
#[test]
fn the_gate_fails_where_an_edit_is_bad() {
    let _held = held();
    let folder = place("gate");
    let _ = fs::remove_dir_all(&folder);
    let bin = folder.join("bin");
    for part in [&bin, &folder.join(".ci")] {
        fs::create_dir_all(part).unwrap();
    }
    fs::copy(root().join(".ci/run"), folder.join(".ci/run")).unwrap();
    let used = [
        "bash", "dirname", "grep", "mktemp", "rm", "sh", "tail", "tee",
    ];
    tools(&bin, &used);
    let ok =
        "rt: ok; handles allowed: none; must-fail edits: 61 refused, 2 of them only by a limit";
    let last = "98 passed, 0 failed";
    for (name, lines, status, ends) in [
        ("good", format!("{ok}; every proof\n{last}"), 0, 0),
        ("bad", format!("{ok}, 1 bad; every proof\n{last}"), 0, 1),
        ("many", format!("{ok}, 12 bad; every proof\n{last}"), 0, 1),
        ("none", last.to_string(), 0, 1),
        (
            "failed",
            "rt: FAILED: plane\n97 passed, 1 failed".into(),
            1,
            1,
        ),
    ] {
        let script = format!("[ \"$*\" = ci ] || exit 9\necho '{lines}'\nexit {status}");
        stand_in(&bin, &script);
        let mut command = Command::new(folder.join(".ci/run"));
        let out = command.env("PATH", &bin).output().expect(".ci/run");
        assert_eq!(out.status.code(), Some(ends), "{name}: {out:?}");
        let wrote = text(out.stdout);
        if ends == 0 {
            assert_eq!(wrote.lines().last(), Some(last));
        }
        assert!(wrote.starts_with(&lines), "{name}: {wrote}");
    }
}

#[test]
fn the_version_names_the_library() {
    let _held = held();
    let out = Command::new(env!("CARGO_BIN_EXE_stand"))
        .arg("--version")
        .output()
        .expect("stand");
    let sum = stand::sha256::of(&fs::read(env!("STAND_ARCHIVE")).unwrap());
    let number = env!("CARGO_PKG_VERSION");
    let want =
        format!("stand {number}\nproved library {number}, libstand.a with the SHA-256 {sum}\n");
    assert_eq!(text(out.stdout), want);
}
