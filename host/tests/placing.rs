//! How results come to their place: what is there already is kept, a failure leaves what was there
//! before, and a stop at any system call leaves the old results or the new ones.

#[path = "../examples/pictures/draw.rs"]
#[allow(dead_code)]
mod draw;
#[path = "../support/running.rs"]
mod running;
#[path = "../support/soft.rs"]
mod soft;

use running::*;
use stand::netpbm;
use stand::Settings;
use std::collections::BTreeMap;
use std::fs;
use std::io::Write;
use std::path::{Path, PathBuf};
use std::process::Command;

/// What is there already is kept, unless --force replaces it.
#[test]
fn kept() {
    let folder = folder("kept");
    let image = draw::sign();
    let picture = netpbm::pam(&image);
    fs::write(folder.join("a.pam"), &picture).unwrap();
    for end in ENDS {
        let own = folder.join(format!("a.{end}"));
        fs::write(&own, "mine").unwrap();
        run(&folder, &["a.pam"]).ended(2, &format!("a.{end} is there already; add --force"));
        assert_eq!(fs::read(&own).unwrap(), b"mine");
        assert_eq!(names(&folder).len(), 2);
        fs::remove_file(&own).unwrap();
    }
    for end in ENDS {
        fs::write(folder.join(format!("a.{end}")), "mine").unwrap();
    }
    run(&folder, &["a.pam", "--force"]).ended(0, "");
    filed(&folder, "a", &image, &Settings::default(), &picture);
    assert_eq!(names(&folder), results_of("a", &["a.pam"]));

    // A refusal leaves the results of before.
    run(&folder, &["a.pam", "--force", "--alpha-threshold=999"]).ended(1, "refused 6");
    filed(&folder, "a", &image, &Settings::default(), &picture);

    // A picture that has the name of a result is not replaced by it.
    let own = folder.join("b.weights.pgm");
    fs::write(&own, b"P5 1 1 255\na").unwrap();
    let ran = run(&folder, &["b.weights.pgm", "--name", "b", "--force"]);
    ran.ended(2, "would take the picture's place");
    assert_eq!(fs::read(&own).unwrap(), b"P5 1 1 255\na");
}

/// After a failure in the midst of writing, no new file is left.
#[test]
fn nothing_half_written() {
    let folder = folder("half");
    let image = draw::badge();
    fs::write(folder.join("a.pam"), netpbm::pam(&image)).unwrap();
    // Where files may have so many blocks only, writing fails as on a full disk.
    let limited = |blocks: u32| {
        let script = format!("trap '' XFSZ; ulimit -f {blocks}; exec \"$0\" a.pam");
        let mut shell = Command::new("sh");
        shell.current_dir(&folder);
        shell
            .args(["-c", &script, env!("CARGO_BIN_EXE_stand")])
            .output()
    };
    for blocks in [0, 1, 8, 100, 600] {
        match limited(blocks) {
            Ok(output) => Ran::new(output).ended(2, "could not be written"),
            Err(why) => {
                let line = format!("skipped: there is no sh to limit a file's size: {why}\n");
                std::io::stderr().write_all(line.as_bytes()).unwrap();
            }
        }
        assert_eq!(names(&folder), ["a.pam"], "{blocks} blocks");
    }
    // A folder in the place of a result cannot be replaced.
    for end in ENDS {
        let own = format!("a.{end}");
        fs::create_dir(folder.join(&own)).unwrap();
        run(&folder, &["a.pam", "--force"]).ended(2, "could not be written");
        let mut before = ["a.pam", &own];
        before.sort();
        assert_eq!(names(&folder), before);
        fs::remove_dir(folder.join(&own)).unwrap();
    }
}

/// A folder's files by their names.
type Files = BTreeMap<String, Vec<u8>>;

fn files(folder: &Path) -> Files {
    let read = |name: String| (name.clone(), fs::read(folder.join(name)).unwrap());
    names(folder).into_iter().map(read).collect()
}

/// The folder has these files and no other.
fn put(folder: &Path, files: &Files) {
    let _ = fs::remove_dir_all(folder);
    fs::create_dir(folder).unwrap();
    for (name, bytes) in files {
        fs::write(folder.join(name), bytes).unwrap();
    }
}

/// The library that stops a program at a system call, where there is a C compiler.
fn stopper(test: &str) -> Option<PathBuf> {
    let source = Path::new(env!("CARGO_MANIFEST_DIR")).join("tests/c/stop.c");
    let library = folder(&format!("stopper-{test}")).join("stop.so");
    let mut cc = Command::new("cc");
    cc.args(["-shared", "-fPIC", "-o"])
        .arg(&library)
        .arg(source);
    let built = cc.arg("-ldl").status().is_ok_and(|status| status.success());
    built.then_some(library)
}

/// Cuts a.pam anew.
const CUT: [&str; 5] = [
    "a.pam",
    "--fringe=3",
    "--small-weights",
    "--force",
    "--quiet",
];

/// Runs the program where these files lie, stopped at one call after the other, until it ends by
/// itself; each time `look` sees the folder and whether the program ended well. Gives the number of
/// calls.
fn at_each_call(
    how: &str,
    words: &[&str],
    old: &Files,
    look: impl Fn(&Path, bool),
) -> Option<usize> {
    let test = format!("{how}-{}-{}", words[0], old.len());
    let library = stopper(&test)?;
    let folder = folder(&test).join("cuts");
    for at in 1.. {
        put(&folder, old);
        let mut command = program(&folder, words);
        command.env("LD_PRELOAD", &library).env("STOP_HOW", how);
        let output = command.env("STOP_AT", at.to_string()).output().unwrap();
        let said = String::from_utf8_lossy(&output.stderr);
        assert!(!said.contains("panicked"), "{said}");
        look(&folder, output.status.success());
        if output.status.success() && how != "fail" {
            return Some(at - 1);
        }
        // A failing call past the last one that there is changes nothing.
        if output.status.success() && at > 100 {
            return Some(at);
        }
    }
    None
}

/// Old results, with a picture of what one more pass would take off, and the new ones that would
/// replace them, each with the picture.
fn old_and_new(test: &str) -> (Files, Files) {
    let mut rgb = vec![240; 3 * 20 * 20];
    for y in 5..15 {
        rgb[3 * (20 * y + 5)..3 * (20 * y + 15)].fill(30);
    }
    let picture = [b"P6 20 20 255\n", &rgb[..]].concat();
    let set = |name: &str, words: &[&str]| {
        let folder = folder(&format!("{test}-{name}"));
        fs::write(folder.join("a.pam"), &picture).unwrap();
        run(&folder, &[&["a.pam"], words].concat()).ended(0, "");
        files(&folder)
    };
    let mut old = set("old", &[]);
    old.insert("a.next-pass.png".into(), b"of before".to_vec());
    let new = set("new", &["--fringe=3", "--small-weights"]);
    assert!(old != new && old.len() == new.len() + 2);
    (old, new)
}

/// The files under `.old` names, by their own names.
fn second_names(there: &Files) -> Files {
    let own = |(name, bytes): (&String, &Vec<u8>)| {
        let name = name.strip_suffix(".old")?;
        Some((name.to_string(), bytes.clone()))
    };
    there.iter().filter_map(own).collect()
}

/// The files without those that a stop can leave behind.
fn first_names(there: &Files) -> Files {
    let mut own = there.clone();
    own.retain(|name, _| !name.ends_with(".old") && !name.ends_with(".part"));
    own
}

/// Killed before any system call that changes a file, the program leaves the old results or the new
/// ones whole, and another run puts the place in order.
#[test]
fn replaced_or_not() {
    let (old, new) = old_and_new("replaced");
    for how in ["kill", "nolink"] {
        let look = |folder: &Path, _: bool| {
            let there = files(folder);
            let own = first_names(&there);
            if there.contains_key("a.record.txt") {
                assert!(own == old || own == new);
            } else {
                let mut kept = second_names(&there);
                kept.insert("a.pam".into(), old["a.pam"].clone());
                assert!(kept == old, "{:?}", there.keys());
            }
            let ran = run(folder, &["a.pam"]);
            ran.ended(2, "is there already");
            let after = first_names(&files(folder));
            assert!(after == old || after == new, "{:?}", after.keys());
            assert!(second_names(&files(folder)).is_empty());
            run(folder, &["--check", "a.record.txt", "a.pam"]).ended(0, "");
        };
        match at_each_call(how, &CUT, &old, look) {
            Some(calls) => {
                let line = format!("placing: {how} at each of {calls} calls\n");
                std::io::stderr().write_all(line.as_bytes()).unwrap();
                assert!(calls > 30);
            }
            None => skipped("there is no cc to stop the program at each call"),
        }
    }
}

/// Where nothing was before, a stop leaves whole files, and a record only where all are there.
#[test]
fn written_or_not() {
    let (mut old, new) = old_and_new("written");
    old.retain(|name, _| name == "a.pam");
    let look = |folder: &Path, _: bool| {
        let own = first_names(&files(folder));
        assert!(own.iter().all(|(name, bytes)| new.get(name) == Some(bytes)));
        assert!(own == new || !own.contains_key("a.record.txt"));
    };
    if at_each_call("kill", &CUT, &old, look).is_none() {
        skipped("there is no cc to stop the program at each call");
    }
}

/// Whatever call fails, the results under their own names are the old ones, or all went well and they
/// are the new ones.
#[test]
fn failed_or_not() {
    let (old, new) = old_and_new("failed");
    let look = |folder: &Path, well: bool| {
        let there = files(folder);
        let own = first_names(&there);
        if well {
            assert!(own == new, "{:?}", own.keys());
        } else {
            assert!(own == old, "{:?}", there.keys());
        }
        // Of what was to be removed one file at most could not be.
        assert!(there.len() <= own.len() + 1, "{:?}", there.keys());
    };
    if at_each_call("fail", &CUT, &old, look).is_none() {
        skipped("there is no cc to have calls fail");
    }
}

/// The picture of the next pass comes to its place at once, or not at all, and no other file changes.
#[test]
fn next_pass_or_not() {
    let name = "a.next-pass.png";
    let folder = folder("next");
    let picture = netpbm::pam(&soft::disc(40, 40, 8.0));
    fs::write(folder.join("a.pam"), picture).unwrap();
    run(&folder, &["a.pam"]).ended(0, "");
    let words = ["--next-pass", "a.record.txt", "a.pam", "--force", "--quiet"];
    run(&folder, &words).quiet();
    let new = files(&folder);
    let mut old = new.clone();
    old.insert(name.into(), b"of before".to_vec());
    for how in ["kill", "fail"] {
        let look = |folder: &Path, well: bool| {
            let there = files(folder);
            let own = first_names(&there);
            assert!(own == new || !well && own == old, "{:?}", there.keys());
            assert!(how == "kill" || well == (own == new));
            let left = there.keys().filter(|name| !own.contains_key(*name));
            let left: Vec<&String> = left.collect();
            assert!(left.len() <= 1 && left.iter().all(|name| name.ends_with(".part")));
        };
        if at_each_call(how, &words, &old, look).is_none() {
            skipped("there is no cc to stop the program at each call");
        }
    }
}

/// A folder that has the name of a result is not replaced, and all results of before stay.
#[test]
fn folder_in_the_way() {
    let (old, _) = old_and_new("way");
    for end in ENDS {
        let folder = folder("way").join("cuts");
        put(&folder, &old);
        let own = format!("a.{end}");
        fs::remove_file(folder.join(&own)).unwrap();
        fs::create_dir(folder.join(&own)).unwrap();
        let ran = run(&folder, &["a.pam", "--fringe=3", "--force"]);
        ran.ended(2, "could not be written: a folder has its name");
        fs::remove_dir(folder.join(&own)).unwrap();
        let mut rest = old.clone();
        rest.remove(&own);
        assert!(files(&folder) == rest);
    }
}
