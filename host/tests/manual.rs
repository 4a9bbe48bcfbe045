//! The manual page `docs/stand.1` and the completion `host/completions/stand.bash` are what the
//! text of `stand --help` gives, so each option that the help lists is in both.

#[path = "../support/manual.rs"]
mod manual;

use std::fs;
use std::io::{ErrorKind, Write};
use std::path::{Path, PathBuf};
use std::process::Command;

const HELP: &str = include_str!("../src/bin/stand/help.txt");

fn path(of: &str) -> PathBuf {
    Path::new(env!("CARGO_MANIFEST_DIR")).join("..").join(of)
}

fn read(of: &str) -> String {
    fs::read_to_string(path(of)).unwrap_or_else(|why| panic!("{of}: {why}"))
}

/// What a program writes, standard error too; `None`, with a line that says so, where it is not
/// installed.
fn ran(command: &mut Command) -> Option<String> {
    match command.output() {
        Err(why) if why.kind() == ErrorKind::NotFound => {
            let line = format!("skipped: {:?} is not installed\n", command.get_program());
            std::io::stderr().write_all(line.as_bytes()).unwrap();
            None
        }
        other => {
            let out = other.expect("a program that runs");
            let text = [out.stdout, out.stderr].concat();
            Some(String::from_utf8(text).expect("a text"))
        }
    }
}

#[test]
fn made_from_the_help() {
    let page = manual::page(HELP, env!("CARGO_PKG_VERSION"));
    let completion = manual::completion(HELP);
    for (file, text) in [
        ("docs/stand.1", page),
        ("host/completions/stand.bash", completion),
    ] {
        let again = manual::MADE_BY;
        assert!(
            read(file) == text,
            "{file} is not what the help's text gives; write it anew by `{again}`"
        );
    }
}

/// The options are found here without regard to the form of the help's text.
#[test]
fn every_option_of_the_help() {
    let ends = |c: char| !(c.is_ascii_alphanumeric() || c == '-');
    let words = HELP.split(ends).filter(|word| word.starts_with("--"));
    let (page, completion) = (read("docs/stand.1"), read("host/completions/stand.bash"));
    let mut count = 0;
    for word in words {
        let bold = format!("\\fB{}\\fR", word.replace('-', "\\-"));
        assert!(page.contains(&bold), "docs/stand.1 has no {word}");
        let own = format!("    {word}\n");
        assert!(completion.contains(&own), "the completion has no {word}");
        count += 1;
    }
    assert!(count >= 12, "{count} options");
    assert!(manual::choices(HELP).contains(&("--out", "FOLDER")));
}

/// The page is sound to another reader of such pages; that it has no date is meant so.
#[test]
fn the_page_is_sound() {
    let mut command = Command::new("mandoc");
    command.arg("-Tlint").arg(path("docs/stand.1"));
    let Some(said) = ran(&mut command) else {
        return;
    };
    let faults: Vec<&str> = said
        .lines()
        .filter(|l| !l.contains("missing date"))
        .collect();
    assert!(faults.is_empty(), "{faults:#?}");
}

/// A list, sentences on both sides of it, and characters that are commands of `man` at a line's
/// beginning.
#[test]
fn odd_texts() {
    let help = [
        "stand cuts.\n\n  stand a\n      cuts\n",
        "A\\b - 'c'\n.d\n",
        "More:\n  --x, --y [Z]  e\n      'f'\n",
    ]
    .join("\n");
    let page = manual::page(&help, "1");
    for part in [
        "stand \\- cuts\n",
        "A\\eb \\- \\(aqc\\(aq\n\\&.d\n",
        ".SS More\n.TP\n\\fB\\-\\-x\\fR, \\fB\\-\\-y\\fR [\\fIZ\\fR]\ne\n\\&\\(aqf\\(aq\n",
    ] {
        assert!(page.contains(part), "{part}\nis not in\n{page}");
    }
    assert_eq!(manual::choices(&help), [("--x", ""), ("--y", "[Z]")]);
    assert!(manual::page("", "1").starts_with(".\\\""));
}

#[test]
fn completed_by_bash() {
    let offered = |word: &str, before: &str| {
        let script = r#"compopt() { echo "$@"; }
                        . "$0" && _stand stand "$1" "$2" && echo "${COMPREPLY[@]}""#;
        let file = path("host/completions/stand.bash");
        let mut command = Command::new("bash");
        command.args(["-c", script]).arg(file).args([word, before]);
        ran(&mut command)
    };
    for (word, before, want) in [
        ("--to", "stand", "--tolerance\n"),
        ("--no", "a.ppm", "--no-key --no-crop\n"),
        ("bad", "stand", "\n"),
        ("", "--out", "+o default -o dirnames\n\n"),
        ("0", "--tolerance", "+o default\n\n"),
        ("ba", "--check", "\n"),
        ("--ne", "stand", "--next-pass\n"),
        ("ba", "--next-pass", "\n"),
    ] {
        let Some(got) = offered(word, before) else {
            return;
        };
        assert_eq!(got, want, "{word} after {before}");
    }
}
