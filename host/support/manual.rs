//! The manual page and the completion of a shell, made of the text of `stand --help`, so that
//! neither can leave an option out.
//!
//! The text has parts with an empty line between them. Lines at the left margin are a sentence or,
//! before a list, its heading. An entry of a list begins after two spaces with its label; its words
//! follow after two more, and go on in lines further in.

/// What writes both anew.
pub const MADE_BY: &str = "cargo run --manifest-path host/Cargo.toml --bin manual";

/// A part of the help's text.
#[derive(Default)]
struct Part<'a> {
    lines: Vec<&'a str>,
    entries: Vec<Entry<'a>>,
}

/// An entry of a list, such as an option.
struct Entry<'a> {
    label: &'a str,
    words: Vec<&'a str>,
}

fn parts(help: &str) -> Vec<Part<'_>> {
    help.split("\n\n").map(part).collect()
}

fn part(text: &str) -> Part<'_> {
    let mut part = Part::default();
    for line in text.lines() {
        let inner = line.trim_start();
        match (line.len() - inner.len(), part.entries.last_mut()) {
            (0, _) => part.lines.push(line),
            (3.., Some(entry)) => entry.words.push(inner),
            _ => {
                let (label, words) = inner.split_once("  ").unwrap_or((inner, ""));
                let words = Some(words.trim()).filter(|words| !words.is_empty());
                part.entries.push(Entry {
                    label,
                    words: words.into_iter().collect(),
                });
            }
        }
    }
    part
}

/// The options in the order of the help's text, each with what its value is called, which is empty
/// where it has none.
pub fn choices(help: &str) -> Vec<(&str, &str)> {
    let all = parts(help).into_iter().flat_map(|part| part.entries);
    let labels = all.flat_map(|entry| entry.label.split(", "));
    labels
        .filter(|label| label.starts_with("--"))
        .map(|label| label.split_once(' ').unwrap_or((label, "")))
        .collect()
}

// ---- the manual page

/// The manual page, in the language of `man`. It has no date: it changes with the help's text and
/// the version alone.
pub fn page(help: &str, version: &str) -> String {
    let mut parts = parts(help);
    // The first part says what the program does, the first list how it is called.
    let about = parts.remove(0);
    let calls = parts.iter().position(|part| !part.entries.is_empty());
    let calls = calls.map(|at| parts.remove(at)).unwrap_or_default();
    let (options, rest): (Vec<Part>, Vec<Part>) = parts.into_iter().partition(has_options);
    let (status, rest): (Vec<Part>, Vec<Part>) = rest.into_iter().partition(is_status);

    let mut text = format!(
        ".\\\" Made from the text of stand --help by: {MADE_BY}\n\
         .TH STAND 1 \"\" \"stand {version}\"\n"
    );
    let name = about.lines.join(" ").replacen("stand ", "stand - ", 1);
    for (title, body) in [
        ("NAME", plain(name.trim_end_matches('.'))),
        ("SYNOPSIS", list(&calls)),
        ("DESCRIPTION", rest.iter().map(section).collect()),
        ("OPTIONS", options.iter().map(section).collect()),
        ("EXIT STATUS", status.iter().map(section).collect()),
        ("SEE ALSO", plain("The file docs/PROGRAM.md says more.")),
    ] {
        // A section begins a paragraph by itself.
        let body = body.strip_prefix(".PP\n").unwrap_or(&body);
        if !body.is_empty() {
            text += &format!(".SH {title}\n{body}");
        }
    }
    text
}

fn has_options(part: &Part) -> bool {
    part.entries
        .iter()
        .any(|entry| entry.label.starts_with("--"))
}

fn is_status(part: &Part) -> bool {
    part.lines
        .first()
        .is_some_and(|line| line.starts_with("stand ends with"))
}

/// A part as a paragraph, or as a list under its heading.
fn section(part: &Part) -> String {
    let lines: String = part.lines.iter().copied().map(plain).collect();
    if part.entries.is_empty() {
        format!(".PP\n{lines}")
    } else {
        let heading = lines.trim_end().trim_end_matches(':').replace('\n', " ");
        format!(".SS {heading}\n{}", list(part))
    }
}

fn list(part: &Part) -> String {
    let entry = |entry: &Entry| {
        let words: String = entry.words.iter().copied().map(plain).collect();
        format!(".TP\n{}\n{words}", label(entry.label))
    };
    part.entries.iter().map(entry).collect()
}

/// A label: what is typed as it stands is bold, what a value is called, in capitals, is slanted.
fn label(text: &str) -> String {
    let word = |word: &str| {
        let name = word.trim_matches(|c| matches!(c, '[' | ']' | ','));
        let capitals = name.to_uppercase() == name && name.to_lowercase() != name;
        let font = if capitals { 'I' } else { 'B' };
        escaped(word).replacen(
            &escaped(name),
            &format!("\\f{font}{}\\fR", escaped(name)),
            1,
        )
    };
    text.split(' ').map(word).collect::<Vec<_>>().join(" ")
}

/// A line of text. A dot or a quote at its beginning would be a command.
fn plain(line: &str) -> String {
    let guard = if line.starts_with(['.', '\'']) {
        "\\&"
    } else {
        ""
    };
    format!("{guard}{}\n", escaped(line))
}

/// A text in which no character is a command, and a hyphen can be copied as one.
fn escaped(text: &str) -> String {
    let safe = text.replace('\\', "\\e").replace('-', "\\-");
    safe.replace('\'', "\\(aq")
}

// ---- completion

/// The completion for bash, with places for the options and for what is done after those that have
/// a value.
const COMPLETION: &str = r#"# Completion of the words of stand in bash: source this file.
# Made from the text of stand --help by: MADE_BY
_stand() {
    local options='
OPTIONS
    '
    COMPREPLY=()
    case $3 in
AFTER
    *) [[ $2 != -* ]] || mapfile -t COMPREPLY < <(compgen -W "$options" -- "$2") ;;
    esac
}
complete -o default -F _stand stand
"#;

/// The completion for bash: the options, and after an option what its value can be. Where nothing
/// is said it is a file.
pub fn completion(help: &str) -> String {
    let choices = choices(help);
    let options: Vec<String> = choices.iter().map(|(o, _)| format!("    {o}")).collect();
    let after = |(option, value): &(&str, &str)| {
        let offer = match *value {
            "" => return None,
            "FOLDER" => "compopt +o default -o dirnames",
            // A number, a colour or a new name, of which a shell knows nothing.
            "N" | "T" | "RRGGBB" | "NAME" => "compopt +o default",
            _ => ":",
        };
        Some(format!("    {option}) {offer} ;;"))
    };
    let after: Vec<String> = choices.iter().filter_map(after).collect();
    COMPLETION
        .replace("MADE_BY", MADE_BY)
        .replace("OPTIONS", &options.join("\n"))
        .replace("AFTER", &after.join("\n"))
}
