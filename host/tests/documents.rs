//! The documents speak of what is there: names of definitions, functions, laws and edits that they
//! cite stand in the crates, files they point to exist, every must-fail edit and every crate has its
//! place in the tables of docs/ARCHITECTURE.md, and every rule that is cited anywhere is one of
//! docs/RULES.md.

use std::collections::BTreeSet;
use std::fs;
use std::io::Write;
use std::path::{Path, PathBuf};

fn root() -> PathBuf {
    Path::new(env!("CARGO_MANIFEST_DIR")).join("..")
}

/// Every file below a folder, what is built left out.
fn files(folder: &Path, found: &mut Vec<PathBuf>) {
    for entry in fs::read_dir(folder).unwrap() {
        let path = entry.unwrap().path();
        if ["target", "out", ".git"]
            .iter()
            .any(|name| path.ends_with(name))
        {
            continue;
        }
        if path.is_dir() {
            files(&path, found);
        } else {
            found.push(path);
        }
    }
}

fn all_files(folder: &str) -> Vec<PathBuf> {
    let mut found = Vec::new();
    files(&root().join(folder), &mut found);
    found
}

fn read(path: &Path) -> String {
    fs::read_to_string(path).unwrap_or_else(|e| panic!("{}: {e}", path.display()))
}

/// The words of a source text: names have letters of any alphabet, digits, '-' and '_'.
fn words(text: &str) -> BTreeSet<String> {
    text.split(|c: char| !(c.is_alphanumeric() || c == '-' || c == '_'))
        .filter(|w| !w.is_empty())
        .map(str::to_string)
        .collect()
}

/// The names of the crates' sources, and those of the must-fail edits.
fn source_words() -> (BTreeSet<String>, BTreeSet<String>) {
    let mut names = BTreeSet::new();
    let mut edits = BTreeSet::new();
    for path in all_files("crates") {
        let stem = path.file_stem().unwrap().to_str().unwrap().to_string();
        match path.extension().and_then(|e| e.to_str()) {
            Some("antt" | "rt") => names.extend(words(&read(&path))),
            Some("edit") => {
                edits.insert(stem);
            }
            _ => {}
        }
    }
    (names, edits)
}

/// What stands between backquotes in a line of text, code blocks left out.
fn quoted(text: &str) -> Vec<String> {
    let mut found = Vec::new();
    let mut block = false;
    for line in text.lines() {
        if line.trim_start().starts_with("```") {
            block = !block;
        } else if !block && !line.starts_with("    ") {
            found.extend(line.split('`').skip(1).step_by(2).map(str::to_string));
        }
    }
    found
}

fn is_name(word: &str) -> bool {
    word.chars()
        .all(|c| c.is_alphanumeric() || c == '-' || c == '_')
}

#[test]
fn cited_names_stand_in_the_crates() {
    let (names, edits) = source_words();
    for page in ["docs/ARCHITECTURE.md", "docs/OUTLINE.md"] {
        let text = read(&root().join(page));
        let missing: Vec<String> = quoted(&text)
            .into_iter()
            .filter(|w| is_name(w) && !names.contains(w) && !edits.contains(w))
            .filter(|w| !root().join("crates").join(w).is_dir())
            .collect();
        assert!(
            missing.is_empty(),
            "{page} cites what is not there: {missing:?}"
        );
    }
}

#[test]
fn every_edit_has_its_place() {
    let (_, edits) = source_words();
    let cited: BTreeSet<String> = quoted(&read(&root().join("docs/ARCHITECTURE.md")))
        .into_iter()
        .collect();
    let left_out: Vec<&String> = edits.difference(&cited).collect();
    assert!(
        left_out.is_empty(),
        "not in docs/ARCHITECTURE.md: {left_out:?}"
    );
}

#[test]
fn files_pointed_to_exist() {
    let mut pages = all_files("docs");
    pages.retain(|p| p.extension().is_some_and(|e| e == "md"));
    pages.push(root().join("README.md"));
    pages.push(root().join("host/README.md"));
    for page in pages {
        let text = read(&page);
        let folder = page.parent().unwrap();
        for target in text.split("](").skip(1).filter_map(|t| t.split(')').next()) {
            let file = target.split('#').next().unwrap();
            if !file.is_empty() && !file.contains("://") {
                assert!(folder.join(file).exists(), "{}: {target}", page.display());
            }
        }
        for word in quoted(&text) {
            let path = ["crates/", "docs/", "host/", "include/"]
                .iter()
                .any(|p| word.starts_with(p));
            if path
                && !word.contains(['*', '{', ' '])
                && !word.contains("CRATE")
                && !word.contains("target")
            {
                assert!(root().join(&word).exists(), "{}: {word}", page.display());
            }
        }
    }
}

/// The rules of docs/RULES.md, in its order.
fn rules() -> Vec<usize> {
    let text = read(&root().join("docs/RULES.md"));
    let number = |line: &str| line.strip_prefix("- **R")?.split("**").next()?.parse().ok();
    text.lines().filter_map(number).collect()
}

/// The rules that a text cites: words of R and a number.
fn cited(text: &str) -> Vec<usize> {
    text.split(|c: char| !(c.is_alphanumeric() || c == '_'))
        .filter_map(|word| word.strip_prefix('R')?.parse().ok())
        .collect()
}

/// What a reader reads of a file: a page whole, of a source its comments.
fn prose(path: &Path, text: &str) -> String {
    let comment = match path.extension().and_then(|e| e.to_str()) {
        Some("antt") => "--",
        Some("rt" | "rs") => "//",
        Some("py") => "#",
        _ => return text.to_string(),
    };
    let after = |line: &str| {
        line.split_once(comment)
            .map(|(_, said)| said.to_string() + "\n")
    };
    text.lines().filter_map(after).collect()
}

/// The pages and sources of the repository.
fn texts() -> Vec<(PathBuf, String)> {
    let mut found = vec![root().join("README.md")];
    for folder in ["crates", "docs", "examples", "host", "include"] {
        found.extend(all_files(folder));
    }
    let kinds = ["antt", "rt", "rs", "md", "h", "c", "py", "edit"];
    found.retain(|p| p.extension().is_some_and(|e| kinds.iter().any(|k| e == *k)));
    found.into_iter().map(|p| (p.clone(), read(&p))).collect()
}

#[test]
fn rules_are_numbered_in_order() {
    let rules = rules();
    assert!(rules.len() >= 79, "{} rules", rules.len());
    let distinct: BTreeSet<usize> = rules.iter().copied().collect();
    let expected: BTreeSet<usize> = (1..=rules.len()).collect();
    assert_eq!(distinct, expected, "a number is missing or stands twice");
}

#[test]
fn cited_rules_exist() {
    let rules = rules();
    let (mut count, mut specs, mut missing) = (0, BTreeSet::new(), Vec::new());
    for (path, text) in texts() {
        let all = cited(&prose(&path, &text));
        count += all.len();
        let wrong = all.iter().filter(|rule| !rules.contains(rule));
        missing.extend(wrong.map(|rule| format!("{}: R{rule}", path.display())));
        if path.components().any(|part| part.as_os_str() == "specs") {
            specs.extend(all);
        }
    }
    let line = format!(
        "{count} citations of rules; definitions cite {} of them\n",
        specs.len()
    );
    std::io::stderr().write_all(line.as_bytes()).unwrap();
    assert!(missing.is_empty(), "no rule of docs/RULES.md: {missing:#?}");
}

/// What a line of a file of definitions defines, fields of records left out.
fn defined(line: &str) -> Option<&str> {
    let words = ["unfoldable ", "abbrev "];
    let line = words
        .iter()
        .find_map(|w| line.strip_prefix(w))
        .unwrap_or(line);
    let line = line.strip_prefix("pub ")?;
    let kinds = ["record ", "data "];
    let line = kinds
        .iter()
        .find_map(|k| line.strip_prefix(k))
        .unwrap_or(line);
    (!line.starts_with("mod ")).then(|| line.split(' ').next().unwrap())
}

/// The comment above a definition names its rule, or that above the first of a group does. Searching and
/// counting among numbers is general, and has none.
#[test]
fn definitions_name_their_rules() {
    let (mut count, mut missing) = (0, Vec::new());
    for (path, text) in texts() {
        let own = path
            .parent()
            .is_some_and(|folder| folder.ends_with("specs"));
        if !own
            || path.extension().is_none_or(|e| e != "antt")
            || path.ends_with("plane/specs/Search.antt")
        {
            continue;
        }
        let (mut comment, mut above) = (String::new(), String::new());
        for line in text.lines() {
            if let Some(said) = line.strip_prefix("--") {
                above += said;
                continue;
            }
            if let Some(name) = defined(line) {
                count += 1;
                if !above.is_empty() {
                    comment = above.clone();
                }
                if cited(&comment).is_empty() {
                    missing.push(format!("{}: {name}", path.display()));
                }
            }
            above.clear();
        }
    }
    assert!(count > 200, "{count} definitions");
    assert!(missing.is_empty(), "no rule is named for: {missing:#?}");
}

/// Whether a crate's definitions have data or a record of this name.
fn is_definition(owner: &str, name: &str) -> bool {
    all_files(&format!("crates/{owner}/specs")).iter().any(|p| {
        let text = read(p);
        ["data", "record"]
            .iter()
            .any(|kind| text.contains(&format!("pub {kind} {name} ")))
    })
}

/// The tests that `definitions` writes for the prover name definitions that are there.
#[test]
fn the_definitions_that_are_computed_exist() {
    let tool = read(&root().join("host/src/bin/definitions.rs"));
    let mut count = 0;
    for line in tool.lines() {
        let Some(path) = line.strip_prefix("use Rattle.") else {
            continue;
        };
        let (path, list) = path.split_once(".{").expect("a list of names");
        let (owner, module) = path.split_once(".specs.").expect("definitions");
        // A module of `declared` is of a type of the code.
        let (file, there) = if module.starts_with("declared.") {
            let file = format!("crates/{owner}/src");
            let code = all_files(&file);
            let there = code.iter().flat_map(|p| words(&read(p))).collect();
            (file, there)
        } else {
            let file = format!("crates/{owner}/specs/{module}.antt");
            let there = words(&read(&root().join(&file)));
            (file, there)
        };
        for name in list.trim_end_matches('}').split(", ") {
            assert!(there.contains(name), "{file} has no {name}");
            if module.starts_with("declared.") {
                assert!(
                    !is_definition(owner, name),
                    "{name} is a definition of {owner}, besides the type of the code"
                );
            }
            count += 1;
        }
    }
    assert!(count > 80, "{count} names");
}

/// The papers that the rules replace are named in docs/RULES.md and nowhere else.
#[test]
fn the_old_name_is_gone() {
    let old = ["00", "01"].map(|number| format!("ocument {number}"));
    let left: Vec<PathBuf> = texts()
        .into_iter()
        .filter(|(_, text)| old.iter().any(|name| text.contains(name)))
        .filter(|(path, _)| !path.ends_with("docs/RULES.md"))
        .map(|(path, _)| path)
        .collect();
    assert!(
        left.is_empty(),
        "cite a rule of docs/RULES.md instead: {left:#?}"
    );
}

#[test]
fn every_crate_has_its_place() {
    let page: BTreeSet<String> = quoted(&read(&root().join("docs/ARCHITECTURE.md")))
        .into_iter()
        .collect();
    let list = read(&root().join("crates.txt"));
    let lines = list.lines().filter(|line| !line.starts_with('#'));
    let crates = lines.filter_map(|line| line.split_once(':'));
    let left_out: Vec<&str> = crates
        .filter_map(|(head, _)| head.split_whitespace().next())
        .filter(|name| !page.contains(*name))
        .collect();
    assert!(
        left_out.is_empty(),
        "not in docs/ARCHITECTURE.md: {left_out:?}"
    );
}
