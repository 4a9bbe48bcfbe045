//! What a reader must believe: the definitions that are reached from the contracts of the public
//! calls and from the statements of the theorems. They stand in `crates/*/specs/*.antt`; what only
//! contracts of inner functions cite stands in `crates/*/specs/steps/`. The names are followed
//! through the texts of the definitions, by the `use` lines of each file, and a definition that
//! stands in the wrong place fails the test.

use std::collections::{BTreeMap, BTreeSet, VecDeque};
use std::fmt::Write as _;
use std::fs;
use std::io::Write as _;
use std::path::{Path, PathBuf};

/// The crates whose public functions are calls that a host, a program or a reader leans on.
const CALLS: [&str; 4] = ["geometry", "keying", "stand", "cutfile"];

/// Theorems, by crate and name; and every public statement of these files.
const THEOREMS: [(&str, &str); 35] = [
    ("geometry", "plane-number"),
    ("geometry", "nearest-number"),
    ("geometry", "fill-number"),
    ("geometry", "crop-number"),
    ("keying", "ground-number"),
    ("keying", "growth-number"),
    ("keying", "cut-number"),
    ("nearest", "nearest-some"),
    ("nearest", "nearest-none"),
    ("nearest", "nearest-is"),
    ("labels", "label-joined"),
    ("labels", "joined-label"),
    ("counts", "running-count"),
    ("outline", "cases-hold"),
    ("card", "same_digits"),
    ("next_pass", "joins-zero"),
    ("next_pass", "no-join-ended"),
    ("next_pass", "no-join-same"),
    ("next_pass", "next-after"),
    ("next_pass", "next-cut"),
    ("keying", "is-growth"),
    ("keying", "counts-output"),
    ("keying", "ground-as-before"),
    ("keying", "cut-as-before"),
    ("stand", "exported-ground-as-before"),
    ("stand", "exported-cut-as-before"),
    ("pam_header", "header-accepted"),
    ("pam_header", "header-means"),
    ("pam_header", "earlier-same"),
    ("cutfile", "first-bytes"),
    ("cutfile", "first-eight"),
    ("cutfile", "header-not-eight"),
    ("cutfile", "not-eight-header"),
    ("cutfile", "earlier-kept"),
    ("cutfile", "earlier-accepted"),
];
const THEOREM_FILE: &str = "TwoPictures.antt";

/// A definition: its module and its name. A module is `CRATE/specs/NAME`, `CRATE/specs/steps/NAME` or
/// `CRATE/proofs/NAME`.
type Name = (String, String);

/// The text of a source file without its comments.
fn source(path: &Path, comment: &str) -> String {
    let text = fs::read_to_string(path).unwrap_or_else(|e| panic!("{}: {e}", path.display()));
    let code = |line: &str| line.split(comment).next().unwrap_or("").to_string() + "\n";
    text.lines().map(code).collect()
}

fn in_name(c: char) -> bool {
    c.is_alphanumeric() || "-_′″'".contains(c)
}

/// The words of a text: names, with what stands before a dot in front of them. A field that is read,
/// as in `b .mask`, is none.
fn words(text: &str) -> Vec<String> {
    let mut found = Vec::new();
    let mut word = String::new();
    for c in text.chars().chain([' ']) {
        if in_name(c) || c == '.' {
            word.push(c);
        } else {
            let whole = word.trim_end_matches('.');
            if !whole.is_empty() && !whole.starts_with('.') {
                found.push(whole.to_string());
            }
            word.clear();
        }
    }
    found
}

/// The module that a path such as `Rattle.plane.specs.Plane` names, be it of this repository or not.
fn module_of(path: &str) -> Option<String> {
    let path = path.strip_prefix("Rattle.")?;
    let (name, rest) = path.split_once('.')?;
    if rest.contains(".declared.") {
        return None; // A type of the code.
    }
    Some(format!("{name}/{}", rest.replace('.', "/")))
}

/// What a file's `use` lines bring: names with where they are from, and modules under other names.
#[derive(Default)]
struct Imports {
    names: BTreeMap<String, Name>,
    modules: BTreeMap<String, String>,
}

fn imports(text: &str) -> Imports {
    let mut found = Imports::default();
    let mut lines = text.lines();
    while let Some(line) = lines.next() {
        let line = line.trim_start().trim_start_matches("ghost ");
        let Some(rest) = line.strip_prefix("use ") else {
            continue;
        };
        let mut rest = rest.to_string();
        while rest.contains('{') && !rest.contains('}') {
            rest += lines.next().expect("the end of a `use`");
        }
        let rest = rest.trim_end().trim_end_matches(';');
        if let Some((path, list)) = rest.split_once(".{") {
            let Some(module) = module_of(path) else {
                continue;
            };
            for item in list.trim_end_matches('}').split(',').map(str::trim) {
                let (own, here) = item.split_once(" as ").unwrap_or((item, item));
                let from = (module.clone(), own.to_string());
                found.names.insert(here.to_string(), from);
            }
        } else if let Some((path, here)) = rest.split_once(" as ") {
            if let Some(module) = module_of(path) {
                found.modules.insert(here.trim().to_string(), module);
            }
        }
    }
    found
}

/// A file of definitions: what it imports, and each definition's text, in order.
struct Module {
    file: PathBuf,
    imports: Imports,
    texts: BTreeMap<String, String>,
    /// Constructors, with the definition that they belong to.
    parts: BTreeMap<String, String>,
}

/// The name that a line defines: `pub NAME : …`, `pub record NAME …` and the like.
fn defined(line: &str) -> Option<String> {
    let mut rest = line;
    let mut kind = false;
    loop {
        let (word, after) = rest.split_once(' ')?;
        match word {
            "pub" | "unfoldable" | "abbrev" | "opaque" => rest = after,
            "record" | "data" => {
                kind = true;
                rest = after;
            }
            _ => {
                let is_name = !word.is_empty() && word.chars().all(in_name);
                return (is_name && (kind || after.starts_with(": "))).then(|| word.to_string());
            }
        }
    }
}

fn module(file: &Path) -> Module {
    let text = source(file, "--");
    let mut texts: BTreeMap<String, String> = BTreeMap::new();
    let mut parts = BTreeMap::new();
    let mut current = None;
    for line in text.lines() {
        let top = !line.starts_with(' ') && !line.is_empty();
        if top && (line.starts_with("use ") || line.starts_with("module ")) {
            current = None;
        } else if let Some(name) = defined(line).filter(|_| top) {
            current = Some(name);
        }
        let Some(name) = &current else { continue };
        let own = texts.entry(name.clone()).or_default();
        if let Some(part) = defined(line.trim_start()).filter(|_| line.starts_with("  ")) {
            if own.contains("data ") || own.contains("record ") {
                parts.insert(part, name.clone());
            }
        }
        writeln!(own, "{line}").unwrap();
    }
    Module {
        file: file.to_path_buf(),
        imports: imports(&text),
        texts,
        parts,
    }
}

fn files(folder: &Path, extension: &str, found: &mut Vec<PathBuf>) {
    let Ok(entries) = fs::read_dir(folder) else {
        return;
    };
    for entry in entries {
        let path = entry.unwrap().path();
        if path.is_dir() {
            files(&path, extension, found);
        } else if path.extension().is_some_and(|e| e == extension) {
            found.push(path);
        }
    }
}

/// Everything that the names are followed through.
struct Tree {
    crates: PathBuf,
    modules: BTreeMap<String, Module>,
}

impl Tree {
    fn read() -> Tree {
        let root = Path::new(env!("CARGO_MANIFEST_DIR")).join("..");
        let crates = root.canonicalize().unwrap().join("crates");
        let mut modules = BTreeMap::new();
        for krate in fs::read_dir(&crates).unwrap() {
            let krate = krate.unwrap().path();
            let mut all = Vec::new();
            files(&krate.join("specs"), "antt", &mut all);
            files(&krate.join("proofs"), "antt", &mut all);
            for file in all {
                let within = file.strip_prefix(&crates).unwrap().with_extension("");
                let name = within.to_str().unwrap().to_string();
                modules.insert(name, module(&file));
            }
        }
        Tree { crates, modules }
    }

    /// A definition as it is named: a constructor is the definition that it belongs to.
    fn whole(&self, name: &Name) -> Option<Name> {
        let module = self.modules.get(&name.0)?;
        if module.texts.contains_key(&name.1) {
            return Some(name.clone());
        }
        let owner = module.parts.get(&name.1)?;
        Some((name.0.clone(), owner.clone()))
    }

    /// The definitions that a text names, in a file with these imports and this module's own names.
    fn named(&self, text: &str, imports: &Imports, own: Option<&str>) -> BTreeSet<Name> {
        let mut found = BTreeSet::new();
        for word in words(text) {
            let name = match word.rsplit_once('.') {
                Some((before, last)) => {
                    let module = imports.modules.get(before).cloned();
                    match module.or_else(|| module_of(before)) {
                        Some(module) => (module, last.to_string()),
                        None => continue,
                    }
                }
                None => match (imports.names.get(&word), own) {
                    (Some(name), _) => name.clone(),
                    (None, Some(own)) if self.modules[own].texts.contains_key(&word) => {
                        (own.to_string(), word)
                    }
                    _ => continue,
                },
            };
            found.extend(self.whole(&name));
        }
        found
    }

    /// The public functions of a crate: the text of each contract, with the imports of its file.
    fn contracts(&self, krate: &str) -> Vec<(String, String, Imports)> {
        let mut found = Vec::new();
        let mut waiting = vec![self.crates.join(krate).join("src/lib.rt")];
        while let Some(file) = waiting.pop() {
            let text = source(&file, "//");
            let folder = match file.ends_with("lib.rt") {
                true => file.parent().unwrap().to_path_buf(),
                false => file.with_extension(""),
            };
            let mut lines = text.lines();
            while let Some(line) = lines.next() {
                if let Some(name) = line.strip_prefix("pub mod ") {
                    let name = name.trim_end().trim_end_matches(';');
                    waiting.push(folder.join(name).with_extension("rt"));
                }
                if !line.starts_with("pub ") || !line.contains("fn ") {
                    continue;
                }
                let name = words(line.split("fn ").nth(1).unwrap()).remove(0);
                // Without a contract the body starts at the end of a line, else on a line of its own.
                let mut contract = String::new();
                let mut line = line;
                while line != "{" && (!contract.is_empty() || !line.trim_end().ends_with('{')) {
                    line = lines.next().expect("a body");
                    let clause = line.trim_start();
                    let starts = clause.starts_with("ensures") || clause.starts_with("requires");
                    if starts || !contract.is_empty() {
                        writeln!(contract, "{clause}").unwrap();
                    }
                }
                found.push((format!("{krate}::{name}"), contract, imports(&text)));
            }
        }
        found
    }

    /// The statements of a crate's proofs that are wanted by file, name and whether they are public,
    /// each with what it is stated over.
    fn statements(
        &self,
        krate: &str,
        wanted: impl Fn(&str, &str, bool) -> bool,
    ) -> Vec<(Name, String)> {
        let mut found = Vec::new();
        let start = format!("{krate}/proofs/");
        for (path, module) in &self.modules {
            if !path.starts_with(&start) {
                continue;
            }
            let file = module.file.file_name().unwrap().to_str().unwrap();
            let text = source(&module.file, "--");
            let mut over = String::new();
            let mut lines = text.lines().peekable();
            while let Some(line) = lines.next() {
                let code = line.trim_start();
                let top = code.len() == line.len();
                if top && (code.starts_with("module ") || defined(code).is_some()) {
                    over.clear();
                }
                if code.starts_with("module ") {
                    over += line;
                    while !over.trim_end().ends_with(" where") {
                        over += lines.next().expect("`where`");
                    }
                }
                let Some(name) = defined(code) else { continue };
                if !wanted(file, &name, code.starts_with("pub ")) {
                    continue;
                }
                let mut statement = format!("{over}\n{line}\n");
                while let Some(next) = lines.peek() {
                    let next = next.trim_start();
                    if next.starts_with("unfolding ") || next.starts_with(&name) {
                        break;
                    }
                    writeln!(statement, "{next}").unwrap();
                    lines.next();
                }
                found.push(((path.clone(), name), statement));
            }
        }
        found
    }
}

/// Whether a module is one of definitions, and whether it is one of steps.
fn is_spec(module: &str) -> bool {
    module.split('/').nth(1) == Some("specs")
}

fn is_step(module: &str) -> bool {
    is_spec(module) && module.split('/').nth(2) == Some("steps")
}

#[test]
fn every_definition_stands_where_it_belongs() {
    let tree = Tree::read();
    // Each definition that is reached, with who named it first.
    let mut by: BTreeMap<Name, String> = BTreeMap::new();
    let mut waiting: VecDeque<Name> = VecDeque::new();
    let mut reach = |names: BTreeSet<Name>, who: &str, waiting: &mut VecDeque<Name>| {
        for name in names {
            if !by.contains_key(&name) {
                by.insert(name.clone(), who.to_string());
                waiting.push_back(name);
            }
        }
    };

    let mut calls = 0;
    for krate in CALLS {
        let contracts = tree.contracts(krate);
        assert!(!contracts.is_empty(), "{krate} has no public function");
        for (call, text, imports) in contracts {
            calls += 1;
            reach(tree.named(&text, &imports, None), &call, &mut waiting);
        }
    }
    let mut statements = Vec::new();
    for (krate, theorem) in THEOREMS {
        let found = tree.statements(krate, |_, name, _| name == theorem);
        assert!(!found.is_empty(), "{krate} has no theorem {theorem}");
        statements.extend(found);
    }
    for krate in ["outline", "keying", "stand"] {
        let found = tree.statements(krate, |file, _, public| file == THEOREM_FILE && public);
        statements.extend(found);
    }
    let theorems = statements.len();
    assert!(
        calls >= 10 && theorems >= 8,
        "{calls} calls, {theorems} theorems"
    );
    for (name, text) in statements {
        let imports = &tree.modules[&name.0].imports;
        let mut named = tree.named(&text, imports, Some(&name.0));
        named.remove(&name);
        reach(named, &name.1, &mut waiting);
    }
    while let Some(name) = waiting.pop_front() {
        let module = &tree.modules[&name.0];
        let named = tree.named(&module.texts[&name.1], &module.imports, Some(&name.0));
        reach(named, &name.1, &mut waiting);
    }

    // The list to read, file by file.
    let mut list: BTreeMap<&str, Vec<&str>> = BTreeMap::new();
    let mut lines = 0;
    for (module, name) in by.keys().filter(|(module, _)| is_spec(module)) {
        list.entry(module).or_default().push(name);
        lines += tree.modules[module].texts[name].trim_end().lines().count();
    }
    let mut text = String::new();
    for (module, names) in &list {
        writeln!(text, "crates/{module}.antt: {}", names.join(", ")).unwrap();
    }
    let file = Path::new(env!("CARGO_TARGET_TMPDIR")).join("to-believe.txt");
    fs::write(&file, &text).unwrap();
    let said = format!(
        "to believe, from {calls} calls and {theorems} theorems: {} definitions of {lines} lines in \
         {} files; they are named in {}\n",
        list.values().map(Vec::len).sum::<usize>(),
        list.len(),
        file.display()
    );
    std::io::stderr().write_all(said.as_bytes()).unwrap();

    let mut wrong = String::new();
    for (name, who) in by.iter().filter(|(name, _)| is_step(&name.0)) {
        writeln!(
            wrong,
            "crates/{}.antt: {} is reached, from {who}",
            name.0, name.1
        )
        .unwrap();
    }
    for (module, own) in &tree.modules {
        if is_spec(module) && !is_step(module) {
            for name in own.texts.keys() {
                if !by.contains_key(&(module.clone(), name.clone())) {
                    writeln!(wrong, "crates/{module}.antt: {name} is not reached").unwrap();
                }
            }
        }
    }
    assert!(wrong.is_empty(), "definitions in the wrong place:\n{wrong}");
}
