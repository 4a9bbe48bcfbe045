//! The C interface is written down three times: the exports in `crates/stand/src/lib.rt`, the header
//! `include/stand.h` and the declarations in `host/src/raw.rs`. Their functions have the same
//! parameters of the same types under the same names in the same order, and their records the same
//! fields; the longest side and the default settings are the same.

use std::collections::BTreeMap;
use std::fs;
use std::path::Path;

fn read(file: &str) -> String {
    let path = Path::new(env!("CARGO_MANIFEST_DIR")).join("..").join(file);
    fs::read_to_string(&path).unwrap_or_else(|e| panic!("{}: {e}", path.display()))
}

/// Without comments, in one line.
fn code(text: &str) -> String {
    let mut rest = text;
    let mut out = String::new();
    while let Some((before, after)) = rest.split_once("/*") {
        out += before;
        rest = after.split_once("*/").expect("the end of a comment").1;
    }
    out += rest;
    let bare = out.lines().map(|line| line.split("//").next().unwrap());
    bare.collect::<Vec<_>>().join(" ")
}

/// Names and types, in C's words, in order; of a function its answer last, under the name `return`.
type Shape = Vec<(String, String)>;

/// The words between a text and the next that closes it.
fn between<'a>(text: &'a str, open: &str, close: &str) -> &'a str {
    let start = text.find(open).unwrap_or_else(|| panic!("`{open}`")) + open.len();
    &text[start..start + text[start..].find(close).expect(close)]
}

/// A type of Rust in C's words.
fn in_c(rust: &str) -> String {
    let plain = |word: &str| {
        let known = [
            ("usize", "size_t"),
            ("f64", "double"),
            ("bool", "bool"),
            ("u8", "uint8_t"),
            ("u32", "uint32_t"),
            ("u64", "uint64_t"),
            ("i32", "int32_t"),
            ("i64", "int64_t"),
            ("Rgb", "StandRgb"),
            ("Settings", "StandSettings"),
        ];
        let found = known.iter().find(|(name, _)| *name == word);
        found.map_or(word, |(_, c)| c).to_string()
    };
    if let Some(word) = rust.strip_prefix("*const ") {
        return format!("const {} *", plain(word));
    }
    if let Some(word) = rust.strip_prefix("*mut ") {
        return format!("{} *", plain(word));
    }
    plain(rust)
}

/// `a: T, b: U` as names and types; a slice is a pointer and a length.
fn rust_shape(list: &str) -> Shape {
    let mut shape = Shape::new();
    for item in list.split(',').map(str::trim).filter(|i| !i.is_empty()) {
        let (name, kind) = item.split_once(':').expect("a name and a type");
        let name = name.trim().trim_start_matches("pub ").to_string();
        let kind = kind.trim();
        let slice = |before: &str| kind.strip_prefix(before)?.strip_suffix(']');
        let length = (format!("{name}_len"), "size_t".to_string());
        if let Some(of) = slice("&mut [") {
            shape.extend([(name, in_c(&format!("*mut {of}"))), length]);
        } else if let Some(of) = slice("&[") {
            shape.extend([(name, in_c(&format!("*const {of}"))), length]);
        } else {
            shape.push((name, in_c(kind)));
        }
    }
    shape
}

/// `T a, U *b` as names and types; `T a, b` in a record is two of one type.
fn c_shape(list: &str, by: char) -> Shape {
    let mut shape = Shape::new();
    for item in list.split(by).map(str::trim).filter(|i| !i.is_empty()) {
        let (first, more) = item.split_once(',').unwrap_or((item, ""));
        let at = first.rfind([' ', '*']).expect("a type and a name") + 1;
        let kind = first[..at].trim().to_string();
        shape.push((first[at..].to_string(), kind.clone()));
        let others = more.split(',').map(str::trim).filter(|m| !m.is_empty());
        shape.extend(others.map(|name| (name.to_string(), kind.clone())));
    }
    shape
}

/// The functions of a Rust or Rattle text that are declared by these words.
fn rust_functions(text: &str, words: &str) -> BTreeMap<String, Shape> {
    let text = code(text);
    let mut found = BTreeMap::new();
    for piece in text.split(words).skip(1) {
        let name = piece.split('(').next().unwrap().trim().to_string();
        let mut shape = rust_shape(between(piece, "(", ")"));
        let answer = between(
            piece,
            "->",
            if piece.contains("ensures") {
                "ensures"
            } else {
                ";"
            },
        );
        shape.push(("return".to_string(), in_c(answer.trim())));
        found.insert(name, shape);
    }
    found
}

fn header_functions(text: &str) -> BTreeMap<String, Shape> {
    let text = code(text);
    let mut found = BTreeMap::new();
    for piece in text.split(';').filter(|p| p.trim_end().ends_with(')')) {
        let Some((before, list)) = piece.rsplit_once('(') else {
            continue;
        };
        let words: Vec<&str> = before.split_whitespace().rev().take(2).collect();
        let [name, answer] = words[..] else { continue };
        if name.starts_with("stand_") && answer != "return" {
            let mut shape = c_shape(list.trim_end().trim_end_matches(')'), ',');
            shape.push(("return".to_string(), answer.to_string()));
            found.insert(name.to_string(), shape);
        }
    }
    found
}

#[test]
fn functions() {
    let exports = rust_functions(&read("crates/stand/src/lib.rt"), "pub extern \"C\" fn ");
    let declared = rust_functions(&read("host/src/raw.rs"), "pub fn stand_");
    let declared: BTreeMap<String, Shape> = declared
        .into_iter()
        .map(|(name, shape)| (format!("stand_{name}"), shape))
        .collect();
    let header = header_functions(&read("include/stand.h"));
    assert!(exports.len() >= 8, "{:?}", exports.keys());
    assert_eq!(
        header, exports,
        "include/stand.h and crates/stand/src/lib.rt"
    );
    assert_eq!(
        declared, exports,
        "host/src/raw.rs and crates/stand/src/lib.rt"
    );
}

#[test]
fn records() {
    let header = code(&read("include/stand.h"));
    let of_header = |name: &str| {
        let before = header.split(&format!("}} {name};")).next().unwrap();
        c_shape(before.rsplit_once("typedef struct {").expect(name).1, ';')
    };
    let of_rust = |file: &str, name: &str| {
        let text = code(&read(file));
        let open = format!("pub struct {name} {{");
        rust_shape(between(&text, &open, "}"))
    };
    let here = "host/src/raw.rs";
    for name in ["StandLabels", "StandGround", "StandCut"] {
        let exported = of_rust("crates/stand/src/lib.rt", name);
        assert_eq!(of_header(name), exported, "{name}, include/stand.h");
        assert_eq!(of_rust(here, name), exported, "{name}, {here}");
    }
    for name in ["Rgb", "Settings"] {
        let exported = of_rust("crates/colour/src/lib.rt", name);
        let in_header = of_header(&format!("Stand{name}"));
        assert_eq!(in_header, exported, "{name}, include/stand.h");
        let own = of_rust("host/src/lib.rs", name);
        assert_eq!(own, exported, "{name}, host/src/lib.rs");
    }
}

#[test]
fn constants() {
    let header = read("include/stand.h");
    let side = between(&header, "#define STAND_MOST_SIDE ", "\n");
    assert_eq!(side.parse(), Ok(stand::MOST_SIDE));
    let defined = read("crates/plane/specs/Plane.antt");
    assert_eq!(between(&defined, "\nmost_side = ", "\n"), side);
    let own = stand::Settings::default();
    let said = between(&header, "STAND_DEFAULT_SETTINGS = {", "}");
    let expected = format!(
        "{}, {}, {}, {}, {}",
        own.alpha_threshold, own.key_bg, own.key_bg_fringe, own.key_bg_tolerance, own.crop_to_alpha
    );
    assert_eq!(said, expected);
    let version = between(&header, "#define STAND_VERSION \"", "\"");
    assert_eq!(version, env!("CARGO_PKG_VERSION"));
}
