//! Links the proved archive, which host/prove makes where it is missing, and hands its version on
//! to the program, and mask.rs and what reads a colour in editor/log.rs on to the comparisons.

#[allow(dead_code)]
#[path = "src/sha256.rs"]
mod sha256;

use std::env;
use std::fs::{self, File};
use std::io::{BufRead, BufReader, IsTerminal, Write};
use std::os::unix::fs::FileTypeExt;
use std::os::unix::process::parent_id;
use std::path::{Path, PathBuf};
use std::process::{Command, Stdio};
use std::time::SystemTime;

/// Ends the build with a sentence and no backtrace.
fn fail(sentence: String) -> ! {
    eprintln!("{sentence}");
    std::process::exit(1)
}

/// When the newest file of a folder and its subfolders was changed.
fn newest(folder: &Path) -> Option<SystemTime> {
    let entries = fs::read_dir(folder).ok()?.flatten();
    entries
        .filter_map(|entry| match entry.file_type() {
            Ok(kind) if kind.is_dir() => newest(&entry.path()),
            _ => entry.metadata().ok()?.modified().ok(),
        })
        .max()
}

/// The folders that the crates are proved from; what rt makes of them lies beside these.
fn sources(crates: &Path) -> Vec<PathBuf> {
    let entries = fs::read_dir(crates).into_iter().flatten().flatten();
    let each =
        entries.flat_map(|entry| ["src", "specs", "proofs"].map(|part| entry.path().join(part)));
    each.filter(|folder| folder.is_dir()).collect()
}

/// The terminal that cargo writes to, where it writes to one.
fn terminal() -> Option<File> {
    let path = format!("/proc/{}/fd/2", parent_id());
    if !fs::metadata(&path).ok()?.file_type().is_char_device() {
        return None;
    }
    let file = File::options().write(true).open(path).ok()?;
    file.is_terminal().then_some(file)
}

/// Proves and builds the archive. Cargo keeps to itself what a build script writes, and this takes
/// minutes: so each line also goes to the terminal, over cargo's own line of progress.
fn prove(host: &Path) {
    let run = Command::new(host.join("prove"))
        .stdout(Stdio::piped())
        .spawn();
    let mut child = run.unwrap_or_else(|why| fail(format!("host/prove could not be run: {why}")));
    let mut terminal = terminal();
    let said = BufReader::new(child.stdout.take().expect("its standard output"));
    for line in said.lines().map_while(Result::ok) {
        println!("{line}");
        if let Some(terminal) = &mut terminal {
            let _ = writeln!(terminal, "\r\x1b[K{line}");
        }
    }
    if !child.wait().is_ok_and(|status| status.success()) {
        fail(
            "there is no libstand.a, and host/prove did not make it; what it says is above. One that \
             was made elsewhere is taken where STAND_LIB_DIR names its folder."
                .into(),
        );
    }
}

/// The folder of the archive: `STAND_LIB_DIR`, or the repository's own after host/prove.
fn archive_folder(root: &Path, host: &Path) -> PathBuf {
    println!("cargo:rerun-if-env-changed=STAND_LIB_DIR");
    let (folder, own) = match env::var_os("STAND_LIB_DIR") {
        Some(folder) => (PathBuf::from(folder), false),
        None => (root.join("target").join("staticlib"), true),
    };
    let archive = folder.join("libstand.a");
    println!("cargo:rerun-if-changed={}", archive.display());
    if own && !archive.is_file() {
        prove(host);
    }
    if !archive.is_file() {
        fail(format!("there is no {}", archive.display()));
    }
    if own {
        let sources = sources(&root.join("crates"));
        for folder in &sources {
            println!("cargo:rerun-if-changed={}", folder.display());
        }
        let made = archive.metadata().and_then(|m| m.modified()).ok();
        if sources.iter().filter_map(|folder| newest(folder)).max() > made {
            println!(
                "cargo:warning={} is older than a file under crates/: run host/prove",
                archive.display()
            );
        }
    }
    folder.canonicalize().expect("the archive's folder")
}

/// What the program says of the archive: the version of its header, and its sum, since the archive
/// itself has no version.
fn version(root: &Path, archive: &Path) -> String {
    let header = root.join("include").join("stand.h");
    println!("cargo:rerun-if-changed={}", header.display());
    let text = fs::read_to_string(&header).expect("include/stand.h");
    let number = text.split("#define STAND_VERSION \"").nth(1);
    let number = number.and_then(|rest| rest.split('"').next());
    let sum = sha256::of(&fs::read(archive).expect("the archive"));
    let number = number.expect("STAND_VERSION in include/stand.h");
    format!("proved library {number}, libstand.a with the SHA-256 {sum}")
}

/// The place of mask.rs, whether it is there or not.
fn mask_rs(root: &Path) -> PathBuf {
    println!("cargo:rerun-if-env-changed=PIXELFORGE_MASK_RS");
    match env::var_os("PIXELFORGE_MASK_RS") {
        Some(path) => PathBuf::from(path),
        None => root.join("../shared/docs/src/crates/pixelforge/src/mask.rs"),
    }
}

/// Writes the file that a test or a program includes at its root: mask.rs, unchanged, as the
/// module `mask`, with the record of settings that it asks for; nothing where mask.rs is not there.
fn the_rust(path: &Path, host: &Path, out: &Path) {
    println!("cargo:rustc-check-cfg=cfg(mask_rs)");
    println!("cargo:rerun-if-changed={}", path.display());
    let mut text = String::new();
    match path.canonicalize() {
        Ok(path) if path.is_file() => {
            println!("cargo:rustc-cfg=mask_rs");
            for (name, file) in [("config", host.join("support/config.rs")), ("mask", path)] {
                text += &format!("#[path = {file:?}]\n#[allow(dead_code)]\npub mod {name};\n");
            }
        }
        _ => println!(
            "cargo:warning=mask.rs is not at {}: the comparison with the Rust is left out \
             (PIXELFORGE_MASK_RS names another place)",
            path.display()
        ),
    }
    fs::write(out.join("the_rust.rs"), text).expect("the_rust.rs");
}

/// A function of a Rust file as it stands there, from its first line to its closing brace.
fn function(text: &str, head: &str) -> Option<String> {
    let from = text.find(&format!("\n{head}("))? + 1;
    let end = text[from..].find("\n}\n")?;
    Some(text[from..from + end + 3].into())
}

/// Writes what support/log.rs includes: `rgb` of editor/log.rs beside mask.rs, which is private there
/// and reads the card's colour, and the functions that it calls. The rest of these two files asks for
/// crates that are not here.
fn the_digits(mask_rs: &Path, out: &Path) {
    println!("cargo:rustc-check-cfg=cfg(log_rs)");
    let beside = |name: &str| mask_rs.with_file_name(name);
    let (log, color) = (beside("editor/log.rs"), beside("color.rs"));
    let read = |path: &Path, heads: &[&str]| -> Option<String> {
        println!("cargo:rerun-if-changed={}", path.display());
        let text = fs::read_to_string(path).ok()?;
        heads.iter().map(|head| function(&text, head)).collect()
    };
    let cut = (
        read(&log, &["fn text<'a>", "fn rgb"]),
        read(&color, &["pub fn hex_to_rgb8"]),
    );
    let (Some(rgb), Some(hex)) = cut else {
        println!(
            "cargo:warning=the functions that read a colour are not in {} and {}: the comparison of \
             its text with them is left out",
            log.display(),
            color.display()
        );
        return;
    };
    println!("cargo:rustc-cfg=log_rs");
    fs::write(out.join("log_rgb.rs"), rgb).expect("log_rgb.rs");
    fs::write(out.join("color_hex.rs"), hex).expect("color_hex.rs");
}

fn main() {
    let host = PathBuf::from(env::var_os("CARGO_MANIFEST_DIR").expect("CARGO_MANIFEST_DIR"));
    let root = host
        .parent()
        .expect("host/ lies in the repository")
        .to_path_buf();
    println!("cargo:rerun-if-changed=build.rs");
    let folder = archive_folder(&root, &host);
    let archive = folder.join("libstand.a");
    println!("cargo:rustc-link-search=native={}", folder.display());
    println!("cargo:rustc-link-lib=static=stand");
    println!("cargo:rustc-env=STAND_ARCHIVE={}", archive.display());
    println!("cargo:rustc-env=STAND_PROVED={}", version(&root, &archive));
    let out = PathBuf::from(env::var_os("OUT_DIR").expect("OUT_DIR"));
    let mask_rs = mask_rs(&root);
    the_rust(&mask_rs, &host, &out);
    the_digits(&mask_rs, &out);
}
