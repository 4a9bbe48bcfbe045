//! The program `stand` as it is run in tests.
#![allow(dead_code)]

use stand::netpbm::{self, Image};
use stand::record::Record;
use stand::{sha256, Chosen, Settings};
use std::ffi::OsStr;
use std::fs;
use std::io::Write;
use std::path::{Path, PathBuf};
use std::process::{Command, Output, Stdio};

/// A new folder for a test.
pub fn folder(name: &str) -> PathBuf {
    let folder = Path::new(env!("CARGO_TARGET_TMPDIR"))
        .join("program")
        .join(env!("CARGO_CRATE_NAME"))
        .join(name);
    let _ = fs::remove_dir_all(&folder);
    fs::create_dir_all(&folder).expect("a folder for the test");
    folder
}

/// The names of a folder's files, in order.
pub fn names(folder: &Path) -> Vec<String> {
    let entries = fs::read_dir(folder).unwrap();
    let mut names: Vec<String> = entries
        .map(|e| e.unwrap().file_name().to_string_lossy().into_owned())
        .collect();
    names.sort();
    names
}

pub fn program(folder: &Path, words: &[impl AsRef<OsStr>]) -> Command {
    let mut command = Command::new(env!("CARGO_BIN_EXE_stand"));
    command.current_dir(folder).args(words);
    command.stdin(Stdio::null());
    command
}

/// How the program ended, what it wrote and what it said; never a panic.
pub struct Ran {
    pub status: i32,
    pub out: String,
    pub said: String,
}

impl Ran {
    pub fn new(output: Output) -> Ran {
        let text = |bytes| String::from_utf8_lossy(bytes).into_owned();
        let ran = Ran {
            status: output.status.code().expect("an exit status"),
            out: text(&output.stdout),
            said: text(&output.stderr),
        };
        assert!((0..=3).contains(&ran.status), "{}", ran.said);
        assert!(!ran.said.contains("panicked"), "{}", ran.said);
        ran
    }

    /// It ended with this status and said this.
    pub fn ended(&self, status: i32, said: &str) {
        assert_eq!(self.status, status, "{}", self.said);
        assert!(self.said.contains(said), "`{said}` is not in {}", self.said);
        assert_eq!(self.status == 0, !self.out.is_empty() && said.is_empty());
    }

    /// It cut a picture, and found card or not.
    pub fn cut(&self, keyed_or_not_sought: bool) {
        let status = if keyed_or_not_sought { 0 } else { 3 };
        assert_eq!(self.status, status, "{}", self.said);
        assert!(
            !self.out.is_empty() && self.said.is_empty(),
            "{}",
            self.said
        );
    }

    /// It ended well and said nothing.
    pub fn quiet(&self) {
        assert_eq!((self.status, &*self.out, &*self.said), (0, "", ""));
    }
}

pub fn run(folder: &Path, words: &[impl AsRef<OsStr>]) -> Ran {
    Ran::new(program(folder, words).output().expect("the program"))
}

/// Runs it with these bytes as standard input.
pub fn run_on(folder: &Path, words: &[impl AsRef<OsStr>], bytes: &[u8]) -> Ran {
    let mut command = program(folder, words);
    command.stdin(Stdio::piped());
    command.stdout(Stdio::piped()).stderr(Stdio::piped());
    let mut child = command.spawn().expect("the program");
    // It may end before it has read everything.
    let _ = child.stdin.take().unwrap().write_all(bytes);
    Ran::new(child.wait_with_output().unwrap())
}

/// What is chosen as words.
pub fn words(chosen: &Chosen) -> Vec<String> {
    let settings = &chosen.settings;
    let mut words = vec![
        format!("--alpha-threshold={}", settings.alpha_threshold),
        format!("--fringe={}", settings.key_bg_fringe),
        format!("--tolerance={}", settings.key_bg_tolerance),
    ];
    if !settings.key_bg {
        words.push("--no-key".into());
    }
    if !settings.crop_to_alpha {
        words.push("--no-crop".into());
    }
    if let Some(colour) = &chosen.card_colour {
        words.push(format!("--card-colour={colour}"));
    }
    words
}

/// The bytes of a mask's file hold this mask.
pub fn same_mask(file: &[u8], mask: &[u8], h: usize, w: usize) {
    let head = format!("P4\n{w} {h}\n");
    let packed = file.strip_prefix(head.as_bytes()).expect("the mask's head");
    let row = w.div_ceil(8);
    assert_eq!(packed.len(), row * h);
    for (i, &on) in mask.iter().enumerate() {
        let (y, x) = (i / w, i % w);
        assert_eq!(packed[y * row + x / 8] >> (7 - x % 8) & 1, on);
    }
}

/// The bytes of the weights' two files hold these weights.
pub fn same_weights(file: &[u8], seen: &[u8], weights: &[f64], h: usize, w: usize) {
    assert_eq!(file.len(), 8 * weights.len());
    let head = format!("P5\n{w} {h}\n255\n");
    let seen = seen
        .strip_prefix(head.as_bytes())
        .expect("the weights' head");
    assert_eq!(seen.len(), weights.len());
    for ((bytes, &byte), weight) in file.chunks(8).zip(seen).zip(weights) {
        assert_eq!(*bytes, weight.to_le_bytes());
        assert_eq!(f64::from(byte) / 255.0, *weight);
    }
}

/// The files of NAME hold what the library says of a picture that was given in these bytes, as a file
/// or, where a picture is kept beside them, from standard input.
pub fn filed(
    folder: &Path,
    name: &str,
    image: &Image,
    settings: &Settings,
    picture: &[u8],
) -> Record {
    filed_by(folder, name, image, &Chosen::from(*settings), picture)
}

/// The same of a cut for which the card's colour may be given.
pub fn filed_by(
    folder: &Path,
    name: &str,
    image: &Image,
    chosen: &Chosen,
    picture: &[u8],
) -> Record {
    let own = image.cut_by(chosen).expect("an accepted picture");
    let file = |end: &str| fs::read(folder.join(format!("{name}.{end}"))).expect(end);
    let (mask, weights) = (file("mask.pbm"), file("weights.f64"));
    same_mask(&mask, &own.mask, image.h, image.w);
    let weights_pgm = file("weights.pgm");
    same_weights(&weights, &weights_pgm, &own.weights, image.h, image.w);
    for end in ["preview.png", "cutout.png", "thumbnail.png"] {
        assert_eq!(file(end)[..8], *b"\x89PNG\r\n\x1a\n");
    }
    assert!(file("diagnosis.txt").starts_with(b"state: "));
    let text = String::from_utf8(file("record.txt")).expect("text");
    let record = Record::read(&text).expect("a record");
    let kept = match image.alpha.iter().all(|&alpha| alpha == 255) {
        true => ("picture.ppm", netpbm::ppm(image)),
        false => ("picture.pam", netpbm::pam(image)),
    };
    let is_kept = folder.join(format!("{name}.{}", kept.0)).exists();
    if is_kept {
        assert_eq!(file(kept.0), kept.1);
    }
    let want = Record {
        h: image.h,
        w: image.w,
        chosen: chosen.clone(),
        keyed: own.keyed,
        crop: own.crop,
        picture: sha256::of(if is_kept { &kept.1 } else { picture }),
        original: is_kept.then(|| sha256::of(picture)),
        mask: sha256::of(&mask),
        weights: sha256::of(&weights),
        weights_pgm: Some(sha256::of(&weights_pgm)),
    };
    assert_eq!(record, want);
    let bits = |record: &Record| record.chosen.settings.key_bg_tolerance.to_bits();
    assert_eq!(bits(&record), bits(&want));
    record
}

/// The ends of the files of a picture that was cut as it is.
pub const ENDS: [&str; 8] = [
    "cutout.png",
    "diagnosis.txt",
    "mask.pbm",
    "preview.png",
    "record.txt",
    "thumbnail.png",
    "weights.f64",
    "weights.pgm",
];

/// The names of the files of NAME and other names, in order.
pub fn results_of(name: &str, others: &[&str]) -> Vec<String> {
    let own = ENDS.iter().map(|end| format!("{name}.{end}"));
    let mut names: Vec<String> = own.chain(others.iter().map(|o| o.to_string())).collect();
    names.sort();
    names
}

/// A test that is left out says so.
pub fn skipped(why: impl std::fmt::Display) {
    let line = format!("skipped: {why}\n");
    std::io::stderr().write_all(line.as_bytes()).unwrap();
}
