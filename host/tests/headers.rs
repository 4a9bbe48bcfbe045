//! The header that cutcard accepts (R38): its fields in any order, empty lines and comments between them,
//! 4,096 bytes at most. Some 18,000 files of fixed seeds, whose headers `support/headers.rs` makes, go through
//! the program, and what it writes is compared, byte by byte, with the rules as `support/cutcard.rs` reads
//! them. What it accepts is read with the same sides and pixels by `stand`, and with the same sides by
//! Netpbm's pamfile, where that is installed.
//!
//! The program is `target/bin/cutcard` of the repository, which `host/prove cutcard` proves and builds.
//! Where it is not there, the tests that run it say so and are left out.

include!(concat!(env!("OUT_DIR"), "/the_rust.rs"));

#[path = "../support/cutcard.rs"]
mod cutcard;
#[path = "../support/headers.rs"]
mod headers;
#[path = "../support/masks.rs"]
mod masks;
#[path = "../support/running.rs"]
mod running;

use cutcard::*;
use headers::*;
use masks::Random;
use stand::netpbm::Image;
use stand::{Settings, MOST_SIDE};
use std::fs;
use std::process::Command;
use std::time::Duration;

#[test]
fn every_kind_of_header() {
    let Some(program) = program() else { return };
    let mut sum = Counts::default();
    for (seed, (name, files, least)) in KINDS.into_iter().enumerate() {
        let counts = compared(&program, &files(&mut Random(seed as u64)), name);
        let [keyed, not, _, eight, nine, ten] = counts.0;
        let found = [keyed + not, eight, nine, ten];
        let enough = found.iter().zip(least).all(|(n, least)| *n >= least);
        assert!(enough, "{}", counts.line(name));
        sum.add(&counts);
    }
    say(sum.line("headers"));
    assert!(sum.reach([800, 3500, 100, 9000, 900, 500]));
}

/// The longest headers with the largest pictures, in 256 KiB of stack; and with a byte more.
#[test]
fn the_longest_in_little_stack() {
    let Some(program) = program() else { return };
    let mut random = Random(8);
    for filling in FILLINGS {
        for (h, w) in [(48, 48), (1, 2304), (2304, 1)] {
            for (length, accepted) in [(MOST_HEADER, true), (MOST_HEADER + 1, false)] {
                let lines = shuffled(&mut random, fields(h, w));
                let head = filled(&mut random, &lines, length, filling);
                let file = [head, seen(&mut random, h, w)].concat();
                assert_eq!(answer(&file).is_ok(), accepted);
                let what = format!("{filling:?}, {length}, {h} × {w}");
                run_in_little_stack(&program, &file, &what);
            }
        }
    }
}

/// The longest file, handed over in pieces that end anywhere in header and raster.
#[test]
fn the_longest_in_pieces() {
    let Some(program) = program() else { return };
    let mut random = Random(9);
    let lines = shuffled(&mut random, fields(36, 64));
    let head = filled(&mut random, &lines, MOST_HEADER, Filling::Mixed);
    let file = [head, seen(&mut random, 36, 64)].concat();
    assert_eq!(file.len(), MOST_READ - 1);
    let text = answer(&file).expect("an accepted file");
    let pieces: Vec<&[u8]> = file.chunks(997).collect();
    let pause = Duration::from_millis(2);
    let out = feed(&mut Command::new(program), &pieces, pause).expect("cutcard");
    assert_eq!(String::from_utf8(out.stdout).unwrap(), text);
}

// ---- other readers

/// Rows, columns and raster of a file whose header is R38's and whose raster is whole.
fn whole(file: &[u8]) -> Option<(usize, usize, &[u8])> {
    let (w, h, body) = header(file)?;
    let (w, h) = (w as usize, h as usize);
    (body.len() == 4 * h * w).then_some((h, w, body))
}

/// All such files of a kind.
fn whole_files((seed, kind): (usize, &Kind)) -> Vec<Bytes> {
    let mut files = kind.1(&mut Random(seed as u64));
    files.retain(|file| whole(file).is_some());
    files
}

fn image_of(file: &[u8]) -> Image {
    let (h, w, body) = whole(file).expect("a whole file");
    let pixels = body.chunks_exact(4);
    Image {
        h,
        w,
        rgb: pixels.clone().flat_map(|p| [p[0], p[1], p[2]]).collect(),
        alpha: pixels.map(|p| p[3]).collect(),
    }
}

/// Whatever has the header of R38 and a whole raster, `stand` reads with the same sides and pixels.
#[test]
fn read_by_stand() {
    let mut count = 0;
    for file in KINDS.iter().enumerate().flat_map(whole_files) {
        let image = image_of(&file);
        assert!(image.h <= MOST_SIDE && image.w <= MOST_SIDE);
        let shown = file[..file.len().min(150)].escape_ascii();
        match stand::netpbm::read(&file[..]) {
            Ok((read, _)) => assert!(read == image, "\"{shown}\""),
            Err(why) => panic!("{why}: \"{shown}\""),
        }
        count += 1;
    }
    say(format!("headers: `stand` reads {count} files alike\n"));
    assert!(count > 4000);
}

/// The program `stand` cuts some of each kind, by the pixels that they hold.
#[test]
fn cut_by_stand() {
    let folder = running::folder("headers");
    let settings = Settings::default();
    for files in KINDS.iter().enumerate().map(whole_files) {
        for file in files.iter().step_by(files.len().div_ceil(4)) {
            let image = image_of(file);
            let ran = running::run_on(&folder, &["--force", "--name=x", "-"], file);
            if image.cut(&settings).is_ok() {
                assert!(matches!(ran.status, 0 | 3), "{}", ran.said);
                running::filed(&folder, "x", &image, &settings, file);
            } else {
                ran.ended(1, "refused 6");
            }
        }
    }
}

/// What cutcard accepts, Netpbm's pamfile reads with the same sides; left out are headers with a line of
/// more than 255 bytes. Netpbm's library, as of version 11.1, reads a line into a buffer of 256 bytes and
/// takes the rest of a longer one for a line of its own: it declines `#` and 255 letters x for a header line
/// `x`, and where the 256th byte of a comment begins the word ENDHDR, it ends the header there. The page on
/// PAM sets no limit: a line ends with a newline, and a comment is a line that begins with `#`.
#[test]
fn read_by_pamfile() {
    let folder = running::folder("pamfile");
    let short = |file: &Bytes| {
        let (.., body) = whole(file).expect("a whole file");
        let mut lines = file[..file.len() - body.len()].split(|&b| b == b'\n');
        lines.all(|line| line.len() <= 255)
    };
    let mut files: Vec<Bytes> = KINDS.iter().enumerate().flat_map(whole_files).collect();
    files.retain(|file| answer(file).is_ok() && short(file));
    let files: Vec<&Bytes> = files.iter().step_by(6).collect();
    for files in files.chunks(100) {
        let paths: Vec<String> = (0..files.len())
            .map(|at| folder.join(format!("{at}.pam")).display().to_string())
            .collect();
        for (path, file) in paths.iter().zip(files) {
            fs::write(path, file).unwrap();
        }
        let words: Vec<&str> = ["pamfile"]
            .into_iter()
            .chain(paths.iter().map(|p| &p[..]))
            .collect();
        let Some(said) = netpbm(&words, b"") else {
            return;
        };
        let said = String::from_utf8(said).expect("text");
        for (path, file) in paths.iter().zip(files) {
            let (h, w, _) = whole(file).expect("a whole file");
            let line = format!("{path}:\tPAM, {w} by {h} by 4 maxval 255\n");
            assert!(said.contains(&line), "{line} is not in {said}");
        }
    }
    say(format!(
        "headers: pamfile reads {} files alike\n",
        files.len()
    ));
    assert!(files.len() > 300);
}
