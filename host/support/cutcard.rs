//! The program cutcard as it is run in tests, the rules on it read anew (R38 to R43), and inputs for it.
//! A test that includes this includes `the_rust.rs` and `masks.rs` at its root too.
#![allow(dead_code)]

use crate::masks::{self, Random};
use std::collections::BTreeMap;
use std::io::{ErrorKind, Write};
use std::path::{Path, PathBuf};
use std::process::{Command, Output, Stdio};
use std::thread;
use std::time::Duration;

pub fn say(line: String) {
    std::io::stderr().write_all(line.as_bytes()).unwrap();
}

/// The program, or `None` with a line that says so.
pub fn program() -> Option<PathBuf> {
    let path = Path::new(env!("CARGO_MANIFEST_DIR")).join("../target/bin/cutcard");
    if !path.is_file() {
        say(
            "skipped: there is no target/bin/cutcard; `host/prove cutcard` builds it\n".to_string(),
        );
        return None;
    }
    Some(path.canonicalize().expect("the program's path"))
}

/// Runs a command with this on its standard input, handed over in pieces. A command need not read all.
pub fn feed(command: &mut Command, pieces: &[&[u8]], pause: Duration) -> std::io::Result<Output> {
    let mut child = command
        .stdin(Stdio::piped())
        .stdout(Stdio::piped())
        .stderr(Stdio::piped())
        .spawn()?;
    let mut stdin = child.stdin.take().expect("its standard input");
    thread::scope(|scope| {
        scope.spawn(move || {
            for piece in pieces {
                match stdin.write_all(piece) {
                    Err(e) if e.kind() == ErrorKind::BrokenPipe => return,
                    other => other.expect("a write to the pipe"),
                }
                thread::sleep(pause);
            }
        });
        child.wait_with_output()
    })
}

pub fn run(program: &Path, input: &[u8]) -> Vec<u8> {
    let out = feed(&mut Command::new(program), &[input], Duration::ZERO).expect("cutcard");
    assert!(out.status.success(), "{:?}", out.status);
    assert!(out.stderr.is_empty());
    out.stdout
}

/// Runs it with 256 KiB of stack, and holds what it writes to the rules.
pub fn run_in_little_stack(program: &Path, file: &[u8], what: &str) {
    let mut command = Command::new("sh");
    command.args(["-c", "ulimit -s 256 && exec \"$0\""]);
    let out = feed(command.arg(program), &[file], Duration::ZERO).expect("sh");
    assert!(out.status.success(), "{what}: {:?}", out.status);
    let written = String::from_utf8_lossy(&out.stdout);
    assert_eq!(written, text_of(answer(file)), "{what}");
}

/// Runs one of Netpbm's programs; `None`, with a line that says so, where it is not installed.
pub fn netpbm(words: &[&str], input: &[u8]) -> Option<Vec<u8>> {
    match feed(
        Command::new(words[0]).args(&words[1..]),
        &[input],
        Duration::ZERO,
    ) {
        Err(e) if e.kind() == ErrorKind::NotFound => {
            say(format!(
                "skipped: `{}` of Netpbm is not installed\n",
                words[0]
            ));
            None
        }
        other => {
            let out = other.expect(words[0]);
            let said = String::from_utf8_lossy(&out.stderr);
            assert!(out.status.success(), "{words:?}: {said}");
            Some(out.stdout)
        }
    }
}

// ---- the rules, read anew

/// The most bytes of a header, ENDHDR's newline included.
pub const MOST_HEADER: usize = 4096;

/// The most bytes that the program reads: a header, 2304 pixels and one byte left over.
pub const MOST_READ: usize = MOST_HEADER + 4 * 2304 + 1;

/// A number of 1 to 5 digits, the first digit not 0.
fn number(digits: &[u8]) -> Option<u64> {
    let fine = (1..=5).contains(&digits.len()) && digits.iter().all(u8::is_ascii_digit);
    if !fine || digits[0] == b'0' {
        return None;
    }
    std::str::from_utf8(digits).ok()?.parse().ok()
}

/// Width, height and the bytes after the header; `None` where the header is not R38's. The lines are
/// those whose newline is among the first 4,096 bytes.
pub fn header(input: &[u8]) -> Option<(u64, u64, &[u8])> {
    let first = &input[..input.len().min(MOST_HEADER)];
    let mut lines: Vec<&[u8]> = first.split(|&b| b == b'\n').collect();
    lines.pop(); // what stands after the last newline
    let end = lines.iter().position(|line| line == b"ENDHDR")?;
    if lines[0] != b"P7" {
        return None;
    }
    let mut fields: BTreeMap<&[u8], &[u8]> = BTreeMap::new();
    for line in &lines[1..end] {
        if line.is_empty() || line[0] == b'#' {
            continue;
        }
        let space = line.iter().position(|&b| b == b' ')?;
        if fields.insert(&line[..space], &line[space + 1..]).is_some() {
            return None;
        }
    }
    let field = |word: &str| fields.get(word.as_bytes()).copied();
    let fixed =
        field("DEPTH")? == b"4" && field("MAXVAL")? == b"255" && field("TUPLTYPE")? == b"RGB_ALPHA";
    if !fixed || fields.len() != 5 {
        return None;
    }
    let length: usize = lines[..=end].iter().map(|line| line.len() + 1).sum();
    let (w, h) = (number(field("WIDTH")?)?, number(field("HEIGHT")?)?);
    Some((w, h, &input[length..]))
}

/// Mask, keyed flag and crop box with the settings 128, yes, 1, 0.03125, yes; `None` where no alpha
/// reaches the threshold.
type Cut = Option<(Vec<bool>, bool, [usize; 4])>;

#[cfg(mask_rs)]
fn cut(colours: &[f64], alpha: &[u8], h: usize, w: usize) -> Cut {
    let config = crate::config::Config {
        alpha_threshold: 128,
        key_bg: true,
        key_bg_fringe: 1,
        key_bg_tolerance: 0.03125,
        crop_to_alpha: true,
    };
    let cut = crate::mask::subject(colours, alpha, h, w, &config).ok()?;
    let (y0, y1, x0, x1) = cut.crop;
    Some((cut.mask, cut.background_keyed, [y0, y1, x0, x1]))
}

#[cfg(not(mask_rs))]
fn cut(colours: &[f64], alpha: &[u8], h: usize, w: usize) -> Cut {
    let picture = stand::Picture {
        colours,
        alpha,
        h,
        w,
    };
    let settings = stand::Settings {
        alpha_threshold: 128,
        key_bg: true,
        key_bg_fringe: 1,
        key_bg_tolerance: 0.03125,
        crop_to_alpha: true,
    };
    let cut = stand::cut(&picture, &settings).ok()?;
    let (rows, cols) = (cut.crop.rows, cut.crop.cols);
    let mask = cut.mask.iter().map(|&m| m != 0).collect();
    Some((
        mask,
        cut.keyed,
        [rows.start, rows.end, cols.start, cols.end],
    ))
}

/// The text, or the number of the refusal.
pub fn answer(input: &[u8]) -> Result<String, u32> {
    let (w, h, body) = header(input).ok_or(8u32)?;
    if h * w > 2304 {
        return Err(10);
    }
    if body.len() as u64 != 4 * h * w {
        return Err(9);
    }
    let (h, w) = (h as usize, w as usize);
    let pixels = body.chunks_exact(4);
    let colours: Vec<f64> = pixels
        .clone()
        .flat_map(|p| [p[0], p[1], p[2]])
        .map(|v| f64::from(v) / 255.0)
        .collect();
    let alpha: Vec<u8> = pixels.map(|p| p[3]).collect();
    let (mask, keyed, [y0, y1, x0, x1]) = cut(&colours, &alpha, h, w).ok_or(6u32)?;
    let keyed = u8::from(keyed);
    let mut text = format!("P1\n# crop {y0} {y1} {x0} {x1} keyed {keyed}\n{w} {h}\n");
    for row in mask.chunks(w) {
        for line in row.chunks(70) {
            text.extend(line.iter().map(|&m| if m { '1' } else { '0' }));
            text.push('\n');
        }
    }
    Ok(text)
}

/// What the program writes.
pub fn text_of(answer: Result<String, u32>) -> String {
    answer.unwrap_or_else(|number| format!("refused {number}\n"))
}

// ---- inputs compared

/// How many were accepted and keyed, accepted and not, refused with 6, 8, 9, 10.
#[derive(Default)]
pub struct Counts(pub [usize; 6]);

impl Counts {
    pub fn add(&mut self, others: &Counts) {
        for (all, own) in self.0.iter_mut().zip(others.0) {
            *all += own;
        }
    }

    /// There are at least so many of each.
    pub fn reach(&self, least: [usize; 6]) -> bool {
        self.0.iter().zip(least).all(|(n, least)| *n >= least)
    }

    pub fn line(&self, what: &str) -> String {
        let [keyed, not, six, eight, nine, ten] = self.0;
        let sum: usize = self.0.iter().sum();
        format!(
            "{what}: {sum} inputs; keyed {keyed}, not keyed {not}, refused 6: {six}, 8: {eight}, 9: {nine}, \
             10: {ten}\n"
        )
    }
}

/// Runs the program on a file, holds what it writes to the rules, and tells the place of its answer
/// in `Counts`.
fn compared_one(program: &Path, file: &[u8], what: &str) -> usize {
    let answer = answer(file);
    let kind = match &answer {
        Ok(text) if text.contains("keyed 1") => 0,
        Ok(_) => 1,
        Err(number) => [6, 8, 9, 10].iter().position(|n| n == number).unwrap() + 2,
    };
    let written = run(program, file);
    assert_eq!(
        String::from_utf8_lossy(&written),
        text_of(answer),
        "{what}, of {} bytes: \"{}\"",
        file.len(),
        file[..file.len().min(150)].escape_ascii()
    );
    kind
}

/// Runs the program on each file, and holds what it writes to the rules, byte by byte.
pub fn compared(program: &Path, files: &[Vec<u8>], what: &str) -> Counts {
    let workers = 2;
    let work = |worker: usize| {
        let mut counts = Counts::default();
        for (index, file) in files.iter().enumerate().skip(worker).step_by(workers) {
            counts.0[compared_one(program, file, &format!("{what} {index}"))] += 1;
        }
        counts
    };
    let mut sum = Counts::default();
    thread::scope(|scope| {
        let handles: Vec<_> = (0..workers)
            .map(|worker| scope.spawn(move || work(worker)))
            .collect();
        for handle in handles {
            sum.add(&handle.join().expect("a worker"));
        }
    });
    sum
}

// ---- inputs

pub fn header_of(w: &str, h: &str) -> Vec<u8> {
    format!("P7\nWIDTH {w}\nHEIGHT {h}\nDEPTH 4\nMAXVAL 255\nTUPLTYPE RGB_ALPHA\nENDHDR\n")
        .into_bytes()
}

/// The bytes of a picture: an object on card whose colour varies a little, noise, or any bytes; opaque,
/// with holes at the threshold, or transparent.
pub fn pixels(random: &mut Random, h: usize, w: usize) -> Vec<u8> {
    let kind = random.below(6);
    let clear = random.below(12);
    let object = masks::object(h, w);
    let (card, ink) = (random.next().to_le_bytes(), random.next().to_le_bytes());
    let mut body = Vec::with_capacity(4 * h * w);
    for (i, &on) in object.iter().enumerate() {
        for c in 0..3 {
            let plain = if on == 0 { card[c] } else { ink[c] };
            body.push(match kind {
                0 => random.below(256) as u8,
                1 => plain.saturating_add(random.below(9) as u8),
                2 if i % 5 == 0 => card[c] / 2 + ink[c] / 2,
                _ => plain,
            });
        }
        body.push(match clear {
            0 => random.below(256) as u8,
            1 => 127 + random.below(2) as u8,
            2 => 128,
            3 => random.below(128) as u8,
            _ => 255,
        });
    }
    body
}

pub fn good(random: &mut Random, h: usize, w: usize) -> Vec<u8> {
    let mut file = header_of(&w.to_string(), &h.to_string());
    file.extend(pixels(random, h, w));
    file
}

/// The example of R43: 5 by 5 white with (2, 2) black.
pub fn badge() -> Vec<u8> {
    let mut file = header_of("5", "5");
    let mut body = vec![255; 100];
    body[48..51].fill(0);
    file.extend(body);
    file
}

/// Sides as they may stand in a header: good ones, too large ones, and what is no number.
pub const SIDES: [&str; 24] = [
    "",
    "0",
    "1",
    "5",
    "05",
    "00005",
    "5 ",
    " 5",
    "+5",
    "-5",
    "5.0",
    "0x5",
    "2304",
    "2305",
    "9999",
    "10000",
    "65536",
    "65537",
    "99999",
    "100000",
    "000001",
    "123456",
    "4294967296",
    "５",
];

/// A file with its header damaged at every place: a byte changed, left out, put in.
pub fn damaged(random: &mut Random, file: &[u8], head: usize) -> Vec<Vec<u8>> {
    let mut files = Vec::new();
    for at in 0..head {
        let any = random.below(256) as u8;
        for b in [
            0,
            b' ',
            b'\t',
            b'\n',
            b'\r',
            b'#',
            b'0',
            b'9',
            file[at] ^ 32,
            any,
        ] {
            let mut changed = file.to_vec();
            changed[at] = b;
            files.push(changed);
        }
        let mut without = file.to_vec();
        without.remove(at);
        files.push(without);
        for b in [b' ', b'\n', b'#', b'0', file[at]] {
            let mut with = file.to_vec();
            with.insert(at, b);
            files.push(with);
        }
    }
    files
}
