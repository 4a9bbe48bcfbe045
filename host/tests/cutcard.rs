//! The program cutcard as a process, on some thousand good, damaged and random inputs of fixed seeds.
//! What it writes is compared, byte by byte, with the rules as `support/cutcard.rs` reads them (R38 to R43): the
//! header by its lines, the cut by mask.rs where that is at hand and else by `stand::cut`, the text by `format!`.
//! And the pipe with Netpbm, where that is installed. The headers have a test of their own, `headers.rs`.
//!
//! The program is `target/bin/cutcard` of the repository, which `host/prove cutcard` proves and builds.
//! Where it is not there, the tests say so and are left out.

include!(concat!(env!("OUT_DIR"), "/the_rust.rs"));

#[path = "../support/cutcard.rs"]
mod cutcard;
#[path = "../support/masks.rs"]
mod masks;

use cutcard::*;
use masks::Random;
use std::io::{ErrorKind, Read, Write};
use std::path::Path;
use std::process::{Child, Command, Output, Stdio};
use std::thread;
use std::time::Duration;

// ---- inputs

fn sizes(random: &mut Random) -> Vec<(usize, usize)> {
    let mut sizes = vec![(48, 48), (1, 1), (2304, 1), (1, 2304), (2, 1152), (36, 64)];
    for w in [69, 70, 71, 139, 140, 141, 209, 210, 211, 768] {
        sizes.extend([(1, w), (3, w)]);
    }
    for n in (1..2304).step_by(9) {
        sizes.extend([(1, n), (n, 1)]);
    }
    for _ in 0..600 {
        let h = 1 + random.below(96);
        sizes.push((h, 1 + random.below(2304 / h)));
    }
    sizes
}

fn inputs(random: &mut Random) -> Vec<Vec<u8>> {
    let mut files = vec![Vec::new(), badge()];
    for (h, w) in sizes(random) {
        files.push(good(random, h, w));
    }
    // The header, byte by byte.
    for (h, w) in [(5, 5), (11, 12)] {
        let file = good(random, h, w);
        files.extend(damaged(random, &file, file.len() - 4 * h * w));
    }
    // Numbers that are none, or too large.
    for w in SIDES {
        for h in SIDES {
            let mut file = header_of(w, h);
            file.extend([255; 100]);
            files.push(file);
        }
    }
    // Too few bytes or too many, also more than the program reads.
    let (small, large) = (badge(), good(random, 48, 48));
    files.extend((0..small.len()).map(|n| small[..n].to_vec()));
    for file in [small, large] {
        for more in [1, 2, 3, 4, 100, 9290, MOST_READ, 70000, 300000] {
            let mut long = file.clone();
            long.resize(file.len() + more, random.below(256) as u8);
            files.push(long);
        }
        files.push(file[..file.len() - 1].to_vec());
    }
    for total in (9285..9295).chain(MOST_READ - 5..MOST_READ + 5) {
        let mut file = header_of("00048", "48");
        file.resize(total, 255);
        files.push(file);
        let mut file = header_of("48", "48");
        file.resize(total, 255);
        files.push(file);
    }
    // Any bytes, alone and after a header.
    for _ in 0..300 {
        let n = random.below(200);
        let noise: Vec<u8> = (0..n).map(|_| random.below(256) as u8).collect();
        files.push([header_of("7", "3"), noise.clone()].concat());
        files.push(noise);
    }
    // No alpha that reaches the threshold; one that does.
    for alpha in [0, 1, 126, 127, 128, 129] {
        for (h, w) in [(1, 1), (3, 4), (48, 48)] {
            let mut file = header_of(&w.to_string(), &h.to_string());
            file.extend([9, 90, 200, alpha.min(127)].repeat(h * w));
            let last = file.len() - 1;
            file[last] = alpha;
            files.push(file);
        }
    }
    files
}

// ---- tests

#[test]
fn the_example() {
    let Some(program) = program() else { return };
    let text = "P1\n# crop 1 4 1 4 keyed 1\n5 5\n00000\n00000\n00100\n00000\n00000\n";
    assert_eq!(String::from_utf8(run(&program, &badge())).unwrap(), text);
}

#[test]
fn every_kind_of_input() {
    let Some(program) = program() else { return };
    let files = inputs(&mut Random(20261116));
    let counts = compared(&program, &files, "input");
    say(counts.line("cutcard"));
    assert!(counts.reach([100, 100, 30, 500, 100, 30]));
}

#[test]
fn in_pieces() {
    let Some(program) = program() else { return };
    let file = good(&mut Random(7), 11, 13);
    let text = answer(&file).expect("an accepted file");
    let pieces: Vec<&[u8]> = file.chunks(61).collect();
    let out = feed(
        &mut Command::new(program),
        &pieces,
        Duration::from_millis(2),
    )
    .expect("cutcard");
    assert_eq!(String::from_utf8(out.stdout).unwrap(), text);
}

/// With 256 KiB of stack, on the largest pictures.
#[test]
fn in_little_stack() {
    let Some(program) = program() else { return };
    let mut random = Random(8);
    for (h, w) in [(48, 48), (1, 2304), (2304, 1), (24, 96), (5, 5)] {
        for _ in 0..4 {
            let file = good(&mut random, h, w);
            run_in_little_stack(&program, &file, &format!("{h} × {w}"));
        }
    }
}

// ---- an answer that is not taken

/// What is said on standard error where standard output does not take the whole answer.
const UNWRITTEN: &str =
    "cutcard: the answer could not be written in full; remove what was written, \
                         see to the disk or the pipe, and run it again\n";

/// Starts a line of the shell, in which `$0` is the program.
fn start(program: &Path, line: &str) -> Child {
    let mut command = Command::new("sh");
    command.args(["-c", line]).arg(program);
    command.stdin(Stdio::piped()).stdout(Stdio::piped());
    command.stderr(Stdio::piped()).spawn().expect("sh")
}

/// Hands over the input, which is no more than a pipe holds, and waits for the end.
fn end(mut child: Child, input: &[u8]) -> Output {
    hand_over(&mut child, input);
    child.wait_with_output().expect("its end")
}

fn hand_over(child: &mut Child, input: &[u8]) {
    let mut stdin = child.stdin.take().expect("its standard input");
    match stdin.write_all(input) {
        Err(e) if e.kind() == ErrorKind::BrokenPipe => {}
        other => other.expect("a write to the pipe"),
    }
}

/// A picture whose answer is as long as any.
fn longest() -> (Vec<u8>, String) {
    let mut file = header_of("1", "2304");
    file.extend([255; 4 * 2304]);
    let text = answer(&file).expect("an accepted file");
    assert!(text.len() > 4600);
    (file, text)
}

#[test]
fn closed_input_and_output() {
    let Some(program) = program() else { return };
    let ended = |line: &str, wrote: &str, said: &str| {
        let out = end(start(&program, line), &badge());
        assert!(out.status.success(), "{line}: {:?}", out.status);
        assert_eq!(String::from_utf8_lossy(&out.stdout), wrote, "{line}");
        assert_eq!(String::from_utf8_lossy(&out.stderr), said, "{line}");
    };
    ended("exec \"$0\" <&-", "refused 8\n", "");
    for redirection in [">&-", "<&- >&-", ">/dev/full", "<&- >/dev/full"] {
        ended(&format!("exec \"$0\" {redirection}"), "", UNWRITTEN);
    }
    ended("exec \"$0\" >&- 2>&-", "", "");
}

/// A disk that has room for the answer's beginning alone: the shell limits what a file may hold.
#[test]
fn a_disk_that_fills_up() {
    let Some(program) = program() else { return };
    let (file, text) = longest();
    let folder = Path::new(env!("CARGO_TARGET_TMPDIR")).join("cutcard");
    std::fs::create_dir_all(&folder).unwrap();
    let mask = folder.join("begun.pbm");
    let line = format!(
        "trap '' XFSZ; ulimit -f 1; exec \"$0\" > '{}'",
        mask.display()
    );
    let out = end(start(&program, &line), &file);
    assert_eq!(String::from_utf8_lossy(&out.stderr), UNWRITTEN);
    let begun = std::fs::read_to_string(&mask).unwrap();
    assert!(!begun.is_empty() && begun.len() < text.len());
    assert!(text.starts_with(&begun));
}

/// A pipe that nobody reads any more: the program says so, and is not ended by the system, whether or
/// not it is started with the signal of a broken pipe ignored.
#[test]
fn a_broken_pipe() {
    let Some(program) = program() else { return };
    let ended = |line: &str| {
        let mut child = start(&program, line);
        drop(child.stdout.take());
        let out = end(child, &badge());
        (out.status, String::from_utf8(out.stderr).unwrap())
    };
    for line in ["exec \"$0\"", "trap '' PIPE; exec \"$0\""] {
        let (status, said) = ended(line);
        assert_eq!(
            (status.code(), said.as_str()),
            (Some(0), UNWRITTEN),
            "{line}"
        );
    }
}

/// A pipe that is nearly full when the program writes, and is read slowly: the answer waits, and
/// comes whole.
#[test]
fn a_slow_pipe() {
    let Some(program) = program() else { return };
    let (file, text) = longest();
    let line = "head -c 65000 /dev/zero && exec \"$0\"";
    let mut child = start(&program, line);
    hand_over(&mut child, &file);
    let mut stdout = child.stdout.take().expect("its standard output");
    let (mut wrote, mut piece) = (Vec::new(), [0; 1000]);
    thread::sleep(Duration::from_millis(100));
    loop {
        let count = stdout.read(&mut piece).expect("a read from the pipe");
        if count == 0 {
            break;
        }
        wrote.extend_from_slice(&piece[..count]);
        thread::sleep(Duration::from_millis(1));
    }
    let out = child.wait_with_output().unwrap();
    assert!(out.status.success() && out.stderr.is_empty());
    assert_eq!(String::from_utf8_lossy(&wrote[65000..]), text);
}

/// `pngtopam -alphapam picture.png | cutcard | pnmtopng > mask.png`, on PNGs that Netpbm makes.
#[test]
fn a_pipe_with_netpbm() {
    let Some(program) = program() else { return };
    let mut random = Random(3);
    let mut accepted = |h, w| loop {
        let file = good(&mut random, h, w);
        if answer(&file).is_ok() {
            break file;
        }
    };
    let files = [badge(), accepted(48, 48), accepted(1, 90), accepted(20, 71)];
    for (index, file) in files.iter().enumerate() {
        let Some(png) = netpbm(&["pamtopng"], file) else {
            return;
        };
        let folder = Path::new(env!("CARGO_TARGET_TMPDIR"));
        let (picture, mask) = (
            folder.join(format!("picture{index}.png")),
            folder.join(format!("mask{index}.png")),
        );
        std::fs::write(&picture, png).unwrap();
        let Some(pam) = netpbm(&["pngtopam", "-alphapam", picture.to_str().unwrap()], b"") else {
            return;
        };
        let Ok(text) = answer(&pam) else {
            panic!("pngtopam's file is not accepted: {:?}", answer(&pam));
        };
        let Some(_) = netpbm(&["pnmtopng"], text.as_bytes()) else {
            return;
        };
        let ran = Command::new("sh")
            .args([
                "-c",
                "pngtopam -alphapam \"$1\" | \"$0\" | pnmtopng > \"$2\"",
            ])
            .args([&program, &picture, &mask])
            .output()
            .expect("sh");
        assert!(
            ran.status.success(),
            "{}",
            String::from_utf8_lossy(&ran.stderr)
        );
        // The mask, read back as digits.
        let Some(pam) = netpbm(&["pngtopam", mask.to_str().unwrap()], b"") else {
            return;
        };
        let Some(plain) = netpbm(&["pnmtoplainpnm"], &pam) else {
            return;
        };
        let digits = |text: &str, lines: usize| -> String {
            text.lines()
                .skip(lines)
                .flat_map(str::chars)
                .filter(|c| !c.is_whitespace())
                .collect()
        };
        let read = String::from_utf8(plain).unwrap();
        assert_eq!(read.lines().next(), Some("P1"));
        assert_eq!(read.lines().nth(1), text.lines().nth(2));
        assert_eq!(digits(&read, 2), digits(&text, 3), "picture {index}");
    }
}
