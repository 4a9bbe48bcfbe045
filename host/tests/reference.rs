//! The reference colour that ground answers, which mask.rs does not hand out: compared with a sort,
//! and with numpy's median where a python3 with numpy is at hand (Debian: python3-numpy).

#[path = "../support/masks.rs"]
mod masks;
#[path = "../support/pictures.rs"]
mod pictures;

use masks::Random;
use stand::Rgb;
use std::fmt::Write as _;
use std::io::Write as _;
use std::path::Path;
use std::process::{Command, Stdio};

/// A picture whose ground is found at tolerance 0.5: numbers to 0.4 on the border, in many orders,
/// with something of 1 that is not ground.
fn picture(random: &mut Random) -> (Vec<f64>, usize, usize) {
    let (h, w) = loop {
        let (h, w) = pictures::sides(random, 40);
        if (h >= 3 && w >= 3) || h.max(w) >= 20 {
            break (h, w);
        }
    };
    let few = 1 + random.below(5);
    let palette: Vec<f64> = (0..few).map(|_| random.below(5) as f64 / 12.5).collect();
    let kind = random.below(5);
    let mut colours: Vec<f64> = (0..3 * h * w)
        .map(|_| match kind {
            0 => palette[random.below(few)],
            1 => [0.0, -0.0, 5e-324, 1e-310][random.below(4)],
            2 => f64::from_bits(0.3f64.to_bits() + random.below(4) as u64),
            3 => [0.0, -0.0][random.below(2)],
            _ => (random.next() >> 11) as f64 / (1u64 << 53) as f64 * 0.4,
        })
        .collect();
    let off = match h >= 3 && w >= 3 {
        true => (1 + random.below(h - 2)) * w + 1 + random.below(w - 2),
        false => random.below(h * w),
    };
    colours[3 * off..3 * off + 3].fill(1.0);
    (colours, h, w)
}

fn bits(colour: Rgb) -> [u64; 3] {
    [colour.r, colour.g, colour.b].map(f64::to_bits)
}

/// A python3 that has numpy, and numpy's version.
fn python() -> Option<(&'static str, String)> {
    ["python3", "/usr/bin/python3"]
        .into_iter()
        .find_map(|name| {
            let script = "import numpy; print(numpy.__version__)";
            let out = Command::new(name).args(["-c", script]).output().ok()?;
            let version = String::from_utf8_lossy(&out.stdout).trim().to_string();
            out.status.success().then_some((name, version))
        })
}

/// numpy's medians, a line of three each.
fn medians(python: &str, lines: &str) -> String {
    let script = Path::new(env!("CARGO_MANIFEST_DIR")).join("numpy/median.py");
    let folder = Path::new(env!("CARGO_TARGET_TMPDIR"));
    let given = folder.join("borders");
    std::fs::write(&given, lines).expect("the list of pictures");
    let out = Command::new(python)
        .arg(script)
        .stdin(Stdio::from(std::fs::File::open(&given).unwrap()))
        .output()
        .expect("python3");
    let said = String::from_utf8_lossy(&out.stderr);
    assert!(out.status.success(), "{said}");
    String::from_utf8(out.stdout).expect("text")
}

#[test]
fn reference_of_the_ground() {
    let mut random = Random(61);
    let mut lines = String::new();
    let mut references = Vec::new();
    for _ in 0..3_000 {
        let (colours, h, w) = picture(&mut random);
        let ground = stand::ground(&colours, h, w, 0.5).unwrap();
        let ground = ground.unwrap_or_else(|| panic!("no ground, {h} × {w}: {colours:?}"));
        let sorted = pictures::reference(&colours, h, w);
        assert_eq!(
            bits(ground.reference),
            bits(sorted),
            "{h} × {w}: {colours:?}"
        );
        references.push(ground.reference);
        write!(lines, "{h} {w}").unwrap();
        for colour in &colours {
            write!(lines, " {:x}", colour.to_bits()).unwrap();
        }
        lines.push('\n');
    }
    let said = match python() {
        None => {
            "skipped: no python3 with numpy; the reference was compared with a sort only\n".into()
        }
        Some((python, version)) => {
            let answers = medians(python, &lines);
            assert_eq!(answers.lines().count(), references.len());
            for (line, reference) in answers.lines().zip(&references) {
                let numbers = line.split(' ').map(|word| {
                    let number = u64::from_str_radix(word, 16).expect("bits");
                    (f64::from_bits(number) + 0.0).to_bits()
                });
                assert!(numbers.eq(bits(*reference)), "{line}, ours {reference:?}");
            }
            format!(
                "reference of {} borders equal to a sort's and to numpy {version}'s median\n",
                references.len()
            )
        }
    };
    std::io::stderr().write_all(said.as_bytes()).unwrap();
}
