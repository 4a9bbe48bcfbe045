//! The recorded lists of mask.rs's and SciPy's answers, replayed through the C interface.

#[path = "../support/cases.rs"]
mod cases;
#[path = "../support/masks.rs"]
mod masks;
#[path = "../support/pictures.rs"]
mod pictures;

use cases::{Answers, Case, Look, Outline};
use stand::{Picture, Settings};
use std::fmt::Write as _;
use std::fs;
use std::io::Write as _;
use std::path::{Path, PathBuf};

/// Where a program's list stands.
fn folder(name: &str) -> PathBuf {
    Path::new(env!("CARGO_MANIFEST_DIR"))
        .join("../crates")
        .join(name)
}

/// The text that the cases in `stdin` must give.
fn answered(stdin: &str) -> (String, usize) {
    let mut out = String::new();
    let mut cases = 0;
    let mut lines = stdin.lines();
    while let Some(head) = lines.next() {
        let words: Vec<&str> = head.split(' ').collect();
        let [op, h, w, k] = words[..] else {
            panic!("`{head}` is no head line")
        };
        let (h, w): (usize, usize) = (h.parse().unwrap(), w.parse().unwrap());
        let k: u64 = k.parse().unwrap();
        let mut mask = Vec::new();
        for _ in 0..h {
            let row = lines.next().expect("a row of digits");
            assert_eq!(row.len(), w, "a row of `{head}`");
            mask.extend(row.bytes().map(|b| match b {
                b'0' => 0,
                b'1' => 1,
                other => panic!("byte {other} in `{head}`"),
            }));
        }
        writeln!(out, "{head}").unwrap();
        let rows: Vec<String> = match op {
            "L" => {
                let parts = stand::labels(&mask, h, w).unwrap();
                writeln!(out, "{}", parts.count).unwrap();
                let rows = parts.plane.chunks(w);
                rows.map(|r| r.iter().map(u32::to_string).collect::<Vec<_>>().join(" "))
                    .collect()
            }
            "S" => {
                let plane = stand::squares(&mask, h, w, k).unwrap();
                plane
                    .chunks(w)
                    .map(|r| r.iter().map(u8::to_string).collect())
                    .collect()
            }
            "N" => {
                let planes = stand::nearest(&mask, h, w).unwrap();
                let pairs: Vec<String> = planes
                    .rows
                    .iter()
                    .zip(&planes.cols)
                    .map(|(r, c)| format!("{r},{c}"))
                    .collect();
                pairs.chunks(w).map(|r| r.join(" ")).collect()
            }
            other => panic!("there is no operation {other}"),
        };
        for row in rows {
            writeln!(out, "{row}").unwrap();
        }
        cases += 1;
    }
    (out, cases)
}

/// Holds our answers to be the recorded ones.
fn compare(name: &str, folder: &Path, ours: &str, cases: usize) {
    let stdout = fs::read_to_string(folder.join("stdout")).expect("stdout");
    for (at, (a, b)) in ours.lines().zip(stdout.lines()).enumerate() {
        assert_eq!(a, b, "line {} of {name}/stdout", at + 1);
    }
    assert_eq!(ours.len(), stdout.len(), "{name}/stdout");
    let line = format!("recorded list {name}: {cases} cases equal\n");
    std::io::stderr().write_all(line.as_bytes()).unwrap();
}

fn replay(name: &str) {
    let stdin = fs::read_to_string(folder(name).join("stdin")).expect("stdin");
    let (ours, cases) = answered(&stdin);
    compare(name, &folder(name), &ours, cases);
    assert!(cases >= 200, "{cases} cases");
}

#[test]
fn the_rusts_answers() {
    replay("replay_rust");
}

#[test]
fn scipys_answers() {
    replay("replay_scipy");
}

struct Ours;

impl Answers for Ours {
    fn ground(
        &self,
        given: Option<&str>,
        colours: &[f64],
        h: usize,
        w: usize,
        tolerance: f64,
    ) -> Result<Option<Vec<u8>>, u32> {
        let found = match given {
            Some(text) => stand::ground_with_colour(colours, h, w, text, tolerance),
            None => stand::ground(colours, h, w, tolerance),
        };
        let found = found.map_err(|refusal| refusal.number())?;
        Ok(found.map(|ground| ground.plane))
    }

    fn squares(&self, mask: &[u8], h: usize, w: usize, k: u64) -> Vec<u8> {
        stand::squares(mask, h, w, k).unwrap()
    }

    fn following(
        &self,
        given: Option<&str>,
        picture: &Picture,
        ground: &[u8],
        p: i64,
    ) -> Result<Look, u32> {
        let Picture { colours, h, w, .. } = *picture;
        let reference = pictures::reference_by(given, colours, h, w);
        let look = stand::growth(colours, ground, h, w, reference, p)
            .and_then(|grown| stand::next_pass(colours, &grown, h, w, reference));
        let stand::NextPass { background, joins } = look.map_err(|refusal| refusal.number())?;
        Ok(Look { background, joins })
    }

    fn cut(&self, given: Option<&str>, picture: &Picture, s: &Settings) -> Result<Outline, u32> {
        let cut = match given {
            Some(text) => stand::cut_with_colour(picture, text, s),
            None => stand::cut(picture, s),
        };
        let cut = cut.map_err(|refusal| refusal.number())?;
        let (rows, cols) = (cut.crop.rows, cut.crop.cols);
        Ok(Outline {
            mask: cut.mask,
            weights: cut.weights,
            keyed: cut.keyed,
            crop: [rows.start, rows.end, cols.start, cols.end],
        })
    }
}

/// At least so many cases, and of these so many with the card's colour.
fn replay_keying(name: &str, least: usize, coloured: usize) {
    let stdin = fs::read_to_string(folder(name).join("stdin")).expect("stdin");
    let mut lines = stdin.lines();
    let (mut ours, mut cases, mut with_colour) = (String::new(), 0, 0);
    while let Some(case) = Case::read(&mut lines) {
        ours += &case.answer(&Ours);
        cases += 1;
        with_colour += case.colour.is_some() as usize;
    }
    compare(name, &folder(name), &ours, cases);
    assert!(cases >= least, "{cases} cases");
    assert!(with_colour >= coloured, "{with_colour} with a colour");
}

#[test]
fn the_rusts_grounds() {
    replay_keying("replay_ground", 440, 40);
}

#[test]
fn the_rusts_cuts() {
    replay_keying("replay_cut", 370, 70);
}

#[test]
fn the_rusts_pairs() {
    replay_keying("replay_pair", 36, 18);
}

/// Runs a generator, and holds what it writes to be what the repository has.
fn same_lists(generator: &str, made: &str, lists: &[(&str, PathBuf)]) {
    let made = Path::new(env!("CARGO_TARGET_TMPDIR")).join(made);
    let run = std::process::Command::new(generator)
        .arg(&made)
        .output()
        .unwrap();
    assert!(
        run.status.success(),
        "{}",
        String::from_utf8_lossy(&run.stderr)
    );
    for (name, kept) in lists {
        for file in ["stdin", "stdout"] {
            let same =
                fs::read(made.join(name).join(file)).unwrap() == fs::read(kept.join(file)).unwrap();
            assert!(same, "{}", kept.join(file).display());
        }
    }
}

/// The lists in the repository are what the generators write today.
#[test]
#[cfg_attr(
    not(mask_rs),
    ignore = "mask.rs is not there: PIXELFORGE_MASK_RS names its place"
)]
fn the_rusts_lists_are_what_the_generators_write() {
    let planes = env!("CARGO_BIN_EXE_record");
    same_lists(planes, "recorded", &[("", folder("replay_rust"))]);
    let names = ["replay_ground", "replay_cut", "replay_pair"];
    same_lists(
        env!("CARGO_BIN_EXE_record_keying"),
        "recorded_keying",
        &names.map(|name| (name, folder(name))),
    );
}
