//! Filed results as they are checked: `stand --check`.

#[path = "../examples/pictures/draw.rs"]
#[allow(dead_code)]
mod draw;
#[path = "../support/running.rs"]
mod running;

use running::*;
use stand::netpbm::{self, Image};
use stand::sha256;
use std::fs;
use std::path::{Path, PathBuf};
use std::process::Command;

/// A folder with a.pam and its results.
fn ticket_filed(name: &str) -> (PathBuf, Image) {
    let folder = folder(name);
    let image = draw::ticket();
    fs::write(folder.join("a.pam"), netpbm::pam(&image)).unwrap();
    run(&folder, &["a.pam", "--fringe=2", "--tolerance=0.0333"]).ended(0, "");
    (folder, image)
}

/// Checks a.record.txt.
fn check(folder: &Path, picture: &[&str]) -> Ran {
    run(folder, &[&["--check", "a.record.txt"], picture].concat())
}

/// The status of a check, and what its lines say is not as recorded.
fn answers(ran: &Ran) -> (i32, Vec<String>) {
    assert!(ran.out.lines().all(|line| line.ends_with("as recorded")));
    let not = |line: &str| line.strip_suffix(": NOT as recorded").map(String::from);
    (ran.status, ran.out.lines().filter_map(not).collect())
}

/// How many lines a check says.
fn lines(ran: &Ran) -> usize {
    ran.out.lines().count()
}

fn again(what: &str) -> String {
    format!("{what}, cut again with the recorded settings")
}

/// A filed result is checked against its picture.
#[test]
fn with_picture() {
    let (folder, mut image) = ticket_filed("picture");
    let ran = check(&folder, &[]);
    assert_eq!((answers(&ran), lines(&ran)), ((0, vec![]), 3));
    let ran = check(&folder, &["a.pam"]);
    assert_eq!((answers(&ran), lines(&ran)), ((0, vec![]), 9));

    // A colour in the middle of the ticket is corrected: another picture, the same outline.
    image.rgb[3 * (110 * image.w + 170)] ^= 255;
    fs::write(folder.join("corrected.pam"), netpbm::pam(&image)).unwrap();
    let ran = check(&folder, &["corrected.pam"]);
    assert_eq!(answers(&ran), (1, vec!["corrected.pam".into()]));

    // Other settings, flags and boxes: the lines say which of them is not as recorded.
    let path = folder.join("a.record.txt");
    let good = fs::read_to_string(&path).unwrap();
    for (old, new, what) in [
        ("fringe: 2", "fringe: 0", &["mask", "weights"][..]),
        ("keyed: yes", "keyed: no", &["keyed flag"]),
        ("crop_to_alpha: yes", "crop_to_alpha: no", &["crop box"]),
        ("rows: 220", "rows: 221", &["sides"]),
    ] {
        assert!(good.contains(old), "{good}");
        fs::write(&path, good.replace(old, new)).unwrap();
        let want = what.iter().map(|what| again(what)).collect();
        assert_eq!(answers(&check(&folder, &["a.pam"])), (1, want));
    }
}

/// What is no record is said so, and how.
#[test]
fn no_record() {
    let (folder, _) = ticket_filed("records");
    let path = folder.join("a.record.txt");
    let good = fs::read_to_string(&path).unwrap();
    for (old, new, said) in [
        ("record 2", "record 3", "of form 3; this version"),
        ("0.0333", "0.0334", "stand: a.record.txt: the record has"),
        ("yes", "y", "stand: a.record.txt: the record has"),
        ("rows", "h", "stand: a.record.txt: the record has"),
        ("stand", "\u{7}", "stand: a.record.txt: it is no record"),
    ] {
        fs::write(&path, good.replacen(old, new, 1)).unwrap();
        check(&folder, &[]).ended(2, said);
    }
    fs::write(&path, good.replace('\n', "\r\n")).unwrap();
    check(&folder, &[]).ended(2, "the record's lines end in CR LF");
    fs::write(&path, b"\xff\xfe").unwrap();
    check(&folder, &[]).ended(2, "stand: a.record.txt: it could not be read");
    fs::remove_file(&path).unwrap();
    check(&folder, &[]).ended(2, "stand: a.record.txt: it could not be read");
    run(&folder, &["--check", "a.pam"]).ended(2, "its name ends in .record.txt");
    run(&folder, &["--check"]).ended(2, "give a record to check");
}

/// A filed result is checked against its files, and goes on after one that is missing.
#[test]
fn with_files() {
    let (folder, _) = ticket_filed("files");
    for end in ["mask.pbm", "weights.f64", "weights.pgm"] {
        let name = format!("a.{end}");
        let path = folder.join(&name);
        let good = fs::read(&path).unwrap();
        let mut bad = good.clone();
        bad[good.len() / 2] ^= 1;
        fs::write(&path, bad).unwrap();
        assert_eq!(answers(&check(&folder, &[])), (1, vec![name.clone()]));
        fs::remove_file(&path).unwrap();
        let ran = check(&folder, &[]);
        // One of the weights' two files is enough.
        if end == "mask.pbm" {
            assert!(ran.said.contains("stand: a.mask.pbm: it could not be read"));
        } else {
            assert_eq!(ran.said, "");
        }
        assert_eq!(answers(&ran).1, Vec::<String>::new());
        assert_eq!(
            (ran.status, lines(&ran)),
            (if end == "mask.pbm" { 2 } else { 0 }, 2)
        );
        fs::write(&path, good).unwrap();
    }
    for end in ["weights.f64", "weights.pgm"] {
        fs::remove_file(folder.join(format!("a.{end}"))).unwrap();
    }
    let ran = check(&folder, &["missing.pam"]);
    assert_eq!((ran.status, lines(&ran)), (2, 1));
    assert!(
        ran.said.contains("a.weights.f64: it could not be read"),
        "{}",
        ran.said
    );
    // The missing picture is to blame, and not the record.
    assert!(
        ran.said
            .contains("stand: missing.pam: it could not be opened"),
        "{}",
        ran.said
    );
}

/// Weights in a byte a pixel alone: the same record, and a check that knows it.
#[test]
fn small_weights() {
    let (folder, _) = ticket_filed("small");
    let record = fs::read(folder.join("a.record.txt")).unwrap();
    let words = [
        "a.pam",
        "--fringe=2",
        "--tolerance=0.0333",
        "--small-weights",
        "--force",
    ];
    run(&folder, &words).ended(0, "");
    assert!(!folder.join("a.weights.f64").exists());
    assert_eq!(fs::read(folder.join("a.record.txt")).unwrap(), record);
    let ran = check(&folder, &["a.pam"]);
    assert_eq!((answers(&ran), lines(&ran)), ((0, vec![]), 8));
}

/// Many records at once, each with its picture where that is named, and what they come to.
#[test]
fn many() {
    let (folder, image) = ticket_filed("many");
    for name in ["b", "c"] {
        fs::write(folder.join(format!("{name}.pam")), netpbm::pam(&image)).unwrap();
    }
    run(&folder, &["b.pam", "c.pam"]).ended(0, "");
    let records = ["a.record.txt", "b.record.txt", "c.record.txt"];
    let all = |others: &[&str]| run(&folder, &[&["--check"], &records[..], others].concat());
    let ran = all(&["b.pam"]);
    assert_eq!((ran.status, lines(&ran)), (0, 3 * 3 + 6 + 1));
    assert!(ran
        .out
        .ends_with("\n3 records: 3 as recorded, 0 NOT as recorded, 0 not wholly checked\n"));

    fs::write(folder.join("b.mask.pbm"), "x").unwrap();
    fs::remove_file(folder.join("a.record.txt")).unwrap();
    let ran = all(&[]);
    assert_eq!((ran.status, lines(&ran)), (2, 2 * 3 + 1));
    assert!(
        ran.said
            .contains("stand: a.record.txt: it could not be read"),
        "{}",
        ran.said
    );
    assert!(ran.out.contains("b.mask.pbm: NOT as recorded\n"));
    assert!(ran
        .out
        .ends_with("\n3 records: 1 as recorded, 1 NOT as recorded, 1 not wholly checked\n"));
    // Quiet says what is wrong, and nothing else.
    let ran = all(&["--quiet"]);
    assert_eq!(
        (ran.status, &*ran.out),
        (2, "b.mask.pbm: NOT as recorded\n")
    );
    run(&folder, &["--check", "--quiet", "c.record.txt", "c.pam"]).quiet();
    for words in [
        &["--tolerance", "0.1"][..],
        &["--card-colour", "ffffff"],
        &["--out", "x"],
        &["--force"],
        &["--name", "x"],
        &["--no-key"],
        &["--small-weights"],
        &["--jobs", "2"],
    ] {
        all(words).ended(2, &format!("{} means nothing beside --check", words[0]));
    }
}

/// The folder of records that are kept as they were filed.
fn kept(form: &str) -> PathBuf {
    let records = Path::new(env!("CARGO_MANIFEST_DIR")).join("tests/records");
    records.join(form)
}

/// Records as they were filed before later settings and forms came are checked for ever, and so are
/// those with the card's colour. A picture that came from standard input lies beside its record.
#[test]
fn kept_records() {
    for (form, first, name, picture, with, without) in [
        ("form-1", 1, "disc", "disc.ppm", 8, 2),
        ("form-1", 1, "clear", "clear.pam", 8, 2),
        ("form-1", 1, "grey", "grey.pgm", 8, 2),
        ("form-2", 2, "disc", "disc.ppm", 9, 3),
        ("form-2", 2, "clear", "clear.pam", 8, 2),
        ("form-2", 2, "grey", "grey.picture.ppm", 9, 9),
        ("form-2-colour", 2, "disc", "disc.ppm", 9, 3),
        ("form-2-colour", 2, "clear", "clear.pam", 8, 2),
        ("form-2-colour", 2, "off", "off.picture.ppm", 9, 9),
    ] {
        let kept = kept(form);
        let record = format!("{name}.record.txt");
        let text = fs::read_to_string(kept.join(&record)).unwrap();
        assert!(text.starts_with(&format!("stand record {first}\n")));
        let coloured = text.contains("\ncard_colour: ");
        assert_eq!(coloured, form == "form-2-colour");
        let words = ["--check", &record, picture];
        for (words, count) in [(&words[..], with), (&words[..2], without)] {
            let ran = run(&kept, words);
            let own = (answers(&ran), lines(&ran));
            assert_eq!(own, ((0, vec![]), count), "{form}/{name}: {}", ran.said);
        }
    }
}

/// The recorded colour is what the picture is cut with: another one, or none, gives another outline.
#[test]
fn with_colour() {
    let (kept, folder) = (kept("form-2-colour"), folder("colour"));
    for name in names(&kept) {
        fs::copy(kept.join(&name), folder.join(&name)).unwrap();
    }
    for (name, old, new, what) in [
        (
            "disc",
            "card_colour: b0a8a0",
            "card_colour: eeeae2",
            &["mask", "weights", "crop box"][..],
        ),
        (
            "disc",
            "card_colour: b0a8a0\n",
            "",
            &["mask", "weights", "crop box"],
        ),
        (
            "off",
            "card_colour: f3efe7\n",
            "",
            &["mask", "weights", "keyed flag", "crop box"],
        ),
        ("clear", "card_colour: 000000\n", "", &[]),
    ] {
        let record = format!("{name}.record.txt");
        let text = fs::read_to_string(kept.join(&record)).unwrap();
        assert!(text.contains(old), "{text}");
        fs::write(folder.join(&record), text.replace(old, new)).unwrap();
        let picture = match name {
            "clear" => "clear.pam",
            _ => "disc.ppm",
        };
        let ran = run(&folder, &["--check", &record, picture]);
        let want: Vec<String> = what.iter().map(|what| again(what)).collect();
        let status = i32::from(!want.is_empty());
        assert_eq!(answers(&ran), (status, want), "{name}: {}", ran.said);
    }
    let text = fs::read_to_string(kept.join("disc.record.txt")).unwrap();
    for (old, new, said) in [
        ("b0a8a0", "B0A8A0", "the record's card_colour is \"B0A8A0\""),
        ("b0a8a0", "b0a8a", "the record's card_colour is \"b0a8a\""),
        (
            "record 2",
            "record 1",
            "\"card_colour: b0a8a0\" where its keyed belongs",
        ),
    ] {
        fs::write(folder.join("disc.record.txt"), text.replace(old, new)).unwrap();
        run(&folder, &["--check", "disc.record.txt"]).ended(2, said);
    }
}

/// Form 1 has no sum of the weights in a byte a pixel, so the others must be there.
#[test]
fn form_1() {
    let (kept, folder) = (kept("form-1"), folder("form-1"));
    for end in ["record.txt", "mask.pbm"] {
        let name = format!("disc.{end}");
        fs::copy(kept.join(&name), folder.join(&name)).unwrap();
    }
    fs::write(folder.join("disc.weights.pgm"), "x").unwrap();
    let ran = run(&folder, &["--check", "disc.record.txt"]);
    assert_eq!((ran.status, lines(&ran)), (2, 1));
    assert!(ran.said.contains("disc.weights.f64: it could not be read"));
}

/// What a JPEG is decoded to is filed and cut; the original has its sum in the record.
#[test]
fn decoded() {
    let folder = folder("decoded");
    let image = draw::ticket();
    let ppm = folder.join("ticket.ppm");
    fs::write(&ppm, netpbm::ppm(&image)).unwrap();
    let jpeg = Command::new("pnmtojpeg").arg(&ppm).output();
    let jpeg = match jpeg {
        Ok(output) if output.status.success() => output.stdout,
        _ => return skipped("there is no pnmtojpeg to make a JPEG"),
    };
    fs::write(folder.join("a.jpg"), &jpeg).unwrap();
    let ran = run(&folder, &["a.jpg"]);
    ran.cut(true);
    assert!(
        ran.out.contains("\n  decoded by jpegtopnm\n"),
        "{}",
        ran.out
    );
    let picture = fs::read(folder.join("a.picture.ppm")).unwrap();
    let text = fs::read_to_string(folder.join("a.record.txt")).unwrap();
    for line in [
        format!("\npicture_sha256: {}\n", sha256::of(&picture)),
        format!("\noriginal_sha256: {}\n", sha256::of(&jpeg)),
    ] {
        assert!(text.contains(&line), "{text}");
    }
    // The filed picture lies beside its record, and is checked without being named.
    let ran = check(&folder, &[]);
    assert_eq!((answers(&ran), lines(&ran)), ((0, vec![]), 9));
    let ran = check(&folder, &["a.jpg"]);
    assert_eq!((answers(&ran), lines(&ran)), ((0, vec![]), 10));
    // A picture that was cut as it is, and then only its decoded pixels were kept.
    let ran = run(&folder, &["a.picture.ppm", "--name", "b"]);
    ran.cut(true);
    let own = fs::read_to_string(folder.join("b.record.txt")).unwrap();
    let original = format!("original_sha256: {}\n", sha256::of(&jpeg));
    assert_eq!(own, text.replace(&original, ""));

    let mut other = jpeg.clone();
    other.extend(b"x");
    fs::write(folder.join("other.jpg"), other).unwrap();
    let ran = check(&folder, &["other.jpg"]);
    assert_eq!(answers(&ran), (1, vec!["other.jpg".into()]));
    fs::remove_file(folder.join("a.picture.ppm")).unwrap();
    let ran = check(&folder, &[]);
    assert_eq!((ran.status, lines(&ran)), (2, 3));
    assert!(ran
        .said
        .contains("a.picture.ppm: it is not there; the picture that was cut"));
}
