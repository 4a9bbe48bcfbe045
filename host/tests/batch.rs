//! Several pictures at once: jobs, counts, statuses, what is left out and what is kept, the contact
//! sheet and the table.

#[path = "../examples/pictures/draw.rs"]
#[allow(dead_code)]
mod draw;
#[path = "../support/running.rs"]
mod running;

use running::*;
use stand::netpbm::{self, Image};
use std::collections::BTreeMap;
use std::fs;
use std::path::{Path, PathBuf};
use std::process::Command;

/// A picture of one colour.
fn plain(v: u8) -> Image {
    Image {
        h: 9,
        w: 12,
        rgb: vec![v; 3 * 9 * 12],
        alpha: vec![255; 9 * 12],
    }
}

/// A square on card.
fn square(v: u8) -> Image {
    let mut image = plain(250);
    for y in 3..6 {
        image.rgb[3 * (12 * y + 4)..3 * (12 * y + 8)].fill(v);
    }
    image
}

/// A folder with pictures of every kind, and an empty folder `cuts`.
fn pictures(name: &str) -> PathBuf {
    let folder = folder(name);
    let mut clear = square(9);
    clear.alpha[5] = 0;
    let mut chequered = plain(0);
    chequered
        .rgb
        .chunks_mut(3)
        .step_by(2)
        .for_each(|p| p.fill(255));
    let mut blank = plain(7);
    blank.alpha.fill(0);
    for (name, image) in [
        ("square", square(0)),
        ("a & <b>", square(90)),
        ("clear", clear),
        ("chequered", chequered),
        ("bare", plain(200)),
        ("blank", blank),
    ] {
        fs::write(folder.join(format!("{name}.pam")), netpbm::pam(&image)).unwrap();
    }
    fs::write(folder.join("nonsense.pam"), "nonsense").unwrap();
    fs::create_dir(folder.join("cuts")).unwrap();
    folder
}

const ALL: [&str; 7] = [
    "square.pam",
    "a & <b>.pam",
    "clear.pam",
    "chequered.pam",
    "bare.pam",
    "blank.pam",
    "nonsense.pam",
];

fn batch(folder: &Path, words: &[&str]) -> Ran {
    run(folder, &[&["--out", "cuts"], words, &ALL].concat())
}

/// Files by their names, without what the folder's page and table are called.
fn results(folder: &Path) -> BTreeMap<String, Vec<u8>> {
    let read = |name: String| (name.clone(), fs::read(folder.join(name)).unwrap());
    names(folder).into_iter().map(read).collect()
}

/// One job or many: the same files, and a count of each kind.
#[test]
fn jobs() {
    let mut before = None;
    for jobs in ["1", "2", "7"] {
        let folder = pictures("jobs");
        let ran = batch(&folder, &["--jobs", jobs]);
        assert_eq!(ran.status, 2);
        for kind in [
            "2 found",
            "1 alpha",
            "1 not found",
            "1 bare",
            "1 refused",
            "1 failed",
        ] {
            assert!(ran.out.contains(kind), "{}", ran.out);
        }
        assert!(ran.out.contains("\n7 pictures: "), "{}", ran.out);
        // What was refused is said on standard error.
        assert_eq!(ran.out.matches(" of 7: ").count(), 5, "{}", ran.out);
        assert_eq!(ran.said.lines().count(), 2, "{}", ran.said);
        let now = results(&folder.join("cuts"));
        assert_eq!(now.len(), 5 * ENDS.len() + 2);
        assert!(before.is_none() || before.as_ref() == Some(&now));
        before = Some(now);
    }
}

/// The status is that of the worst that happened, with --quiet too, which says only what is wrong.
#[test]
fn statuses() {
    let folder = pictures("statuses");
    for (picture, status, said) in [
        ("square.pam", 0, ""),
        ("clear.pam", 0, ""),
        ("chequered.pam", 3, "no plain card found"),
        ("bare.pam", 3, "nothing is left"),
        ("blank.pam", 1, "refused 6"),
        ("nonsense.pam", 2, "it is no picture"),
    ] {
        let ran = run(&folder, &[picture, "--quiet", "--force"]);
        assert_eq!((ran.status, &*ran.out), (status, ""), "{picture}");
        assert!(ran.said.contains(said), "{}", ran.said);
        assert_eq!(ran.said.is_empty(), said.is_empty(), "{}", ran.said);
        let ran = run(&folder, &[picture, "--force"]);
        assert_eq!(ran.status, status);
        assert_eq!(ran.out.contains("  to be filed"), status == 0);
        assert_eq!(ran.out.contains("not to be filed before"), status == 3);
    }
    for (pictures, status) in [
        (&["square.pam", "bare.pam"][..], 3),
        (&["bare.pam", "blank.pam"], 1),
        (&["nonsense.pam", "blank.pam", "bare.pam"], 2),
    ] {
        let ran = run(&folder, &[&["--force", "--quiet"], pictures].concat());
        assert_eq!(ran.status, status);
    }
    let ran = run(&folder, &["bare.pam", "--no-key", "--force"]);
    assert_eq!(ran.status, 0, "{}", ran.said);
}

/// Results of earlier cuts are left out, with a word, unless they are named to be cut.
#[test]
fn own_results() {
    let folder = pictures("own");
    fs::write(folder.join("g.pgm"), b"P5 3 1 255\nabc").unwrap();
    fs::write(folder.join("other.weights.pgm"), b"P5 3 1 255\nabc").unwrap();
    run(&folder, &["--no-key", "g.pgm"]).ended(0, "");
    let before = names(&folder);
    let words = [
        "--no-key",
        "--keep-going",
        "g.pgm",
        "g.weights.pgm",
        "other.weights.pgm",
    ];
    let ran = run(&folder, &words);
    ran.ended(0, "");
    assert!(ran
        .out
        .contains("g.weights.pgm: left out, since it is a result"));
    assert!(
        ran.out
            .contains("1 there already, 1 left out, 1 not sought"),
        "{}",
        ran.out
    );
    assert_eq!(names(&folder).len(), before.len() + ENDS.len());
    // A file that only has such a name is a picture like others.
    assert!(folder.join("other.weights.record.txt").is_file());
    let words = ["--no-key", "g.weights.pgm", "--name", "again"];
    run(&folder, &words).ended(0, "");
    assert!(folder.join("again.record.txt").is_file());
}

/// A batch that was stopped is gone on with: what has a record is kept, and other settings are said.
#[test]
fn keep_going() {
    let folder = pictures("going");
    let some = ["--out", "cuts", "square.pam", "clear.pam"];
    run(&folder, &some).ended(0, "");
    let before = results(&folder.join("cuts"));
    let again = batch(&folder, &[]);
    assert_eq!(again.status, 2);
    assert!(again
        .said
        .contains("square.mask.pbm is there already; add --force"));
    let ran = batch(&folder, &["--keep-going"]);
    assert!(ran
        .out
        .contains("square.pam: its results are there already, and are kept\n"));
    assert!(ran.out.contains("5 there already"), "{}", ran.out);
    let now = results(&folder.join("cuts"));
    let same = |(name, bytes): (&String, &Vec<u8>)| {
        name.contains("index") || name.contains("summary") || now.get(name) == Some(bytes)
    };
    assert!(before.iter().all(same));
    let ran = batch(&folder, &["--keep-going", "--tolerance", "0.1"]);
    assert!(ran
        .out
        .contains("square.pam: its results are there already, cut with OTHER SETTINGS"));
    batch(&folder, &["--keep-going", "--force"]).ended(2, "give one");
}

/// The card's colour is a setting as others are: another one, one too many or none is said, and
/// letters of the other case are the same.
#[test]
fn keep_going_with_a_colour() {
    let folder = pictures("colour");
    let going = |words: &[&str]| {
        let some = ["--out", "cuts", "--keep-going", "square.pam"];
        let ran = run(&folder, &[&some, words].concat());
        assert_eq!(ran.status, 0, "{}", ran.said);
        ran.out.contains("cut with OTHER SETTINGS")
    };
    assert!(!going(&["--card-colour", "FAFAFA"]));
    let before = results(&folder.join("cuts"));
    for (words, other) in [
        (&["--card-colour", "fafafa"][..], false),
        (&["--card-colour", "FaFafA"], false),
        (&["--card-colour", "fafafb"], true),
        (&["--card-colour", "fafaf"], true),
        (&[], true),
        (&["--card-colour", "fafafa", "--fringe=2"], true),
    ] {
        assert_eq!(going(words), other, "{words:?}");
    }
    assert!(before == results(&folder.join("cuts")));
    // A record without the line has other settings too.
    let clear = ["--out", "cuts", "--keep-going", "clear.pam"];
    run(&folder, &clear).ended(0, "");
    let ran = run(&folder, &[&clear[..], &["--card-colour=fafafa"]].concat());
    assert!(ran.out.contains("cut with OTHER SETTINGS"), "{}", ran.out);
}

/// The rows of a table, each with its fields.
fn rows(table: &str) -> Vec<Vec<String>> {
    let mut rows = vec![vec![String::new()]];
    let mut quoted = false;
    let mut chars = table.chars().peekable();
    while let Some(c) = chars.next() {
        let row = rows.last_mut().unwrap();
        match c {
            '"' if quoted && chars.peek() == Some(&'"') => {
                row.last_mut().unwrap().push('"');
                chars.next();
            }
            '"' => quoted = !quoted,
            ',' if !quoted => row.push(String::new()),
            '\r' if !quoted => {}
            '\n' if !quoted => rows.push(vec![String::new()]),
            c => row.last_mut().unwrap().push(c),
        }
    }
    rows.pop();
    rows
}

/// The page has a tile for each picture, what needs a look first, and its links lead to files; the
/// table has the same.
#[test]
fn sheet() {
    let folder = pictures("sheet");
    let cuts = folder.join("cuts");
    batch(&folder, &[]);
    let page = fs::read_to_string(cuts.join("index.html")).unwrap();
    assert_eq!(page.matches("<article").count(), 7);
    for part in ["http", "<script", "<b>", "a & <"] {
        assert!(!page.contains(part), "{part}");
    }
    assert!(page.contains("<h2>a &amp; &lt;b&gt;</h2>"));
    assert!(page.contains("<img src=\"./a%20%26%20%3Cb%3E.thumbnail.png\""));
    let place = |text: &str| page.find(&format!("<h2>{text}")).expect(text);
    assert!(place("blank.pam") < place("bare"));
    assert!(place("nonsense.pam") < place("chequered"));
    assert!(place("chequered") < place("square"));
    let mut links = 0;
    for part in page.split("href=\"./").skip(1) {
        let link = part.split('"').next().unwrap();
        let name = link
            .replace("%20", " ")
            .replace("%26", "&")
            .replace("%3C", "<")
            .replace("%3E", ">");
        assert!(cuts.join(&name).is_file(), "{name}");
        links += 1;
    }
    assert_eq!(links, 5 * ENDS.len());

    let table = fs::read_to_string(cuts.join("summary.csv")).unwrap();
    let rows = rows(&table);
    assert_eq!(rows.len(), 8);
    assert!(rows.iter().all(|row| row.len() == rows[0].len()));
    assert_eq!(rows[0][..3], ["name", "state", "refusal"]);
    let row = |name: &str| rows.iter().find(|row| row[0] == name).expect(name);
    assert_eq!(row("blank.pam")[1..4], ["refused 6", "6", ""]);
    assert_eq!(
        row("square")[1..9],
        ["found", "", "9", "12", "2", "7", "3", "9"]
    );
    assert_eq!(row("a & <b>")[1], "found");
    assert_eq!(
        rows[0][11..],
        [
            "least_tolerance",
            "parts",
            "largest_part",
            "specks",
            "remark",
            "card_colour"
        ]
    );
    assert_eq!(row("square")[12..], ["1", "100.0 %", "0", "", ""]);

    // Later, from what lies in the folder alone: what was refused has left nothing.
    fs::remove_file(cuts.join("index.html")).unwrap();
    fs::write(cuts.join("old.record.txt"), "mine").unwrap();
    run(&folder, &["--sheet", "cuts"]).ended(0, "");
    let page = fs::read_to_string(cuts.join("index.html")).unwrap();
    assert_eq!(page.matches("<article").count(), 6);
    assert!(page.contains("<p class=\"state\">unreadable</p>"));
    run(&folder, &["--sheet", "missing"]).ended(2, "missing could not be read");
}

/// The table has the card's colour where it was given; a text that is none is refused, and said.
#[test]
fn sheet_with_a_colour() {
    let folder = pictures("coloured");
    let rows_after = |words: &[&str]| {
        batch(&folder, words);
        rows(&fs::read_to_string(folder.join("cuts/summary.csv")).unwrap())
    };
    let cell = |rows: &[Vec<String>], name: &str, column: &str| {
        let at = rows[0].iter().position(|own| own == column).expect(column);
        let row = rows.iter().find(|row| row[0] == name).expect(name);
        row[at].clone()
    };
    let wrong = rows_after(&["--card-colour", "#FAFAFA"]);
    assert_eq!(cell(&wrong, "square.pam", "refusal"), "11");
    assert_eq!(cell(&wrong, "square.pam", "card_colour"), "");
    let remark = cell(&wrong, "clear.pam", "remark");
    assert!(remark.contains("give it as in F4F1E8"), "{remark}");
    assert_eq!(names(&folder.join("cuts")), ["index.html", "summary.csv"]);
    let right = rows_after(&["--card-colour", "FAFAFA"]);
    assert!(right.iter().all(|row| row.len() == right[0].len()));
    for name in ["square", "clear", "chequered"] {
        assert_eq!(cell(&right, name, "card_colour"), "fafafa");
    }
    assert_eq!(cell(&right, "square", "state"), "found");
    assert_eq!(cell(&right, "blank.pam", "refusal"), "6");
}

/// Pixels of the page as a browser shows it, where one is installed.
#[test]
fn in_a_browser() {
    let folder = pictures("browser");
    batch(&folder, &[]);
    let shot = folder.join("sheet.png");
    let browsers = ["chromium", "chromium-browser", "google-chrome"];
    let show = |browser: &&str| {
        let mut command = Command::new(browser);
        command.args([
            "--headless",
            "--no-sandbox",
            "--disable-gpu",
            "--window-size=1000,900",
        ]);
        command.arg(format!("--screenshot={}", shot.display()));
        command.arg(format!(
            "--user-data-dir={}",
            folder.join("profile").display()
        ));
        let page = folder.join("cuts/index.html").canonicalize().unwrap();
        command.arg(format!("file://{}", page.display()));
        command.output().is_ok_and(|output| output.status.success())
    };
    if !browsers.iter().any(show) {
        return skipped("there is no browser to show the contact sheet");
    }
    let png = fs::read(&shot).expect("a screenshot");
    assert_eq!(png[..8], *b"\x89PNG\r\n\x1a\n");
    let mut decoder = Command::new("pngtopam");
    match decoder.arg(&shot).output() {
        Ok(output) if output.status.success() => {
            let (image, _) = netpbm::read(&output.stdout[..]).expect("a picture");
            let count = |colour: [u8; 3]| image.rgb.chunks(3).filter(|p| **p == colour).count();
            // The stripes over the tiles: refused, not found, found; the outline of the objects.
            assert!(count([0xb3, 0x26, 0x1e]) > 1000);
            assert!(count([0xd9, 0x82, 0x2b]) > 1000);
            // The outline is magenta, mixed with what is beside it.
            let magenta =
                |p: &&[u8]| p[0] > p[1].saturating_add(60) && p[2] > p[1].saturating_add(30);
            let outline = image.rgb.chunks(3).filter(magenta).count();
            assert!(outline > 50, "{outline} pixels of an outline are seen");
        }
        _ => skipped("there is no pngtopam to look at the screenshot"),
    }
}

/// On a terminal a bar shows how far the work has come.
#[test]
fn bar() {
    let folder = pictures("bar");
    let line = format!(
        "{} --force square.pam clear.pam",
        env!("CARGO_BIN_EXE_stand")
    );
    let mut command = Command::new("script");
    command
        .current_dir(&folder)
        .args(["-qec", &line, "/dev/null"]);
    match command.output() {
        Ok(output) if output.status.success() => {
            let text = String::from_utf8_lossy(&output.stdout);
            assert!(text.contains("] 1 of 2\r"), "{text}");
            assert!(text.contains("2 of 2: "), "{text}");
        }
        _ => skipped("there is no script to make a terminal"),
    }
}
