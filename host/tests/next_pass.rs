//! What one more pass would take off, as it is shown before anybody commits to it: `stand
//! --next-pass`.

#[path = "../examples/pictures/draw.rs"]
#[allow(dead_code)]
mod draw;
#[path = "../support/running.rs"]
mod running;
#[path = "../support/soft.rs"]
mod soft;

use running::*;
use stand::netpbm::{self, Image};
use stand::preview::{self, MARK};
use stand::{png, CardColour, Chosen, Settings};
use std::collections::BTreeMap;
use std::fs;
use std::path::{Path, PathBuf};
use std::process::Command;
use std::time::SystemTime;

const NEXT: &str = "a.next-pass.png";

/// Settings with so many passes.
fn passes(fringe: i64) -> Settings {
    Settings {
        key_bg_fringe: fringe,
        ..Settings::default()
    }
}

/// Writes a.pam, and cuts it with these options.
fn cut(folder: &Path, image: &Image, options: &[String]) {
    fs::write(folder.join("a.pam"), netpbm::pam(image)).unwrap();
    let words = ["a.pam", "--force", "--quiet"].map(String::from);
    run(folder, &[&words, options].concat()).quiet();
}

/// A folder with a.pam, a soft disc, and its results with one pass.
fn disc_filed(name: &str) -> (PathBuf, Image) {
    let (folder, image) = (folder(name), soft::disc(60, 70, 12.0));
    cut(&folder, &image, &[]);
    (folder, image)
}

fn next_pass(folder: &Path, words: &[&str]) -> Ran {
    run(folder, &[&["--next-pass", "a.record.txt"], words].concat())
}

/// The pixels that one more pass takes off, by the masks of the two cuts.
fn taken_off(image: &Image, chosen: &Chosen) -> Vec<u8> {
    let mut more = chosen.clone();
    more.settings.key_bg_fringe = chosen.settings.key_bg_fringe.max(0) + 1;
    let [before, after] = [chosen, &more].map(|chosen| image.cut_by(chosen).unwrap().mask);
    let both = before.iter().zip(&after);
    both.map(|(&b, &a)| u8::from(b == 1 && a == 0)).collect()
}

fn count(plane: &[u8]) -> usize {
    plane.iter().filter(|&&on| on != 0).count()
}

/// A number without its commas.
fn number(text: &str) -> usize {
    text.replace(',', "").parse().expect(text)
}

/// What is said of pixels that would be taken off: how many, of how many, the picture that shows
/// them, and the options that take them off.
fn said(ran: &Ran) -> (usize, usize, &str, Vec<String>) {
    assert_eq!((ran.status, &*ran.said), (0, ""));
    let between = |from: &str, to: &str| {
        let at = ran.out.find(from).expect(&ran.out) + from.len();
        &ran.out[at..at + ran.out[at..].find(to).expect(&ran.out)]
    };
    let options = between("cutting again with ", " takes ");
    (
        number(between("one more pass would take ", " of ")),
        number(between(" of ", " pixels off the object; ")),
        between(" marked in ", ", and "),
        options.split(' ').map(String::from).collect(),
    )
}

/// It said that growth has ended, of an object of so many pixels.
fn ended(ran: &Ran, object: usize) {
    assert_eq!((ran.status, &*ran.said), (0, ""));
    let part = "a.record.txt: one more pass would take none of ";
    let rest = ran.out.strip_prefix(part).expect(&ran.out);
    let (all, rest) = rest.split_once(' ').unwrap();
    assert_eq!(number(all), object);
    let want = "pixels off the object: growth has ended, and a higher --fringe changes nothing\n";
    assert_eq!(rest, want);
}

/// The number that is said is that of the pixels by which the masks of the two cuts differ, and the
/// options that are said take just these off.
#[test]
fn as_with_one_more_pass() {
    let folder = folder("passes");
    let card = CardColour::from(soft::CARD);
    let mut taken = [0; 4];
    for (image, colour, most) in [
        (soft::disc(60, 70, 12.0), &card, 3),
        (soft::disc(90, 64, 5.0), &card, 3),
        (soft::disc(81, 80, 18.0), &card, 3),
        (draw::badge(), &CardColour::new("e9e7e1"), 1),
    ] {
        for (fringe, taken) in taken[..=most].iter_mut().enumerate() {
            for card_colour in [None, Some(colour.clone())] {
                let chosen = Chosen {
                    settings: passes(fringe as i64),
                    card_colour,
                };
                *taken += usize::from(takes_off(&folder, &image, &chosen));
            }
        }
    }
    assert!(taken.iter().all(|&n| n >= 2), "{taken:?}");
}

/// Cuts a picture, looks at the next pass, and cuts it again as it is said. Gives whether the pass
/// takes anything off.
fn takes_off(folder: &Path, image: &Image, chosen: &Chosen) -> bool {
    cut(folder, image, &words(chosen));
    let (mask, off) = (image.cut_by(chosen).unwrap().mask, taken_off(image, chosen));
    let ran = next_pass(folder, &["a.pam"]);
    assert_eq!(folder.join(NEXT).exists(), count(&off) > 0);
    if count(&off) == 0 {
        ended(&ran, count(&mask));
        return false;
    }
    let (number, object, shown, options) = said(&ran);
    assert_eq!((number, object), (count(&off), count(&mask)));
    assert_eq!(shown, NEXT);
    cut(folder, image, &options);
    let rest: Vec<u8> = mask.iter().zip(&off).map(|(m, o)| m - o).collect();
    let file = fs::read(folder.join("a.mask.pbm")).unwrap();
    same_mask(&file, &rest, image.h, image.w);
    true
}

/// The options that are said have every setting of the record that is not the usual one.
#[test]
fn all_settings_are_said() {
    let folder = folder("settings");
    let chosen = Chosen {
        settings: Settings {
            alpha_threshold: -3,
            key_bg_fringe: -7,
            key_bg_tolerance: 0.0421,
            crop_to_alpha: false,
            ..Settings::default()
        },
        card_colour: Some(CardColour::from(soft::CARD)),
    };
    let image = soft::disc(60, 70, 12.0);
    cut(&folder, &image, &words(&chosen));
    let ran = next_pass(&folder, &["a.pam"]);
    let (number, _, _, options) = said(&ran);
    assert_eq!(number, count(&taken_off(&image, &chosen)));
    cut(&folder, &image, &options);
    let picture = netpbm::pam(&image);
    let mut more = chosen;
    more.settings.key_bg_fringe = 1;
    filed_by(&folder, "a", &image, &more, &picture);
}

/// The files of a folder: name, bytes, and when they were last changed.
type Files = BTreeMap<String, (Vec<u8>, SystemTime)>;

fn files(folder: &Path) -> Files {
    let read = |name: String| {
        let path = folder.join(&name);
        let changed = fs::metadata(&path).unwrap().modified().unwrap();
        (name, (fs::read(path).unwrap(), changed))
    };
    names(folder).into_iter().map(read).collect()
}

/// All other files are as they were, and what is there already is replaced only with --force.
#[test]
fn nothing_else_is_touched() {
    let (folder, _) = disc_filed("touched");
    let before = files(&folder);
    said(&next_pass(&folder, &["a.pam"]));
    let mut after = files(&folder);
    let (own, written) = after.remove(NEXT).unwrap();
    assert!(before == after);

    let taken = format!("stand: a.record.txt: {NEXT} is there already; add --force, or choose");
    next_pass(&folder, &["a.pam"]).ended(2, &taken);
    assert_eq!(files(&folder)[NEXT], (own.clone(), written));
    fs::write(folder.join(NEXT), "mine").unwrap();
    next_pass(&folder, &["a.pam"]).ended(2, &taken);
    assert_eq!(fs::read(folder.join(NEXT)).unwrap(), b"mine");
    next_pass(&folder, &["a.pam", "--force", "--quiet"]).quiet();
    let mut after = files(&folder);
    assert_eq!(after.remove(NEXT).unwrap().0, own);
    assert!(before == after);

    // Into another folder, which holds nothing else then.
    fs::remove_file(folder.join(NEXT)).unwrap();
    let out = running::folder("touched-out");
    let words = ["a.pam", "--out", out.to_str().unwrap()];
    let ran = next_pass(&folder, &words);
    assert_eq!(Path::new(said(&ran).2), out.join(NEXT));
    assert!(before == files(&folder));
    assert_eq!(names(&out), [NEXT]);
    assert_eq!(fs::read(out.join(NEXT)).unwrap(), own);
    next_pass(&folder, &words).ended(2, "is there already; add --force, or choose another --out");
    next_pass(&folder, &[&words[..], &["--force"]].concat()).ended(0, "");
    assert_eq!(names(&out), [NEXT]);
}

/// A small picture is shown enlarged, with exactly the pixels marked that would be taken off, and the
/// rest of the object as in the preview.
#[test]
fn marks_of_a_small_picture() {
    let (folder, image) = disc_filed("small");
    said(&next_pass(&folder, &["a.pam"]));
    let chosen = Chosen::default();
    let own = image.cut_by(&chosen).unwrap();
    let off = taken_off(&image, &chosen);
    let plain = preview::preview(&image, &own).unwrap();
    let drawn = preview::marked(&image, &own, &off).unwrap();
    let file = fs::read(folder.join(NEXT)).unwrap();
    assert!(file == png::rgb(&drawn.rgb, drawn.w));
    let scale = drawn.h / image.h;
    assert_eq!((plain.h, plain.w), (scale * image.h, scale * image.w));
    let pixels = drawn.rgb.chunks(3).zip(plain.rgb.chunks(3));
    for (at, (pixel, before)) in pixels.enumerate() {
        let own_at = at / drawn.w / scale * image.w + at % drawn.w / scale;
        assert_eq!(pixel == MARK, off[own_at] == 1);
        let rest = own.mask[own_at] == 1 && off[own_at] == 0;
        assert!(!rest || pixel == before);
    }
    // The outline of the recorded cut is there in full.
    let outline = |rgb: &[u8]| rgb.chunks(3).filter(|p| **p == [230, 0, 126]).count();
    assert_eq!(outline(&drawn.rgb), outline(&plain.rgb));
}

/// A large picture is shown smaller, and each pixel that would be taken off falls on a mark.
#[test]
fn marks_of_a_large_picture() {
    let folder = folder("large");
    let image = soft::disc(300, 2000, 12.0);
    cut(&folder, &image, &[]);
    said(&next_pass(&folder, &["a.pam"]));
    let chosen = Chosen::default();
    let off = taken_off(&image, &chosen);
    let own = image.cut_by(&chosen).unwrap();
    let drawn = preview::marked(&image, &own, &off).unwrap();
    assert_eq!((drawn.h, drawn.w), (240, 1600));
    let file = fs::read(folder.join(NEXT)).unwrap();
    assert!(file == png::rgb(&drawn.rgb, drawn.w));
    for at in (0..off.len()).filter(|&at| off[at] == 1) {
        // Five rows and columns become four.
        let (y, x) = ((at / image.w * 4 + 3) / 5, (at % image.w * 4 + 3) / 5);
        let falls = |n: usize, own: usize| n * 5 / 4 <= own && own < (n + 1) * 5 / 4;
        assert!(falls(y, at / image.w) && falls(x, at % image.w));
        assert_eq!(drawn.rgb[3 * (y * 1600 + x)..][..3], MARK);
    }
}

/// Where growth has ended nothing is marked, however many passes were asked for; no number is too
/// large.
#[test]
fn growth_has_ended() {
    let folder = folder("ended");
    for (rim, fringe) in [
        (0.0, 0),
        (0.0, 1),
        (0.0, i64::MIN),
        (12.0, 40),
        (12.0, i64::MAX - 1),
        (12.0, i64::MAX),
    ] {
        let image = soft::disc(50, 60, rim);
        let settings = passes(fringe);
        cut(&folder, &image, &words(&Chosen::from(settings)));
        let object = count(&image.cut(&settings).unwrap().mask);
        ended(&next_pass(&folder, &["a.pam"]), object);
        assert!(!folder.join(NEXT).exists());
    }
    // An older picture would show something else, and is taken away where it may be replaced.
    fs::write(folder.join(NEXT), "mine").unwrap();
    next_pass(&folder, &["a.pam"]).ended(2, "is there already; add --force");
    assert!(folder.join(NEXT).exists());
    next_pass(&folder, &["a.pam", "--force", "--quiet"]).quiet();
    assert!(!folder.join(NEXT).exists());
    fs::create_dir(folder.join(NEXT)).unwrap();
    let said = format!("{NEXT} could not be removed: ");
    next_pass(&folder, &["a.pam", "--force"]).ended(2, &said);
}

/// A cut without card has no passes.
#[test]
fn not_keyed() {
    let folder = folder("keyed");
    let disc = soft::disc(50, 60, 12.0);
    let mut clear = disc.clone();
    clear.alpha[7] = 0;
    let mut chequered = disc.clone();
    let every_other = chequered.rgb.chunks_mut(3).step_by(2);
    every_other.for_each(|pixel| pixel.fill(0));
    let bare = soft::disc(50, 60, 1e9);
    for (image, options, status, why) in [
        (&clear, &[][..], 0, "the picture was cut by its alpha"),
        (&disc, &["--no-key"], 0, "no plain card was looked for"),
        (
            &chequered,
            &[],
            3,
            "no plain card was found around an object",
        ),
        (&bare, &[], 3, "no plain card was found around an object"),
    ] {
        fs::write(folder.join("a.pam"), netpbm::pam(image)).unwrap();
        let ran = run(&folder, &[&["a.pam", "--force"], options].concat());
        assert_eq!(ran.status, status, "{}", ran.said);
        let ran = next_pass(&folder, &["a.pam"]);
        ran.ended(0, "");
        let want = format!("a.record.txt: passes play no part here, since {why}\n");
        assert_eq!(ran.out, want);
        assert_eq!(names(&folder), results_of("a", &["a.pam"]));
        next_pass(&folder, &["a.pam", "--quiet"]).quiet();
    }
}

/// The picture is found beside its record, and a restored one with the same outline will do.
#[test]
fn pictures() {
    let folder = folder("pictures");
    let mut image = soft::disc(60, 70, 12.0);
    for (alpha, end) in [(255, "picture.ppm"), (200, "picture.pam")] {
        image.alpha.fill(alpha);
        let words = ["--name", "a", "-", "--force"];
        run_on(&folder, &words, &netpbm::pam(&image)).cut(true);
        assert!(folder.join(format!("a.{end}")).is_file());
        let (number, ..) = said(&next_pass(&folder, &[]));
        assert_eq!(number, count(&taken_off(&image, &Chosen::default())));
        assert!(folder.join(NEXT).exists());
    }
    image.alpha.fill(255);
    fs::remove_file(folder.join(NEXT)).unwrap();
    // A colour in the middle of the disc is corrected: another picture, the same outline.
    image.rgb[3 * (30 * 70 + 35)] ^= 255;
    fs::write(folder.join("restored.ppm"), netpbm::ppm(&image)).unwrap();
    said(&next_pass(&folder, &["restored.ppm"]));
    // The picture comes from another program.
    let words = ["--next-pass", "a.record.txt", "-", "--force", "--quiet"];
    run_on(&folder, &words, &netpbm::ppm(&image)).quiet();
}

/// Records as they were filed long ago have their answer too.
#[test]
fn kept_records() {
    let records = Path::new(env!("CARGO_MANIFEST_DIR")).join("tests/records");
    let out = folder("kept");
    for (form, name, picture, said) in [
        ("form-1", "disc", "disc.ppm", ": growth has ended, "),
        ("form-1", "clear", "clear.pam", "was cut by its alpha"),
        ("form-1", "grey", "grey.pgm", "no plain card was found"),
        ("form-2", "disc", "disc.ppm", ": growth has ended, "),
        (
            "form-2",
            "grey",
            "grey.picture.ppm",
            "no plain card was found",
        ),
        ("form-2-colour", "disc", "disc.ppm", ": growth has ended, "),
        (
            "form-2-colour",
            "off",
            "off.picture.ppm",
            "no plain card was found",
        ),
    ] {
        let folder = records.join(form);
        let before = files(&folder);
        let record = format!("{name}.record.txt");
        let words = [
            "--next-pass",
            &record,
            picture,
            "--out",
            out.to_str().unwrap(),
        ];
        let ran = run(&folder, &words);
        ran.ended(0, "");
        assert!(ran.out.contains(said), "{form}: {}", ran.out);
        assert!(before == files(&folder));
    }
    assert!(names(&out).is_empty());
}

/// A picture with another outline, and one of another size: a sentence, and nothing is written.
#[test]
fn not_as_recorded() {
    let (folder, mut image) = disc_filed("unlike");
    let larger = soft::disc(61, 70, 12.0);
    fs::write(folder.join("larger.pam"), netpbm::pam(&larger)).unwrap();
    image.rgb[3 * (2 * 70 + 2)..][..3].fill(0);
    fs::write(folder.join("speck.pam"), netpbm::pam(&image)).unwrap();
    let before = files(&folder);
    for picture in ["larger.pam", "speck.pam"] {
        for force in [&[][..], &["--force", "--quiet"]] {
            let ran = next_pass(&folder, &[&[picture], force].concat());
            ran.ended(
                1,
                "does not have the recorded mask; stand --check says what is not",
            );
            assert!(
                ran.said.starts_with(&format!("stand: {picture}: ")),
                "{}",
                ran.said
            );
            assert_eq!((ran.said.lines().count(), &*ran.out), (1, ""));
        }
    }
    assert!(before == files(&folder));
    // A record whose settings are refused.
    let path = folder.join("a.record.txt");
    let text = fs::read_to_string(&path).unwrap();
    let text = text.replace("alpha_threshold: 128", "alpha_threshold: 256");
    fs::write(&path, text).unwrap();
    next_pass(&folder, &["a.pam"]).ended(1, "stand: a.pam: refused 6");
}

/// Whatever is wrong, the answer is one sentence, and nothing is written.
#[test]
fn nonsense() {
    let (folder, _) = disc_filed("nonsense");
    fs::write(folder.join("none.record.txt"), "mine").unwrap();
    fs::create_dir(folder.join("d.record.txt")).unwrap();
    fs::create_dir(folder.join("d.ppm")).unwrap();
    fs::write(folder.join("bad.ppm"), "P6 60 70 255\nabc").unwrap();
    fs::write(folder.join("wide.ppm"), "P6 5000 5000 255\n").unwrap();
    let before = names(&folder);
    let a = "a.record.txt";
    for (words, status, said) in [
        (&[][..], 2, "stand: give a record whose next pass"),
        (&["a.pam"], 2, "its name ends in .record.txt"),
        (
            &["missing.record.txt", "a.pam"],
            2,
            "missing.record.txt: it could not be read",
        ),
        (
            &["none.record.txt", "a.pam"],
            2,
            "none.record.txt: it is no record",
        ),
        (
            &["d.record.txt", "a.pam"],
            2,
            "d.record.txt: it could not be read",
        ),
        (
            &[a],
            2,
            "a.record.txt: its picture is not beside it; name the picture too",
        ),
        (
            &[a, "missing.ppm"],
            2,
            "missing.ppm: it could not be opened",
        ),
        (&[a, "d.ppm"], 2, "d.ppm: it is a folder"),
        (
            &[a, "bad.ppm"],
            2,
            "bad.ppm: it ends early, after 3 of the 12600",
        ),
        (&[a, "wide.ppm"], 1, "wide.ppm: refused 1"),
        (
            &[a, "a.pam", "bad.ppm"],
            2,
            "no record has the name of bad.ppm",
        ),
        (
            &[a, "a.pam", "--out", "missing"],
            2,
            "there is no folder missing; make it first",
        ),
        (
            &[a, "a.pam", "--out", "a.pam"],
            2,
            "there is no folder a.pam; make it first",
        ),
        (
            &[a, "a.pam", "--out", "/proc"],
            2,
            "; --out FOLDER writes it elsewhere",
        ),
        (&[a, "a.pam", "--out"], 2, "--out needs a value"),
        (
            &[a, "a.pam", "--check"],
            2,
            "--next-pass at one more pass: give one",
        ),
        (
            &[a, "a.pam", "--fringe", "3"],
            2,
            "--fringe means nothing beside --next-pass",
        ),
        (
            &[a, "a.pam", "--fringe=x"],
            2,
            "--fringe takes a whole number",
        ),
        (
            &[a, "a.pam", "--tolerance=0.1"],
            2,
            "--tolerance means nothing",
        ),
        (
            &[a, "a.pam", "--card-colour", "ffffff"],
            2,
            "--card-colour means nothing",
        ),
        (&[a, "a.pam", "--name", "b"], 2, "--name means nothing"),
        (&[a, "a.pam", "--jobs", "2"], 2, "--jobs means nothing"),
        (
            &[a, "a.pam", "--keep-going"],
            2,
            "--keep-going means nothing",
        ),
        (
            &[a, "a.pam", "--small-weights"],
            2,
            "--small-weights means nothing",
        ),
        (
            &[a, "a.pam", "--sheet", "."],
            2,
            "--next-pass means nothing beside --sheet",
        ),
        (&[a, a, "a.pam"], 2, "pictures of one name"),
    ] {
        let ran = run(&folder, &[&["--next-pass"], words].concat());
        ran.ended(status, said);
        assert_eq!(
            (ran.said.lines().count(), &*ran.out),
            (1, ""),
            "{}",
            ran.said
        );
    }
    assert_eq!(names(&folder), before);
}

/// The picture itself is never written to, whatever its name.
#[test]
fn the_picture_has_its_name() {
    let (folder, image) = disc_filed("own");
    let picture = netpbm::pam(&image);
    fs::write(folder.join(NEXT), &picture).unwrap();
    let ran = next_pass(&folder, &[NEXT, "--force"]);
    ran.ended(
        2,
        "a result would take the picture's place; choose another --out",
    );
    assert_eq!(fs::read(folder.join(NEXT)).unwrap(), picture);
}

/// A failure leaves nothing half written, and the picture of before.
#[test]
fn nothing_half_written() {
    let (folder, _) = disc_filed("half");
    let limited = |blocks: u32, words: &str| {
        let script = format!(
            "trap '' XFSZ; ulimit -f {blocks}; exec \"$0\" --next-pass a.record.txt a.pam {words}"
        );
        let mut shell = Command::new("sh");
        shell.current_dir(&folder);
        shell
            .args(["-c", &script, env!("CARGO_BIN_EXE_stand")])
            .output()
    };
    let before = files(&folder);
    for blocks in [0, 1, 4] {
        match limited(blocks, "") {
            Ok(output) => Ran::new(output).ended(2, "could not be written"),
            Err(why) => return skipped(format!("there is no sh to limit a file's size: {why}")),
        }
        assert!(before == files(&folder), "{blocks} blocks");
    }
    fs::write(folder.join(NEXT), "mine").unwrap();
    let before = files(&folder);
    Ran::new(limited(1, "--force").unwrap()).ended(2, "could not be written");
    assert!(before == files(&folder));
    fs::remove_file(folder.join(NEXT)).unwrap();
    fs::create_dir(folder.join(NEXT)).unwrap();
    next_pass(&folder, &["a.pam", "--force"])
        .ended(2, "could not be written: a folder has its name");
    assert!(fs::read_dir(folder.join(NEXT)).unwrap().next().is_none());
}

/// Several records: each has its sentence, and the worst of them counts.
#[test]
fn several() {
    let folder = folder("several");
    let [soft, hard] = [12.0, 0.0].map(|rim| netpbm::pam(&soft::disc(60, 70, rim)));
    for (name, picture) in [("a", &soft), ("b", &hard), ("c", &soft), ("d", &soft)] {
        fs::write(folder.join(format!("{name}.pam")), picture).unwrap();
    }
    let pictures = ["a.pam", "b.pam", "c.pam", "d.pam"];
    run(&folder, &[&["--quiet"], &pictures[..]].concat()).quiet();
    fs::write(folder.join("c.pam"), &hard).unwrap();
    let records = pictures.map(|picture| picture.replace("pam", "record.txt"));
    let all = |count: usize, more: &[&str]| {
        let own = records[..count].iter().map(String::as_str);
        let words: Vec<&str> = own.chain(pictures[..count].iter().copied()).collect();
        run(
            &folder,
            &[&["--next-pass", "--force"], &words[..], more].concat(),
        )
    };
    let ran = all(2, &[]);
    ran.ended(0, "");
    let lines: Vec<&str> = ran.out.lines().collect();
    assert!(lines[0].starts_with("a.record.txt: one more pass would take "));
    assert!(lines[1].starts_with("b.record.txt: one more pass would take none of "));
    assert_eq!(lines.len(), 2);
    fs::remove_file(folder.join(NEXT)).unwrap();
    let ran = all(4, &[]);
    assert_eq!((ran.status, ran.out.lines().count()), (1, 3));
    assert!(
        ran.said.starts_with("stand: c.pam: cut by the recorded"),
        "{}",
        ran.said
    );
    assert_eq!(ran.said.lines().count(), 1);
    let next = |name: &String| name.ends_with("next-pass.png");
    let shown: Vec<String> = names(&folder).into_iter().filter(next).collect();
    assert_eq!(shown, [NEXT, "d.next-pass.png"]);
    fs::write(folder.join("b.record.txt"), "mine").unwrap();
    let ran = all(4, &["--quiet"]);
    assert_eq!(
        (ran.status, &*ran.out, ran.said.lines().count()),
        (2, "", 2)
    );
}

/// Beside later cuts: such a picture is one of the results, and no picture to be cut.
#[test]
fn beside_later_cuts() {
    let (folder, image) = disc_filed("later");
    said(&next_pass(&folder, &["a.pam"]));
    // A check knows nothing of it.
    run(&folder, &["--check", "a.record.txt", "a.pam", "--quiet"]).quiet();
    // It is left out, beside its record and in another folder.
    let out = folder.join("out");
    fs::create_dir(&out).unwrap();
    next_pass(&folder, &["a.pam", "--out", "out", "--quiet"]).quiet();
    for folder in [&folder, &out] {
        let before = names(folder);
        let ran = run(folder, &[NEXT]);
        ran.ended(0, "");
        assert!(
            ran.out.contains("left out, since it is a result"),
            "{}",
            ran.out
        );
        assert_eq!(names(folder), before);
    }
    // The contact sheet leads to it.
    run(&folder, &["--sheet", "."]).ended(0, "");
    let page = fs::read_to_string(folder.join("index.html")).unwrap();
    assert!(page.contains(&format!("<a href=\"./{NEXT}\">next-pass.png</a>")));
    // Results that are kept keep it; without --force it is not replaced, and with it it goes.
    let own = fs::read(folder.join(NEXT)).unwrap();
    run(&folder, &["a.pam", "--keep-going"]).ended(0, "");
    run(&folder, &["a.pam"]).ended(2, "is there already; add --force");
    run(&folder, &["a.pam", "--force", "--alpha-threshold=999"]).ended(1, "refused 6");
    assert_eq!(fs::read(folder.join(NEXT)).unwrap(), own);
    run(&folder, &["a.pam", "--force", "--fringe=2"]).ended(0, "");
    assert!(!folder.join(NEXT).exists());
    filed(&folder, "a", &image, &passes(2), &netpbm::pam(&image));
    let ran = run(&folder, &["a.pam", "--out", "out"]);
    ran.ended(
        2,
        "a.next-pass.png is there already; add --force, or choose another --name",
    );
}
