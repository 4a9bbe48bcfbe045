//! The program `stand` as it is run on one picture: its results against `stand::cut`, the forms that
//! it reads, its refusals, and what it says of nonsense.

#[path = "../examples/pictures/draw.rs"]
#[allow(dead_code)]
mod draw;
#[path = "../support/masks.rs"]
mod masks;
#[path = "../support/running.rs"]
mod running;

use masks::Random;
use running::*;
use stand::netpbm::{self, Image};
use stand::{CardColour, Chosen, Settings};
use std::ffi::OsStr;
use std::fs;
use std::io::Write;
use std::process::Stdio;
use std::time::Instant;

#[test]
fn example_pictures() {
    let folder = folder("examples");
    let usual = Settings::default();
    let many = [
        usual,
        Settings {
            key_bg_fringe: 5,
            key_bg_tolerance: 0.1,
            ..usual
        },
        Settings {
            key_bg_fringe: -1,
            crop_to_alpha: false,
            ..usual
        },
        Settings {
            alpha_threshold: -4,
            key_bg: false,
            key_bg_tolerance: -0.0,
            ..usual
        },
    ];
    for drawn in draw::all() {
        let (name, image) = (drawn.name, &drawn.image);
        let picture = netpbm::pam(image);
        let path = format!("{name}.pam");
        fs::write(folder.join(&path), &picture).unwrap();
        for (at, settings) in many.iter().enumerate() {
            let own = format!("{name}-{at}");
            let mut words = words(&Chosen::from(*settings));
            words.extend([path.clone(), "--name".into(), own.clone()]);
            let ran = run(&folder, &words);
            if name == "blank" && settings.alpha_threshold > 0 {
                ran.ended(1, "stand: blank.pam: refused 6: no pixel's alpha");
                assert!(!names(&folder).iter().any(|file| file.starts_with(&own)));
                continue;
            }
            let record = filed(&folder, &own, image, settings, &picture);
            assert_eq!(record.keyed, name != "partial" && settings.key_bg);
            ran.cut(record.keyed || !settings.key_bg);
            assert!(ran.out.contains(&format!("{own}.preview.png")));
        }
    }
}

/// A random picture: card of this grey with spots on it.
fn random_image(random: &mut Random, card: u8) -> Image {
    let (h, w) = (1 + random.below(20), 1 + random.below(20));
    let mut rgb = vec![card; 3 * h * w];
    for (pixel, on) in rgb.chunks_mut(3).zip(random.mask(h * w, 100)) {
        if on == 1 {
            pixel.fill_with(|| random.below(256) as u8);
        }
    }
    let mut alpha = vec![255; h * w];
    if random.below(3) == 0 {
        alpha.fill_with(|| random.below(256) as u8);
    }
    Image { h, w, rgb, alpha }
}

#[test]
fn random_pictures() {
    let folder = folder("random");
    let mut random = Random(2);
    let (mut keyed, mut unfound, mut refused) = (0, 0, 0);
    for at in 0..120 {
        let card = random.below(256) as u8;
        let image = random_image(&mut random, card);
        let settings = Settings {
            alpha_threshold: random.below(300) as i64 - 20,
            key_bg: random.below(8) > 0,
            key_bg_fringe: random.below(4) as i64 - 1,
            key_bg_tolerance: random.below(1000) as f64 / 3000.0,
            crop_to_alpha: random.below(4) > 0,
        };
        // Half of them with a colour: the card's or one near it.
        let colour = || [0; 3].map(|_: u8| card.saturating_add(random.below(30) as u8));
        let chosen = Chosen {
            settings,
            card_colour: (at % 2 == 1).then(colour).map(CardColour::from),
        };
        let picture = netpbm::pam(&image);
        let mut words = words(&chosen);
        words.extend(["--force", "--name", "r", "-"].map(String::from));
        let ran = run_on(&folder, &words, &picture);
        match image.cut_by(&chosen) {
            Ok(own) => {
                let full = own.mask.iter().all(|&m| m == 1);
                ran.cut(own.keyed || !full || !settings.key_bg);
                filed_by(&folder, "r", &image, &chosen, &picture);
                keyed += usize::from(own.keyed);
                unfound += usize::from(ran.status == 3);
            }
            Err(why) => {
                ran.ended(1, &why.to_string());
                refused += 1;
            }
        }
    }
    assert!(
        keyed >= 10 && unfound >= 10 && refused >= 4,
        "{keyed} keyed, {unfound} without card, {refused} refused"
    );
}

/// One picture in all forms that are read, from a file and from standard input.
#[test]
fn forms() {
    let folder = folder("forms");
    let mut image = draw::badge();
    let settings = Settings::default();
    let Image { h, w, .. } = image;
    let digits: Vec<String> = image.rgb.iter().map(u8::to_string).collect();
    let rgb =
        format!("P7\nTUPLTYPE RGB\n# x\n\nDEPTH 3\nMAXVAL 255\nHEIGHT {h}\nWIDTH {w}\nENDHDR\n");
    let forms = [
        netpbm::pam(&image),
        [rgb.as_bytes(), &image.rgb].concat(),
        [format!("P6\n# x\n{w} {h} 255\n").as_bytes(), &image.rgb].concat(),
        format!("P3 {w} {h} 255\n{}\n", digits.join("\n")).into_bytes(),
    ];
    for (at, picture) in forms.iter().enumerate() {
        fs::write(folder.join(format!("{at}.pam")), picture).unwrap();
        run(&folder, &[format!("{at}.pam")]).ended(0, "");
        filed(&folder, &at.to_string(), &image, &settings, picture);
        let name = format!("--name=from{at}");
        run_on(&folder, &[&name, "-"], picture).ended(0, "");
        filed(&folder, &format!("from{at}"), &image, &settings, picture);
        assert!(folder.join(format!("from{at}.picture.ppm")).is_file());
    }
    let grey: Vec<u8> = image.rgb.chunks(3).map(|p| p[0]).collect();
    image.rgb = grey.iter().flat_map(|&v| [v; 3]).collect();
    let picture = netpbm::pgm(&grey, w);
    run_on(&folder, &["--name=grey", "-"], &picture).ended(0, "");
    filed(&folder, "grey", &image, &settings, &picture);
}

/// The card's colour in either case gives one record, which has its line; one that the card has not
/// finds none, though the edge is plain.
#[test]
fn card_colour() {
    let folder = folder("colour");
    let image = draw::badge();
    let picture = netpbm::pam(&image);
    fs::write(folder.join("a.pam"), &picture).unwrap();
    let mut records = Vec::new();
    for (name, colour) in [
        ("small", "e9e7e1"),
        ("large", "E9E7E1"),
        ("mixed", "E9e7e1"),
    ] {
        let words = ["a.pam", "--name", name, "--card-colour", colour];
        run(&folder, &words).cut(true);
        let chosen = Chosen {
            card_colour: Some(CardColour::new(colour)),
            ..Chosen::default()
        };
        let record = filed_by(&folder, name, &image, &chosen, &picture);
        assert!(record.keyed);
        records.push(fs::read_to_string(folder.join(format!("{name}.record.txt"))).unwrap());
    }
    assert!(records.iter().all(|record| *record == records[0]));
    assert!(records[0].contains("\ncrop_to_alpha: yes\ncard_colour: e9e7e1\nkeyed: yes\n"));

    let ran = run(&folder, &["a.pam", "--card-colour=000000", "--no-crop"]);
    assert_eq!(ran.status, 3, "{}", ran.said);
    let advice = "\n  advice: the picture's edge has the colour ";
    assert!(ran.out.contains(advice), "{}", ran.out);
    assert!(ran
        .out
        .contains(", and not the given 000000; use --card-colour "));
    let text = fs::read_to_string(folder.join("a.record.txt")).unwrap();
    assert!(text.contains("\ncrop_to_alpha: no\ncard_colour: 000000\nkeyed: no\n"));
    // Without the option there is no such line.
    run(&folder, &["a.pam", "--force"]).cut(true);
    let text = fs::read_to_string(folder.join("a.record.txt")).unwrap();
    assert!(
        text.contains("\ncrop_to_alpha: yes\nkeyed: yes\n"),
        "{text}"
    );
}

/// A picture of the largest sides, with what it took.
#[test]
fn largest() {
    let folder = folder("largest");
    let side = 4096;
    let pixel = |i: usize| {
        let (y, x) = ((i / side) as i64 - 2048, (i % side) as i64 - 2048);
        let object = y * y + x * x < 1900 * 1900;
        let grain = (i * 7 % 5) as u8;
        if object {
            [30 + grain, 60, 140]
        } else {
            [230 + grain, 231, 225]
        }
    };
    let image = Image {
        h: side,
        w: side,
        rgb: (0..side * side).flat_map(pixel).collect(),
        alpha: vec![255; side * side],
    };
    let picture = [format!("P6 {side} {side} 255\n").as_bytes(), &image.rgb].concat();
    fs::write(folder.join("large.ppm"), &picture).unwrap();
    let start = Instant::now();
    let ran = run(&folder, &["large.ppm"]);
    let took = start.elapsed().as_secs_f64();
    assert_eq!(ran.status, 0, "{}", ran.said);
    assert!(
        ran.said.contains("cutting large.ppm (4096 by 4096)"),
        "{}",
        ran.said
    );
    let record = filed(&folder, "large", &image, &Settings::default(), &picture);
    assert!(record.keyed);
    let line = format!("program: a picture of 4096 by 4096 took {took:.1} s\n");
    std::io::stderr().write_all(line.as_bytes()).unwrap();
    assert!(took < 60.0, "{took} s");
    fs::remove_dir_all(&folder).unwrap();
}

#[test]
fn refusals() {
    let folder = folder("refusals");
    for (w, h) in [
        ("0", "1"),
        ("1", "0"),
        ("4097", "1"),
        ("1", "4097"),
        ("65536", "65536"),
    ] {
        let header = format!("P6 {w} {h} 255\n");
        run_on(&folder, &["--name=a", "-"], header.as_bytes()).ended(1, "refused 1: a side");
    }
    let huge = "9".repeat(1000);
    let header = format!(
        "P7\nWIDTH {huge}\nHEIGHT {huge}\nDEPTH 4\nMAXVAL 255\nTUPLTYPE RGB_ALPHA\nENDHDR\n"
    );
    run_on(&folder, &["--name=a", "-"], header.as_bytes()).ended(1, "refused 1: a side");

    let opaque = b"P6 2 1 255\nabcdef";
    for tolerance in ["inf", "-inf", "NaN", "1e400", "-infinity"] {
        let words = [
            "--tolerance",
            tolerance,
            "--no-key",
            "--alpha-threshold=256",
            "--name=a",
            "-",
        ];
        run_on(&folder, &words, opaque).ended(1, "refused 5: the tolerance");
    }
    let words = ["--alpha-threshold", "256", "--name=a", "-"];
    run_on(&folder, &words, opaque).ended(1, "refused 6: no pixel's alpha");
    // What is no colour is refused before all that, and where no card is sought.
    for colour in [
        "",
        "F4F1E",
        "F4F1E80",
        "#F4F1E8",
        "F4 F1E8",
        "white",
        "F4F1E\u{30a}",
    ] {
        let words = ["--no-key", "--tolerance=inf", "--alpha-threshold=256"];
        for more in [&[][..], &words] {
            let words = [&["--card-colour", colour, "--name=a", "-"], more].concat();
            run_on(&folder, &words, opaque).ended(1, "refused 11: the card's colour is not six");
        }
    }
    assert!(names(&folder).is_empty());
    // A side is refused before a byte of the pixels is read, so nothing needs to follow the header.
    fs::write(folder.join("b.ppm"), "P6 5000 5000 255\n").unwrap();
    let ran = run(&folder, &["b.ppm"]);
    ran.ended(1, "stand: b.ppm: refused 1");
    ran.ended(1, "this one has 5000 rows and 5000 columns");
    assert_eq!(names(&folder), ["b.ppm"]);
}

/// Whatever the input is, the answer is a sentence, and nothing is written.
#[test]
fn nonsense() {
    let folder = folder("nonsense");
    let mut random = Random(1);
    let words = ["--name", "n", "-"];
    for at in 0..150 {
        let mut bytes: Vec<u8> = (0..random.below(300))
            .map(|_| random.below(256) as u8)
            .collect();
        let starts: [&[u8]; 6] = [
            b"",
            b"P7\n",
            b"P6",
            b"P5 ",
            b"P3 3 3 255\n",
            b"P6 3 3 255\n",
        ];
        bytes.splice(0..0, starts[at % 6].iter().copied());
        run_on(&folder, &words, &bytes).ended(2, "stand: -: it");
    }
    run_on(&folder, &words, b"\x89PNG\r\n\x1a\n").ended(2, "pngtopam");
    run_on(&folder, &words, b"\xff\xd8\xff").ended(2, "jpegtopnm");
    assert!(names(&folder).is_empty());
}

/// A picture that is cut short, or has one thing wrong in its header.
#[test]
fn nearly_right() {
    let folder = folder("nearly");
    let words = ["--name", "n", "-"];
    let image = Image {
        h: 1,
        w: 2,
        rgb: vec![9; 6],
        alpha: vec![255; 2],
    };
    let whole = netpbm::pam(&image);
    for end in 0..whole.len() {
        run_on(&folder, &words, &whole[..end]).ended(2, "stand: -: it");
    }
    run_on(&folder, &words, &[&whole[..], b"\n"].concat()).ended(2, "it goes on after");
    let text = String::from_utf8(whole[..whole.len() - 8].to_vec()).unwrap();
    for (old, new, said) in [
        ("RGB_ALPHA", "CMYK_ALPHA", "TUPLTYPE"),
        ("RGB_ALPHA", "RGB", "DEPTH is 4"),
        ("DEPTH 4", "DEPTH 3", "DEPTH is 3"),
        ("MAXVAL 255", "MAXVAL 65535", "pamdepth 255"),
        ("WIDTH 2", "WIDTH -2", "no number"),
        ("WIDTH 2", "WIDTH 2\nWIDTH 2", "two WIDTH"),
        ("HEIGHT 1\n", "", "lacks"),
        ("WIDTH 2", "WIDTH 3", "after 8 of the 12"),
    ] {
        let picture = text.replace(old, new) + "\t\t\t\t\t\t\t\t";
        run_on(&folder, &words, picture.as_bytes()).ended(2, said);
    }
    assert!(names(&folder).is_empty());
}

/// Files that are not there or are no files, and words that are not understood.
#[test]
fn wrong_files_and_words() {
    let folder = folder("wrong");
    fs::write(folder.join("a.ppm"), b"P6 1 1 255\nabc").unwrap();
    fs::create_dir(folder.join("d.ppm")).unwrap();
    for (words, said) in [
        (&["missing.ppm"][..], "could not be opened"),
        (&["d.ppm"], "it is a folder"),
        (&["a.ppm/b.ppm"], "there is no folder a.ppm"),
        (&["a.ppm", "--out", "missing"], "there is no folder missing"),
        (&["a.ppm", "--out", "a.ppm"], "there is no folder a.ppm"),
        (
            &["a.ppm", "--name", &"n".repeat(260)],
            "could not be written",
        ),
        (&["a.ppm", "--tolerance", "0,03125"], "takes a number"),
        (&["a.ppm", "--card-colour"], "--card-colour needs a value"),
        (
            &["a.ppm", "--fringe", "99999999999999999999"],
            "whole number",
        ),
        (&["a.ppm", "a.ppm"], "results of one name"),
        (&["--frobnicate"], "no option --frobnicate"),
        (&[], "give a picture"),
    ] {
        run(&folder, words).ended(2, said);
    }
    assert_eq!(names(&folder), ["a.ppm", "d.ppm"]);
    let help = run(&folder, &["--help"]);
    help.ended(0, "");
    assert!(help.out.lines().all(|line| line.len() <= 80));
    run(&folder, &["--version"]).ended(0, "");
    run(&folder, &["--quiet", "--no-key", "a.ppm", "--name=q"]).quiet();
    // One wrong picture does not keep the others from being cut.
    let ran = run(&folder, &["missing.ppm", "a.ppm"]);
    assert_eq!(ran.status, 2);
    assert_eq!(names(&folder).len(), 2 * 8 + 2);
}

/// Names with blanks, dashes, newlines and bytes that are no text; several pictures at once.
#[test]
fn odd_names() {
    let folder = folder("odd");
    let picture = b"P6 1 1 255\nabc";
    for name in ["a b", "-c", "d\ne", "f.g.h", "ü"] {
        fs::write(folder.join(format!("{name}.ppm")), picture).unwrap();
    }
    run(
        &folder,
        &[
            "--no-key",
            "a b.ppm",
            "ü.ppm",
            "--",
            "-c.ppm",
            "d\ne.ppm",
            "f.g.h.ppm",
        ],
    )
    .ended(0, "");
    assert_eq!(names(&folder).len(), 9 * 5);
    assert!(names(&folder).contains(&"f.g.h.record.txt".into()));
    run(&folder, &["\u{1b}[31m\n"]).ended(2, "stand: ?[31m?: it could not be opened");
    #[cfg(unix)]
    {
        use std::os::unix::ffi::OsStrExt;
        let out = OsStr::from_bytes(b"out\xff");
        let name = OsStr::from_bytes(b"\xfe\xff.ppm");
        fs::write(folder.join(name), picture).unwrap();
        fs::create_dir(folder.join(out)).unwrap();
        let words = [OsStr::new("--no-key"), OsStr::new("--out"), out, name];
        run(&folder, &words).ended(0, "");
        let record = folder
            .join(out)
            .join(OsStr::from_bytes(b"\xfe\xff.record.txt"));
        let ran = run(&folder, &[OsStr::new("--check"), record.as_os_str(), name]);
        ran.ended(0, "");
    }
}

/// Standard output is closed or full: no panic, and the results are there.
#[test]
#[cfg(unix)]
fn closed_output() {
    let folder = folder("closed");
    fs::write(folder.join("a.ppm"), b"P6 1 1 255\nabc").unwrap();
    let mut command = program(&folder, &["--no-key", "a.ppm"]);
    command.stdout(Stdio::piped()).stderr(Stdio::piped());
    let mut child = command.spawn().unwrap();
    drop(child.stdout.take());
    Ran::new(child.wait_with_output().unwrap()).quiet();
    assert_eq!(names(&folder), results_of("a", &["a.ppm"]));
    if let Ok(full) = fs::OpenOptions::new().write(true).open("/dev/full") {
        let mut command = program(&folder, &["a.ppm", "--force"]);
        command.stdout(full.try_clone().unwrap());
        Ran::new(command.output().unwrap()).ended(2, "standard output could not be written");
        let mut command = program(&folder, &["missing.ppm"]);
        command.stderr(full);
        assert_eq!(command.output().unwrap().status.code(), Some(2));
    }
}
