//! `examples/derive.py`, which shares no code with the library: it comes to the library's outlines, it
//! compares the files beside a record, it reads every picture that the program reads, and where a
//! file is not what it should be it ends with a sentence. The records are written here, in both
//! forms, with the card's colour and without. All is left out, with a message, where there is no
//! python3.

#[path = "../examples/pictures/draw.rs"]
#[allow(dead_code)]
mod draw;
#[path = "../support/masks.rs"]
mod masks;
#[path = "../support/pictures.rs"]
mod pictures;

use masks::Random;
use stand::netpbm::{self, Image};
use stand::{sha256, CardColour, Chosen, Settings};
use std::ffi::OsStr;
use std::fmt::Write as _;
use std::fs;
use std::io::Write as _;
use std::path::{Path, PathBuf};
use std::process::{Command, Stdio};
use std::sync::LazyLock;
use std::time::Instant;

/// A new folder for a test.
fn folder(name: &str) -> PathBuf {
    let folder = Path::new(env!("CARGO_TARGET_TMPDIR"))
        .join("derive")
        .join(name);
    let _ = fs::remove_dir_all(&folder);
    fs::create_dir_all(&folder).expect("a folder for the test");
    folder
}

fn examples() -> PathBuf {
    Path::new(env!("CARGO_MANIFEST_DIR")).with_file_name("examples")
}

fn python() -> Command {
    let mut python = Command::new("python3");
    // Without -B it would leave files beside the script.
    python.arg("-B").stdin(Stdio::null());
    python
}

/// Whether there is no python3 that the script runs with; says so then.
fn without_python() -> bool {
    let script = "import sys; sys.exit(sys.version_info < (3, 7))";
    let output = python().args(["-c", script]).output();
    let there = output.is_ok_and(|output| output.status.success());
    if !there {
        let line = b"skipped: there is no python3, of 3.7 or later, to derive an outline\n";
        std::io::stderr().write_all(line).unwrap();
    }
    !there
}

/// How the script ended, what it wrote and what it said.
struct Ran {
    status: i32,
    out: String,
    said: String,
}

impl Ran {
    fn new(mut command: Command) -> Ran {
        let output = command.output().expect("python3");
        let text = |bytes| String::from_utf8_lossy(bytes).into_owned();
        let ran = Ran {
            status: output.status.code().expect("an exit status"),
            out: text(&output.stdout),
            said: text(&output.stderr),
        };
        assert!(!ran.said.contains("Traceback"), "{}", ran.said);
        ran
    }

    /// It ended with one sentence, which starts so and has this in it.
    fn declined(&self, start: &str, part: &str) {
        let said = &self.said;
        assert!(said.ends_with('\n') && said.lines().count() == 1, "{said}");
        assert!(said.starts_with(start), "`{start}` does not start {said}");
        assert!(said.contains(part), "`{part}` is not in {said}");
        assert_eq!((self.status, &*self.out), (2, ""), "{said}");
    }

    /// It ended with this status and wrote these lines among others.
    fn wrote(&self, status: i32, lines: &[&str]) {
        assert_eq!(self.status, status, "{}{}", self.out, self.said);
        for line in lines {
            let there = self.out.lines().any(|own| own == *line);
            assert!(there, "`{line}` is not in\n{}", self.out);
        }
    }

    /// Everything was as filed.
    fn well(&self, of: &str) {
        let well = self.status == 0 && self.said.is_empty() && !self.out.contains("NOT");
        assert!(well, "{of}:\n{}{}", self.out, self.said);
        assert!(self.out.contains("mask_sha256: as filed\n"), "{}", self.out);
    }
}

/// Runs the script in a folder.
fn derive(folder: &Path, words: &[impl AsRef<OsStr>]) -> Ran {
    let mut python = python();
    python.current_dir(folder);
    python.arg(examples().join("derive.py")).args(words);
    Ran::new(python)
}

/// Runs a few lines of Python that import from the script.
fn run(folder: &Path, lines: &str) -> Ran {
    let mut python = python();
    python.current_dir(folder);
    python.env("PYTHONPATH", examples());
    python.args(["-c", lines]);
    Ran::new(python)
}

/// Calls the script for each line of a list `calls`, whose words have tabs between them, and writes
/// status, standard output and standard error with marks between them.
const EACH: &str = r#"
import derive, io, sys
for line in open("calls"):
    kept = sys.stdout, sys.stderr
    sys.stdout, sys.stderr = (io.TextIOWrapper(io.BytesIO()) for _ in kept)
    status = derive.main(line.rstrip("\n").split("\t"))
    texts = []
    for stream in sys.stdout, sys.stderr:
        stream.seek(0)
        texts.append(stream.read())
    sys.stdout, sys.stderr = kept
    print(status, *texts, sep="\x1e", end="\x1f")
"#;

/// What the script says of each of several calls, all in one process.
fn derive_each(folder: &Path, calls: &[String]) -> Vec<Ran> {
    fs::write(folder.join("calls"), calls.join("\n")).unwrap();
    let all = run(folder, EACH);
    assert_eq!(all.status, 0, "{}", all.said);
    let ran = |text: &str| {
        let mut parts = text.split('\x1e').map(String::from);
        let mut next = || parts.next().expect("status, output and error");
        Ran {
            status: next().parse().expect("a status"),
            out: next(),
            said: next(),
        }
    };
    let each: Vec<Ran> = all.out.split_terminator('\x1f').map(ran).collect();
    assert_eq!(each.len(), calls.len());
    each
}

/// Which form of record to write.
#[derive(Clone, Copy, PartialEq)]
enum Form {
    One,
    Two,
    /// The second form of a picture that was decoded from these bytes.
    Decoded(&'static [u8]),
}

/// What was chosen as lines of a record; the card's colour has one where it was given.
fn setting_lines(chosen: &Chosen) -> String {
    let yes = |yes| if yes { "yes" } else { "no" };
    let settings = &chosen.settings;
    let tolerance = settings.key_bg_tolerance;
    let colour = chosen.card_colour.as_ref();
    format!(
        "alpha_threshold: {}\nkey_bg: {}\nkey_bg_fringe: {}\nkey_bg_tolerance: {tolerance}\n\
         key_bg_tolerance_bits: {:016x}\ncrop_to_alpha: {}\n{}",
        settings.alpha_threshold,
        yes(settings.key_bg),
        settings.key_bg_fringe,
        tolerance.to_bits(),
        yes(settings.crop_to_alpha),
        colour.map_or(String::new(), |colour| format!("card_colour: {colour}\n"))
    )
}

/// Cuts a picture, and files it under a name: NAME.pam, mask, weights and record. False where the
/// picture is refused.
fn file(folder: &Path, name: &str, picture: &[u8], settings: &Settings, form: Form) -> bool {
    file_by(folder, name, picture, &Chosen::from(*settings), form)
}

/// The same with the card's colour where it is given, which a record of the first form has not.
fn file_by(folder: &Path, name: &str, picture: &[u8], chosen: &Chosen, form: Form) -> bool {
    let (image, _) = netpbm::read(picture).expect("a picture");
    let Ok(cut) = image.cut_by(chosen) else {
        return false;
    };
    let write = |end: &str, bytes: &[u8]| {
        fs::write(folder.join(format!("{name}.{end}")), bytes).unwrap();
        sha256::of(bytes)
    };
    let weights: Vec<u8> = cut.weights.iter().flat_map(|x| x.to_le_bytes()).collect();
    let on = |(&mask, &alpha): (&u8, &u8)| mask * alpha.max(1);
    let seen: Vec<u8> = cut.mask.iter().zip(&image.alpha).map(on).collect();
    let first = if form == Form::One { 1 } else { 2 };
    let (h, w, settings) = (image.h, image.w, setting_lines(chosen));
    let mut text = format!("stand record {first}\nrows: {h}\ncolumns: {w}\n{settings}");
    let keyed = if cut.keyed { "yes" } else { "no" };
    let (rows, cols) = (cut.crop.rows, cut.crop.cols);
    let (y0, y1, x0, x1) = (rows.start, rows.end, cols.start, cols.end);
    write!(text, "keyed: {keyed}\ncrop: {y0} {y1} {x0} {x1}\n").unwrap();
    let mut sum = |key: &str, sum: String| writeln!(text, "{key}_sha256: {sum}").unwrap();
    sum("picture", write("pam", picture));
    if let Form::Decoded(original) = form {
        sum("original", sha256::of(original));
    }
    sum("mask", write("mask.pbm", &netpbm::pbm(&cut.mask, w)));
    sum("weights", write("weights.f64", &weights));
    let seen = write("weights.pgm", &netpbm::pgm(&seen, w));
    if form != Form::One {
        sum("weights_pgm", seen);
    }
    write("record.txt", text.as_bytes());
    true
}

/// The script's words for what is filed under a name.
fn call(name: &str) -> String {
    format!("{name}.record.txt\t{name}.pam")
}

/// Colours from 0 to 1 as bytes.
fn image(colours: &[f64], alpha: &[u8], h: usize, w: usize) -> Image {
    Image {
        h,
        w,
        rgb: colours.iter().map(|c| (c * 255.0).round() as u8).collect(),
        alpha: alpha.to_vec(),
    }
}

/// A picture of greys.
fn grey(h: usize, w: usize, values: impl Iterator<Item = u8>) -> Image {
    let rgb: Vec<u8> = values.take(h * w).flat_map(|v| [v; 3]).collect();
    let alpha = vec![255; h * w];
    Image { h, w, rgb, alpha }
}

/// Specks on card, and blocks, some in a crowd and some far away; whether a speck joins the
/// background depends on which block is the nearest.
fn specks_and_blocks(random: &mut Random) -> Image {
    let (h, w) = (20 + random.below(50), 20 + random.below(50));
    let mut values = vec![255; h * w];
    for _ in 0..h * w / 40 {
        values[(1 + random.below(h - 2)) * w + 1 + random.below(w - 2)] = 240;
    }
    let most = [4, h * w / 40][random.below(2)];
    for _ in 0..2 + random.below(most) {
        let (y, x) = (1 + random.below(h - 4), 1 + random.below(w - 4));
        let colour = [100, 230][random.below(2)];
        for at in 0..9 {
            values[(y + at / 3) * w + x + at % 3] = colour;
        }
    }
    grey(h, w, values.into_iter())
}

/// A column whose ends are not card: most of its border list stands there twice.
fn column() -> Image {
    let ends = |y| if y % 11 == 0 { 0 } else { 255 };
    grey(12, 1, (0..12).map(ends))
}

/// Two greys in turn and one other pixel, with the least tolerance at which both greys are close to the
/// reference; those for which another rounding of the reference would leave one of them out.
fn two_greys() -> Vec<(Image, Settings)> {
    let of = |v: u8| f64::from(v) / 255.0;
    let mut found = Vec::new();
    for (a, more) in (0..240).flat_map(|a| (1..8).map(move |more| (a, more))) {
        let b = a + more;
        let farthest = |reference: f64| (of(a) - reference).abs().max((of(b) - reference).abs());
        let key_bg_tolerance = farthest((of(a) + of(b)) / 2.0);
        if farthest((f64::from(a) + f64::from(b)) / 510.0) > key_bg_tolerance {
            let colour = |i: usize| if i == 14 { 255 - a } else { [a, b][i % 2] };
            let settings = Settings {
                key_bg_tolerance,
                ..Settings::default()
            };
            found.push((grey(5, 6, (0..30).map(colour)), settings));
        }
    }
    found
}

/// Pictures of many kinds, with settings.
fn many() -> Vec<(Image, Settings)> {
    let mut random = Random(3);
    let usual = Settings::default();
    let drawn = draw::all().into_iter().map(|drawn| (drawn.image, usual));
    let mut many: Vec<(Image, Settings)> = drawn.chain(two_greys()).collect();
    many.push((column(), usual));
    for _ in 0..300 {
        let (h, w) = pictures::sides(&mut random, 32);
        let drawn = pictures::draw(&mut random, h, w);
        many.push((image(&drawn.colours, &drawn.alpha, h, w), drawn.settings));
    }
    for at in 0..80 {
        let key_bg_fringe = 1 + at % 3;
        let settings = Settings {
            key_bg_fringe,
            ..usual
        };
        many.push((specks_and_blocks(&mut random), settings));
    }
    let (h, w) = (150, 170);
    for colours in [
        pictures::badge(&mut random, h, w, true),
        pictures::noise(&mut random, h, w, 30),
    ] {
        many.push((image(&colours, &vec![255; h * w], h, w), usual));
    }
    many
}

/// The script comes to the library's outlines.
#[test]
fn outlines() {
    if without_python() {
        return;
    }
    let folder = folder("outlines");
    let mut calls = Vec::new();
    for (at, (image, settings)) in many().iter().enumerate() {
        let (name, picture) = (at.to_string(), netpbm::pam(image));
        let form = [Form::One, Form::Two, Form::Decoded(b"original")][at % 3];
        if file(&folder, &name, &picture, settings, form) {
            calls.push(call(&name));
        }
    }
    assert!(calls.len() > 300, "{} pictures", calls.len());
    for (ran, call) in derive_each(&folder, &calls).iter().zip(&calls) {
        ran.well(call);
    }
}

/// A colour for the card of a picture: one of its own near the edge, or beside it, or any.
fn some_colour(random: &mut Random, image: &Image) -> CardColour {
    let any = |random: &mut Random| [0; 3].map(|_: u8| random.below(256) as u8);
    let at = 3 * random.below(image.w);
    let own = [0, 1, 2].map(|c| image.rgb[at + c]);
    CardColour::from(match random.below(8) {
        0 => any(random),
        1 => own.map(|v| v.saturating_sub(random.below(12) as u8)),
        2 => own.map(|v| v.saturating_add(random.below(12) as u8)),
        _ => own,
    })
}

/// The same with the card's colour: the script comes to the library's outlines, some of which are not
/// those without the colour.
#[test]
fn outlines_with_colour() {
    if without_python() {
        return;
    }
    let folder = folder("coloured");
    let mut random = Random(13);
    let (mut calls, mut keyed, mut others) = (Vec::new(), 0, 0);
    for (at, (image, settings)) in many().iter().enumerate() {
        let (name, picture) = (at.to_string(), netpbm::pam(image));
        let chosen = Chosen {
            settings: *settings,
            card_colour: Some(some_colour(&mut random, image)),
        };
        let form = [Form::Two, Form::Decoded(b"original")][at % 2];
        if file_by(&folder, &name, &picture, &chosen, form) {
            calls.push(call(&name));
            let (with, without) = (image.cut_by(&chosen), image.cut(settings));
            keyed += usize::from(with.as_ref().is_ok_and(|cut| cut.keyed));
            others += usize::from(with != without);
        }
    }
    assert!(calls.len() > 300, "{} pictures", calls.len());
    assert!(keyed > 100 && others > 20, "{keyed} keyed, {others} others");
    for (ran, call) in derive_each(&folder, &calls).iter().zip(&calls) {
        ran.well(call);
    }
}

/// One picture in every form that is read.
fn every_form() -> Vec<Vec<u8>> {
    let Image { h, w, rgb, .. } = draw::badge();
    let grey: Vec<u8> = rgb.chunks(3).map(|p| p[0]).collect();
    let digits = |bytes: &[u8]| {
        let words: Vec<String> = bytes.iter().map(u8::to_string).collect();
        words.join("\n# 7\n ").into_bytes()
    };
    let pam = |depth: usize, kind: &str| {
        let rest = format!("DEPTH {depth}\n MAXVAL 255 \nHEIGHT\t{h}\nWIDTH {w}\nENDHDR\n");
        format!("P7\n# x\nTUPLTYPE {kind}\n\n{rest}")
    };
    let with_alpha = |n: usize, plane: &[u8]| -> Vec<u8> {
        let pixels = plane.chunks(n).zip((1..=255).cycle());
        pixels.flat_map(|(p, a)| [p, &[a]].concat()).collect()
    };
    let forms = [
        (format!("P2 {w} {h} 255 "), digits(&grey)),
        (format!("P3\n# x\n{w} {h}\n255\n"), digits(&rgb)),
        (format!("P5#x\n{w}\n# x\n{h} 255 "), grey.clone()),
        (format!("P6\n# x\n{w} {h}# y\n255#z\n"), rgb.clone()),
        (pam(1, "GRAYSCALE"), grey.clone()),
        (pam(2, "GRAYSCALE_ALPHA"), with_alpha(1, &grey)),
        (pam(3, "RGB"), rgb.clone()),
        (pam(4, "RGB_ALPHA"), with_alpha(3, &rgb)),
    ];
    let joined = |(head, body): &(String, Vec<u8>)| [head.as_bytes(), body].concat();
    forms.iter().map(joined).collect()
}

#[test]
fn forms() {
    if without_python() {
        return;
    }
    let folder = folder("forms");
    let settings = Settings {
        alpha_threshold: 1,
        ..Settings::default()
    };
    let mut calls = Vec::new();
    for (at, picture) in every_form().iter().enumerate() {
        let name = at.to_string();
        assert!(file(&folder, &name, picture, &settings, Form::Two));
        calls.push(call(&name));
    }
    for (ran, call) in derive_each(&folder, &calls).iter().zip(&calls) {
        ran.well(call);
    }
}

/// A small picture, as it is or with bytes changed, left out or put in.
fn altered(random: &mut Random) -> Vec<u8> {
    let bases: [&[u8]; 8] = [
        b"P7\nWIDTH 2\nHEIGHT 1\nDEPTH 4\nMAXVAL 255\nTUPLTYPE RGB_ALPHA\nENDHDR\nabcdefgh",
        b"P7 \nDEPTH 1\n\n# a\n  HEIGHT \t1 \r\nWIDTH 2\nTUPLTYPE GRAYSCALE\nMAXVAL 255\nENDHDR\na#",
        b"P7\nTUPLTYPE RGB\nDEPTH 3\nHEIGHT 1\nWIDTH 1\nMAXVAL 0255\nENDHDR x\nabc",
        b"P7\nDEPTH 2\nHEIGHT 1\nWIDTH 1\nMAXVAL 255\nTUPLTYPE GRAYSCALE_ALPHA\nENDHDR\nab",
        b"P6 2 1 255 \x01\x02\x03#\x06\x07",
        b"P5\n#a\n2#b\n1\t255#c\n\x01#",
        b"P3 2 1 255 1 2 3 35 6 7\n",
        b"P2\n2 1\n255\n1#c\n\n035\n# end\n \n",
    ];
    let mut bytes = bases[random.below(8)].to_vec();
    for _ in 0..random.below(4) {
        let place = random.below(bytes.len());
        match random.below(3) {
            0 => drop(bytes.remove(place)),
            1 => bytes.insert(place, b"0 19\n#P\x0b\x0c\r\t"[random.below(11)]),
            _ => bytes[place] = random.below(256) as u8,
        }
    }
    bytes
}

/// Reads the pictures of a list `given`, each a line in hexadecimal, and writes their sides and planes.
const READ: &str = r#"
from derive_read import Wrong, read_picture
from derive_steps import Picture
for line in open("given"):
    try:
        picture = Picture(*read_picture(bytes.fromhex(line)))
        planes = [b"".join(picture.rows(plane)).hex() for plane in (*picture.colours, picture.alpha)]
        print(picture.h, picture.w, *planes)
    except Wrong:
        print("no")
"#;

/// The script reads what the program reads, to the same pixels, and nothing else.
#[test]
fn read_alike() {
    if without_python() {
        return;
    }
    let folder = folder("read");
    let mut random = Random(5);
    let hex = |bytes: &[u8]| -> String { bytes.iter().map(|v| format!("{v:02x}")).collect() };
    let pictures: Vec<Vec<u8>> = (0..4000).map(|_| altered(&mut random)).collect();
    let given: Vec<String> = pictures.iter().map(|bytes| hex(bytes)).collect();
    fs::write(folder.join("given"), given.join("\n")).unwrap();
    let want = |bytes: &Vec<u8>| match netpbm::read(&bytes[..]) {
        Err(_) => "no".to_string(),
        Ok((Image { h, w, rgb, alpha }, _)) => {
            let channel = |c| rgb.chunks(3).map(|p| p[c]).collect::<Vec<u8>>();
            let [r, g, b] = [0, 1, 2].map(|c| hex(&channel(c)));
            format!("{h} {w} {r} {g} {b} {}", hex(&alpha))
        }
    };
    let wanted: Vec<String> = pictures.iter().map(want).collect();
    let refused = wanted.iter().filter(|want| *want == "no").count();
    assert!((1000..3000).contains(&refused), "{refused} refused");
    let ran = run(&folder, READ);
    let own: Vec<&str> = ran.out.lines().collect();
    assert_eq!(own.len(), wanted.len(), "{}", ran.said);
    for ((own, want), bytes) in own.iter().zip(&wanted).zip(&pictures) {
        assert_eq!(own, want, "{}", bytes.escape_ascii());
    }
}

/// The ticket, which is drawn once, since its drawing takes longer than its outline.
static TICKET: LazyLock<Image> = LazyLock::new(draw::ticket);

/// Files the ticket under a name.
fn ticket(folder: &Path, name: &str, form: Form) {
    let settings = Settings {
        key_bg_fringe: 2,
        key_bg_tolerance: 0.0333,
        ..Settings::default()
    };
    let picture = netpbm::pam(&TICKET);
    assert!(file(folder, name, &picture, &settings, form));
}

/// The files beside the record are opened and compared: a changed byte, or one too few, is found.
#[test]
fn files_beside() {
    if without_python() {
        return;
    }
    let folder = folder("files");
    let (mut calls, mut wanted) = (Vec::new(), Vec::new());
    for form in [Form::One, Form::Two] {
        for end in ["mask.pbm", "weights.f64", "weights.pgm"] {
            for short in [true, false] {
                let name = calls.len().to_string();
                ticket(&folder, &name, form);
                let path = folder.join(format!("{name}.{end}"));
                let mut bytes = fs::read(&path).unwrap();
                match short {
                    true => bytes.truncate(bytes.len() - 1),
                    false => bytes[1000] ^= 1,
                }
                fs::write(&path, bytes).unwrap();
                let filed = match form == Form::One && end == "weights.pgm" {
                    true => "; the record has no sum of it",
                    false => ", NOT as filed",
                };
                calls.push(call(&name));
                wanted.push(format!("{name}.{end}: NOT as derived{filed}"));
            }
        }
    }
    for (ran, want) in derive_each(&folder, &calls).iter().zip(&wanted) {
        ran.wrote(
            1,
            &[want, "mask_sha256: as filed", "weights_sha256: as filed"],
        );
        assert_eq!(ran.out.matches(": NOT").count(), 1, "{}", ran.out);
    }
}

/// A mask that was put in the place of the filed one together with its sum.
#[test]
fn another_mask() {
    if without_python() {
        return;
    }
    let folder = folder("mask");
    ticket(&folder, "a", Form::Two);
    let (mask, record) = (folder.join("a.mask.pbm"), folder.join("a.record.txt"));
    let mut bytes = fs::read(&mask).unwrap();
    let old = sha256::of(&bytes);
    bytes[1000] ^= 1;
    let text = fs::read_to_string(&record).unwrap();
    fs::write(&record, text.replace(&old, &sha256::of(&bytes))).unwrap();
    fs::write(&mask, &bytes).unwrap();
    let lines = [
        &format!("mask_sha256: NOT as filed; it comes to {old}"),
        "a.mask.pbm: NOT as derived, as filed",
        "crop: as filed",
    ];
    derive(&folder, &["a.record.txt", "a.pam"]).wrote(1, &lines);
}

/// Missing files are said; of the weights' two files one is enough.
#[test]
fn missing_files() {
    if without_python() {
        return;
    }
    let folder = folder("missing");
    let enough = "not there; one file of the weights is enough";
    let missing = "NOT there; lay it beside the record";
    let well = "as derived, as filed";
    for (away, status, [mask, weights, seen]) in [
        (&[][..], 0, [well, well, well]),
        (&["weights.pgm"], 0, [well, well, enough]),
        (&["weights.f64"], 0, [well, enough, well]),
        (&["weights.f64", "weights.pgm"], 2, [well, missing, missing]),
        (&["mask.pbm"], 2, [missing, well, well]),
    ] {
        ticket(&folder, "a", Form::Two);
        for end in away {
            fs::remove_file(folder.join(format!("a.{end}"))).unwrap();
        }
        let lines = [
            &format!("a.mask.pbm: {mask}"),
            &format!("a.weights.f64: {weights}"),
            &format!("a.weights.pgm: {seen}"),
            "mask_sha256: as filed",
        ];
        derive(&folder, &["a.record.txt", "a.pam"]).wrote(status, &lines);
    }
    // A folder in the place of the mask.
    fs::create_dir(folder.join("a.mask.pbm")).unwrap();
    let ran = derive(&folder, &["a.record.txt", "a.pam"]);
    ran.wrote(2, &[]);
    assert!(ran.out.contains("a.mask.pbm: it could not be read"));
}

/// A colour in the middle of the ticket is corrected: another picture, the same outline.
#[test]
fn another_picture() {
    if without_python() {
        return;
    }
    let folder = folder("picture");
    ticket(&folder, "a", Form::Two);
    let mut image = TICKET.clone();
    image.rgb[3 * (110 * image.w + 170)] ^= 255;
    let picture = netpbm::pam(&image);
    fs::write(folder.join("b.pam"), &picture).unwrap();
    let sum = sha256::of(&picture);
    let lines = [
        &format!("picture_sha256: NOT as filed; it comes to {sum}"),
        "mask_sha256: as filed",
        "weights_sha256: as filed",
    ];
    let ran = derive(&folder, &["a.record.txt", "b.pam"]);
    ran.wrote(1, &lines);
    assert_eq!(ran.out.matches("NOT").count(), 1, "{}", ran.out);
}

/// Lines of the record that say something else than what is derived.
#[test]
fn another_record() {
    if without_python() {
        return;
    }
    let folder = folder("record");
    let Image { h, w, .. } = *TICKET;
    let (mut calls, mut wanted) = (Vec::new(), Vec::new());
    for (key, value, wrong, comes) in [
        ("crop_to_alpha", "no", "crop", format!("0 {h} 0 {w}")),
        ("key_bg", "no", "keyed", "no".into()),
        ("rows", "1", "rows", h.to_string()),
        ("columns", "4096", "columns", w.to_string()),
        ("keyed", "no", "keyed", "yes".into()),
        ("card_colour", "000000", "keyed", "no".into()),
    ] {
        ticket(&folder, key, Form::Two);
        let path = folder.join(format!("{key}.record.txt"));
        let good = fs::read_to_string(&path).unwrap();
        let text = match good.lines().find(|line| line.starts_with(key)) {
            Some(line) => good.replacen(line, &format!("{key}: {value}"), 1),
            // A line that is there only where it is used.
            None => good.replacen("keyed", &format!("{key}: {value}\nkeyed"), 1),
        };
        fs::write(&path, text).unwrap();
        calls.push(call(key));
        wanted.push(format!("{wrong}: NOT as filed; it comes to {comes}"));
    }
    for (ran, want) in derive_each(&folder, &calls).iter().zip(&wanted) {
        ran.wrote(1, &[want]);
    }
}

/// Texts that are no record, made of a good one, each with what is said of it.
fn no_records(good: &str) -> Vec<(Vec<u8>, &'static str)> {
    let bits = format!("{:016x}", 0.0333f64.to_bits());
    let infinite = good.replace("0.0333", &format!("1{}", "0".repeat(400)));
    let infinite = infinite.replace(&bits, "7ff0000000000000");
    let whole = [
        (good.replace('\n', "\r\n"), "CR LF"),
        (String::new(), "first line is \"\""),
        ("\u{7f}ELF\r\n".into(), "first line is \"\\x7fELF\\r\""),
        ("stand record 2".into(), "cut short"),
        ("stand record 2\n".into(), "\"\" where its rows line"),
        (good.trim_end().into(), "cut short"),
        (format!("{good}\n"), "goes on after its last line"),
        (infinite, "one finite number"),
    ];
    let changed = [
        ("record 2", "record 3", "later version"),
        ("record 2", "record 1", "goes on after its last line"),
        (
            "keyed",
            "shadow: 1\nkeyed",
            "\"shadow: 1\", which this script does not know",
        ),
        ("keyed: ", "keyed:", "\"keyed:yes\" where its keyed line"),
        ("0.0333", "0.0334", "one finite number"),
        ("0.0333", "nan", "\"key_bg_tolerance: nan\" where"),
        ("key_bg: yes", "key_bg: y", "\"key_bg: y\" where"),
        ("rows: ", "rows: 0", "where its rows line"),
        (
            "fringe: 2",
            "fringe: 99999999999999999999",
            "where its key_bg_fringe line",
        ),
        (
            "mask_sha256: ",
            "mask_sha256:  ",
            "where its mask_sha256 line",
        ),
        ("crop: ", "crop: \u{e9} ", "\"crop: \\xc3\\xa9 "),
    ];
    let changed = changed.map(|(old, new, said)| (good.replacen(old, new, 1), said));
    let all = whole.into_iter().chain(changed);
    all.map(|(text, said)| (text.into_bytes(), said)).collect()
}

/// The same of the card's colour: its line in another form, in another place, or in form 1.
fn no_colours(good: &str) -> Vec<(Vec<u8>, &'static str)> {
    let line = |line: &str| good.replacen("keyed", &format!("{line}\nkeyed"), 1);
    let texts = [
        (
            line("card_colour: F4F1E8"),
            "F4F1E8\" where its card_colour",
        ),
        (line("card_colour: f4f1e"), "f4f1e\" where its card_colour"),
        (
            line("card_colour: f4f1e80"),
            "f4f1e80\" where its card_colour",
        ),
        (
            line("card_colour: #f4f1e8"),
            "#f4f1e8\" where its card_colour",
        ),
        (
            line("card_colour: "),
            "\"card_colour: \" where its card_colour",
        ),
        (line("card_colour:f4f1e8"), "where its card_colour line"),
        (
            line("card_colour: f4f1e8 "),
            "f4f1e8 \" where its card_colour",
        ),
        (
            line("card_colour: f4f1e8\ncard_colour: f4f1e8"),
            "f4f1e8\" where its keyed line",
        ),
        (
            good.replacen("crop_to", "card_colour: f4f1e8\ncrop_to", 1),
            "f4f1e8\" where its crop_to_alpha line",
        ),
        (
            line("card_colour: f4f1e8").replacen("record 2", "record 1", 1),
            "f4f1e8\" where its keyed line",
        ),
    ];
    texts.map(|(text, said)| (text.into_bytes(), said)).into()
}

/// What is no record ends in a sentence.
#[test]
fn no_record() {
    if without_python() {
        return;
    }
    let folder = folder("records");
    ticket(&folder, "a", Form::Two);
    let good = fs::read_to_string(folder.join("a.record.txt")).unwrap();
    let records = [no_records(&good), no_colours(&good)].concat();
    let mut calls = Vec::new();
    for (at, (record, _)) in records.iter().enumerate() {
        fs::write(folder.join(format!("{at}.record.txt")), record).unwrap();
        calls.push(format!("{at}.record.txt\ta.pam"));
    }
    for (at, ran) in derive_each(&folder, &calls).iter().enumerate() {
        ran.declined(&format!("derive: {at}.record.txt: it"), records[at].1);
    }
}

/// Records with a byte changed, or cut off: never as filed, and never an error of Python's.
#[test]
fn altered_records() {
    if without_python() {
        return;
    }
    let folder = folder("altered");
    let picture = [
        &b"P5 3 3 255 "[..],
        &[255, 255, 255, 255, 0, 255, 255, 255, 255],
    ]
    .concat();
    let mut random = Random(8);
    let mut calls = Vec::new();
    for at in 0..450 {
        let name = at.to_string();
        let form = [Form::One, Form::Decoded(b"o"), Form::Two][at % 3];
        // With no tolerance every other colour leaves the card unfound.
        let chosen = Chosen {
            settings: Settings {
                key_bg_tolerance: 0.0,
                ..Settings::default()
            },
            card_colour: (form == Form::Two).then(|| CardColour::new("ffffff")),
        };
        assert!(file_by(&folder, &name, &picture, &chosen, form));
        let path = folder.join(format!("{name}.record.txt"));
        let mut bytes = fs::read(&path).unwrap();
        let good = bytes.clone();
        let place = random.below(bytes.len());
        match random.below(3) {
            0 => bytes.truncate(place),
            1 => drop(bytes.remove(place)),
            _ => bytes[place] = b"\r\n :0-ay\xff"[random.below(9)],
        }
        // Of the original's sum and of these settings another value gives the same outline.
        let text = String::from_utf8_lossy(&good[..place]);
        let line = text.lines().last().unwrap_or("");
        let free = ["original", "alpha_threshold", "key_bg_fringe"];
        if bytes != good && !free.iter().any(|key| line.starts_with(key)) {
            fs::write(&path, bytes).unwrap();
            calls.push(call(&name));
        }
    }
    for (ran, call) in derive_each(&folder, &calls).iter().zip(&calls) {
        assert!(ran.status > 0, "{call}: {}", ran.out);
    }
}

/// Files that are no picture, or none that is ever cut, each with what is said of it.
const NO_PICTURES: [(&str, &str); 20] = [
    ("", "no picture in PPM"),
    ("\u{7f}ELF\r\n", "no picture in PPM"),
    ("P6 1 1", "three numbers"),
    ("P6 1 -1 255 abc", "three numbers"),
    ("P6 1 1 255 ab", "after 2 of the 3"),
    ("P6 1 1 255 abcd", "goes on after"),
    ("P6 1 1 65535 abcdef", "MAXVAL is 65535"),
    ("P6 4097 1 255 ", "1 rows and 4097 columns"),
    ("P5 0 1 255 ", "1 rows and 0 columns"),
    (
        "P5 99999999999999999999 1 255 ",
        "1 rows and 1000000000 columns",
    ),
    ("P3 1 1 255 1 2 256", "above its MAXVAL"),
    ("P3 1 1 255 1 2 x", "\"x\" where a number"),
    ("P7 332\n", "P7 alone"),
    ("P7\nWIDTH 1\nWIDTH 1\n", "two WIDTH"),
    ("P7\nWIDTH one\n", "or one without a number"),
    ("P7\nCOLOUR\n", "\"COLOUR\""),
    ("P7\nENDHDR\n", "lacks"),
    ("P7\nWIDTH 1\n", "within its header"),
    (
        "P7\nWIDTH 1\nHEIGHT 1\nDEPTH 1\nMAXVAL 255\nENDHDR\na",
        "TUPLTYPE is \"\"",
    ),
    (
        "P7\nWIDTH 1\nHEIGHT 1\nDEPTH 2\nMAXVAL 255\nTUPLTYPE GRAYSCALE_ALPHA\nENDHDR\naa",
        "no pixel's alpha",
    ),
];

#[test]
fn no_picture() {
    if without_python() {
        return;
    }
    let folder = folder("pictures");
    ticket(&folder, "a", Form::Two);
    let mut calls = Vec::new();
    for (at, (picture, _)) in NO_PICTURES.iter().enumerate() {
        fs::write(folder.join(format!("{at}.ppm")), picture).unwrap();
        calls.push(format!("a.record.txt\t{at}.ppm"));
    }
    for (at, ran) in derive_each(&folder, &calls).iter().enumerate() {
        ran.declined(&format!("derive: {at}.ppm: "), NO_PICTURES[at].1);
    }
}

/// Files that are not there, and words that are not understood.
#[test]
fn wrong_words() {
    if without_python() {
        return;
    }
    let folder = folder("words");
    ticket(&folder, "a", Form::Two);
    let words = [
        ("", "ends in .record.txt"),
        ("a.pam\ta.record.txt", "a.pam: the name of a record ends in"),
        ("none.record.txt\ta.pam", "none.record.txt: it could not be"),
        ("a.record.txt\tnone.pam", "none.pam: it could not be read"),
        ("a.record.txt\t.", ".: it could not be read"),
        ("a.record.txt", "no picture that ends in .picture.ppm"),
        ("a.record.txt\ta.pam\ta.pam", "give a record"),
    ];
    let calls = words.map(|(call, _)| call.to_string());
    for (ran, (_, said)) in derive_each(&folder, &calls).iter().zip(words) {
        ran.declined("derive: ", said);
    }
    derive(&folder, &[""; 0]).declined("derive: ", "give a record");
    let help = derive(&folder, &["--help"]);
    help.wrote(
        0,
        &["    python3 examples/derive.py badge.record.txt badge.ppm"],
    );
}

/// Names with blanks, newlines and bytes that are no text.
#[test]
#[cfg(unix)]
fn odd_names() {
    use std::os::unix::ffi::OsStrExt;
    if without_python() {
        return;
    }
    let folder = folder("odd");
    ticket(&folder, "a", Form::Two);
    let odd = |end: &str| [b"-\xff \n.", end.as_bytes()].concat();
    for end in ["pam", "mask.pbm", "weights.pgm", "record.txt"] {
        let name = odd(end);
        let from = folder.join(format!("a.{end}"));
        fs::rename(from, folder.join(OsStr::from_bytes(&name))).unwrap();
    }
    let words = [odd("record.txt"), odd("pam")];
    let ran = derive(
        &folder,
        &words.each_ref().map(|word| OsStr::from_bytes(word)),
    );
    ran.well("odd names");
    ran.wrote(0, &["-? ?.mask.pbm: as derived, as filed"]);
}

/// Of a photograph that was decoded the decoded picture is taken, and the original is declined.
#[test]
fn decoded() {
    if without_python() {
        return;
    }
    let folder = folder("decoded");
    let original = b"\xff\xd8\xff\xe0 a photograph";
    fs::write(folder.join("a.jpg"), original).unwrap();
    ticket(&folder, "a", Form::Decoded(original));
    let words = ["a.record.txt", "a.jpg"];
    derive(&folder, &words).declined("derive: a.jpg: it is the original", "give a.picture.ppm, ");
    for end in ["ppm", "pam"] {
        let own = folder.join(format!("a.picture.{end}"));
        fs::copy(folder.join("a.pam"), &own).unwrap();
        let ran = derive(&folder, &words[..1]);
        ran.well(end);
        ran.wrote(
            0,
            &["picture_sha256: as filed", "weights_pgm_sha256: as filed"],
        );
        let give = format!("give a.picture.{end}, the picture that was cut");
        derive(&folder, &words).declined("derive: a.jpg: ", &give);
        fs::remove_file(own).unwrap();
    }
}

/// A picture of 1000 by 1000 pixels, with dust, takes little memory; the message says what it took.
#[test]
#[cfg(target_os = "linux")]
fn memory() {
    if without_python() {
        return;
    }
    let folder = folder("memory");
    let side = 1000;
    let colours = pictures::badge(&mut Random(1), side, side, true);
    let picture = netpbm::pam(&image(&colours, &vec![255; side * side], side, side));
    assert!(file(
        &folder,
        "a",
        &picture,
        &Settings::default(),
        Form::Two
    ));
    let lines = "import derive\n\
                 derive.main(['a.record.txt', 'a.pam'])\n\
                 print(*[line for line in open('/proc/self/status') if 'VmHWM' in line])\n";
    let start = Instant::now();
    let ran = run(&folder, lines);
    let took = start.elapsed().as_secs_f64();
    ran.well("1000 by 1000");
    let most = ran.out.split_whitespace().rev().nth(1);
    let megabytes = most.expect("a number").parse::<usize>().expect("a number") / 1000;
    let line = format!("derive: a picture of 1000 by 1000 took {took:.1} s and {megabytes} MB\n");
    std::io::stderr().write_all(line.as_bytes()).unwrap();
    assert!(megabytes < 150, "{megabytes} MB");
}
