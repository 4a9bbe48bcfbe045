//! Pictures as cameras and other programs write them: decoded through Netpbm, upright, with what was
//! done said, and refused where they are damaged; and the PNGs that are written, read by others.
//! Where Netpbm, a shell or python3 is not installed, a test says so and is left out.

#[path = "../examples/pictures/draw.rs"]
#[allow(dead_code)]
mod draw;
#[path = "../support/masks.rs"]
mod masks;

use masks::Random;
use stand::decoding::{self, Decoded, Given};
use stand::netpbm::{self, Fault, Image};
use stand::{cutout, exif, png, preview, sha256, Settings};
use std::fs;
use std::io::{ErrorKind, Write};
use std::path::{Path, PathBuf};
use std::process::{Command, Stdio};

fn say(line: impl std::fmt::Display) {
    let _ = writeln!(std::io::stderr(), "{line}");
}

/// What a program writes for these bytes; `None`, with a message, where it is not installed.
fn tool(words: &[&str], input: &[u8]) -> Option<Vec<u8>> {
    let mut command = Command::new(words[0]);
    command.args(&words[1..]).stderr(Stdio::null());
    let child = command.stdin(Stdio::piped()).stdout(Stdio::piped()).spawn();
    let mut child = match child {
        Err(why) if why.kind() == ErrorKind::NotFound => {
            say(format!("skipped: there is no {}", words[0]));
            return None;
        }
        other => other.expect("the program"),
    };
    let mut feed = child.stdin.take().unwrap();
    let output = std::thread::scope(|scope| {
        scope.spawn(move || feed.write_all(input));
        child.wait_with_output().unwrap()
    });
    assert!(output.status.success(), "{words:?}");
    Some(output.stdout)
}

fn read(file: &[u8]) -> Result<Given, Fault> {
    decoding::read(file, Path::new("a"))
}

/// A file that is decoded, with what was done to it.
fn decoded(file: &[u8]) -> (Image, Decoded) {
    let given = read(file).unwrap_or_else(|why| panic!("{why}"));
    let Given {
        image,
        sum,
        decoded,
    } = given;
    let decoded = decoded.expect("a decoded file");
    assert_eq!(decoded.original, sha256::of(file));
    assert_eq!(sum, sha256::of(&decoded.file));
    // The filed picture is the picture.
    assert_eq!(
        netpbm::read(&decoded.file[..]).unwrap(),
        (image.clone(), sum)
    );
    let opaque = image.alpha.iter().all(|&a| a == 255);
    assert_eq!(
        decoded.end,
        if opaque { "picture.ppm" } else { "picture.pam" }
    );
    (image, decoded)
}

/// The sentence for a file that is not decoded.
fn sentence(file: &[u8]) -> String {
    match read(file) {
        Ok(_) => panic!("it was read"),
        Err(why) => why.to_string(),
    }
}

/// A small picture whose pixels all differ, opaque or not.
fn small(h: usize, w: usize, opaque: bool) -> Image {
    let alpha = |i: usize| if opaque { 255 } else { (i * 37 % 256) as u8 };
    Image {
        h,
        w,
        rgb: (0..3 * h * w).map(|i| (i * 89 % 251) as u8).collect(),
        alpha: (0..h * w).map(alpha).collect(),
    }
}

/// One picture in the five forms, decoded to what it was; a JPEG to what jpegtopnm says.
#[test]
fn forms() {
    let image = draw::badge();
    let ppm = netpbm::ppm(&image);
    for (encoder, decoder) in [
        (&["pnmtojpeg"][..], &["jpegtopnm"][..]),
        (&["pnmtojpeg", "-progressive"], &["jpegtopnm"]),
        (&["pamtopng"], &["pngtopam"]),
        (&["pnmtopng", "-interlace"], &["pngtopam"]),
        (&["pamtotiff", "-truecolor"], &["tifftopnm"]),
        (&["pamtotiff", "-truecolor", "-lzw"], &["tifftopnm"]),
        (&["ppmtobmp", "-bpp=24"], &["bmptopnm"]),
    ] {
        let Some(file) = tool(encoder, &ppm) else {
            return;
        };
        let (found, decoded) = decoded(&file);
        assert_eq!(decoded.done, [format!("decoded by {}", decoder[0])]);
        assert_eq!(decoded.file, tool(decoder, &file).unwrap(), "{encoder:?}");
        assert_eq!(found == image, encoder[0] != "pnmtojpeg");
        let end = sentence(&file[..file.len() - file.len() / 3]);
        assert!(
            end.contains(decoder[0]) && end.starts_with("it is damaged"),
            "{end}"
        );
    }
    let Some(grey) = tool(&["ppmtopgm"], &ppm) else {
        return;
    };
    let file = tool(&["pnmtojpeg"], &grey).unwrap();
    let (found, _) = decoded(&file);
    assert_eq!(
        found,
        netpbm::read(&tool(&["jpegtopnm"], &file).unwrap()[..])
            .unwrap()
            .0
    );
    // A Netpbm file is read as it is.
    let given = read(&ppm).unwrap();
    assert_eq!((given.image, given.sum), (image, sha256::of(&ppm)));
    assert_eq!(given.decoded, None);
}

/// The pixels with alpha, of a PNG with an alpha for each pixel or in its palette, of a GIF and of a
/// TIFF.
#[test]
fn alpha() {
    let image = small(6, 5, false);
    let Some(file) = tool(&["pamtopng"], &netpbm::pam(&image)) else {
        return;
    };
    assert_eq!(decoded(&file).0, image);

    let palette = [
        chunk(b"PLTE", b"\x01\x02\x03\x04\x05\x06"),
        chunk(b"tRNS", b"\x80"),
    ]
    .concat();
    let (found, _) = decoded(&drawn_png(8, 3, &palette, b"\x00\x01"));
    assert_eq!(
        (found.rgb, found.alpha),
        (vec![1, 2, 3, 4, 5, 6], vec![128, 255])
    );
    let (found, _) = decoded(&drawn_png(8, 0, &chunk(b"tRNS", b"\0\x07"), b"\x07\x09"));
    assert_eq!(
        (found.rgb, found.alpha),
        (vec![7, 7, 7, 9, 9, 9], vec![0, 255])
    );
    let (found, _) = decoded(&drawn_png(8, 4, b"", b"\x07\x80\x09\xff"));
    assert_eq!(
        (found.rgb, found.alpha),
        (vec![7, 7, 7, 9, 9, 9], vec![128, 255])
    );

    let gif = tool(
        &["pamtogif", "-transparent=rgb:00/00/00"],
        b"P6 2 1 255 \0\0\0abc",
    )
    .unwrap();
    let (found, _) = decoded(&gif);
    assert_eq!((&found.rgb[3..], found.alpha), (&b"abc"[..], vec![0, 255]));

    let pixels = netpbm::pam(&image);
    let pixels = &pixels[pixels.len() - 4 * 30..];
    let page = Page {
        channels: 4,
        extra: Some(2),
        ..Page::new(6, 5, pixels)
    };
    assert_eq!(decoded(&tiff(&[page])).0, image);
    // A channel of no stated meaning is left out, and that is said.
    let page = Page {
        channels: 4,
        extra: Some(0),
        ..Page::new(6, 5, pixels)
    };
    let (found, decoded) = decoded(&tiff(&[page]));
    assert_eq!((found.rgb, decoded.end), (image.rgb, "picture.ppm"));
    assert_eq!(decoded.done[1..], ["its extra channel left out"]);
}

/// Files that a converter decodes to something else than they show.
#[test]
fn not_decoded() {
    let one = Page::new(1, 2, b"abcdef");
    let multiplied = Page {
        channels: 4,
        extra: Some(1),
        ..Page::new(1, 1, b"abcd")
    };
    let tiles = Page {
        more: &[(322, 16)],
        extra: Some(2),
        channels: 4,
        ..Page::new(1, 1, b"abcd")
    };
    let beside = Page {
        more: &[(330, 8)],
        ..Page::new(1, 2, b"abcdef")
    };
    for (file, part) in [
        (
            drawn_png(8, 2, &chunk(b"tRNS", b"\0\x01\0\x02\0\x03"), b"abcdef"),
            "one colour",
        ),
        (
            drawn_png(8, 2, &chunk(b"acTL", &[0; 8]), b"abcdef"),
            "more than one picture",
        ),
        (tiff(&[multiplied]), "colours are mixed with its alpha"),
        (tiff(&[tiles]), "colours are mixed with its alpha"),
        (tiff(&[beside]), "more than one picture"),
    ] {
        assert!(sentence(&file).contains(part), "{}", sentence(&file));
    }
    if tool(&["tifftopnm", "-version"], b"").is_none() {
        return;
    }
    assert!(sentence(&tiff(&[one, one])).contains("more than one picture"));
    let floats = Page {
        bits: 32,
        ..Page::new(1, 1, &[0; 12])
    };
    assert!(sentence(&tiff(&[floats])).contains("tifftopnm makes no picture of it"));
    // A TIFF that is packed wrongly is decoded with a warning, and a status of success.
    let packed = Page {
        packed: true,
        ..Page::new(1, 2, b"\xf0a\xf0b")
    };
    let said = sentence(&tiff(&[packed]));
    assert!(said.contains("tifftopnm warns of it (PackBits"), "{said}");
    // So is a PNG with a chunk that is damaged, which has none of the pixels.
    let (_, decoded) = decoded(&drawn_png(8, 2, b"\0\0\0\x03tEXta\0bxxxx", b"abcdef"));
    assert_eq!(
        decoded.done[1..],
        ["pngtopam says: libpng warning: tEXt: CRC error"]
    );
    let long = sentence(&drawn_png(8, 2, b"", b"abcdefghi"));
    assert!(
        long.contains("pngtopam warns of it (libpng warning: IDAT"),
        "{long}"
    );
}

/// Channels of 16 bits, of 1, 2 and 4, and inks.
#[test]
fn other_depths() {
    let all: Vec<u8> = (0..=65535u16).flat_map(u16::to_be_bytes).collect();
    let pgm = [b"P5 256 256 65535\n", &all[..]].concat();
    let Some(png) = tool(&["pamtopng"], &pgm) else {
        return;
    };
    let want = tool(&["pamdepth", "255"], &pgm).unwrap();
    let want = netpbm::read(&want[..]).unwrap().0;
    let done = "16 bits a channel reduced to 8, as by pamdepth 255";
    for file in [png, tool(&["pamtotiff"], &pgm).unwrap()] {
        let (found, decoded) = decoded(&file);
        assert!(found == want);
        assert_eq!(decoded.done[1..], [done]);
    }
    for (bits, row, greys) in [
        (1, &b"\xa0"[..], [255, 0]),
        (2, b"\x60", [85, 170]),
        (4, b"\x1e", [17, 238]),
    ] {
        let (found, decoded) = decoded(&drawn_png(bits, 0, b"", row));
        let want: Vec<u8> = greys.iter().flat_map(|&v| [v; 3]).collect();
        assert_eq!((found.rgb, decoded.done.len()), (want.clone(), 1));
        let page = Page {
            bits: bits.into(),
            channels: 1,
            photometric: 1,
            ..Page::new(1, 2, row)
        };
        assert_eq!(self::decoded(&tiff(&[page])).0.rgb, want, "{bits}");
    }
    let page = Page {
        channels: 4,
        photometric: 5,
        ..Page::new(1, 2, &[0, 0, 0, 0, 255, 0, 0, 0])
    };
    let (found, decoded) = decoded(&tiff(&[page]));
    assert_eq!(found.rgb, [255, 255, 255, 0, 255, 255]);
    assert_eq!(
        decoded.done[1..],
        ["its four inks turned into red, green and blue"]
    );
}

/// Each orientation as pamflip makes it, in a PNG, a TIFF and a JPEG, stands upright.
#[test]
fn orientations() {
    let upright = small(5, 7, true);
    // How an upright picture comes to lie in the file.
    for (orientation, words) in [
        (1u16, &["-null"][..]),
        (2, &["-leftright"]),
        (3, &["-rotate180"]),
        (4, &["-topbottom"]),
        (5, &["-transpose"]),
        (6, &["-ccw"]),
        (7, &["-xform=transpose,leftright,topbottom"]),
        (8, &["-cw"]),
    ] {
        let flip = |words: &[&str], ppm: &[u8]| tool(&[&["pamflip"], words].concat(), ppm);
        let Some(lies) = flip(words, &netpbm::ppm(&upright)) else {
            return;
        };
        let lying = netpbm::read(&lies[..]).unwrap().0;
        let low_first = orientation % 2 == 0;

        let mut file = png::encode(&lying);
        file.splice(33..33, chunk(b"eXIf", &tags(low_first, orientation)));
        let page = Page {
            more: &[(274, orientation)],
            ..Page::new(lying.h, lying.w, &lying.rgb)
        };
        for file in [file, tiff(&[page])] {
            let (found, decoded) = decoded(&file);
            assert_eq!(found, upright, "{orientation}");
            assert_eq!(decoded.done.len(), 1 + usize::from(orientation > 1));
            if orientation == 6 {
                let done = "turned a quarter clockwise, as its EXIF orientation 6 asks";
                assert_eq!(decoded.done[1], done);
            }
        }

        let mut jpeg = tool(&["pnmtojpeg"], &lies).unwrap();
        let want = netpbm::read(&tool(&["jpegtopnm"], &jpeg).unwrap()[..])
            .unwrap()
            .0;
        let data = [b"Exif\0\0", &tags(low_first, orientation)[..]].concat();
        let length = (data.len() as u16 + 2).to_be_bytes();
        jpeg.splice(2..2, [b"\xff\xe1", &length[..], &data].concat());
        let want = exif::turned(want, orientation as u8);
        assert_eq!(decoded(&jpeg).0, want, "{orientation}");
    }
}

/// Whatever part of a file is there, or is changed, the answer is a picture or a sentence.
#[test]
fn damaged() {
    let ppm = netpbm::ppm(&small(9, 8, true));
    let mut random = Random(4);
    for encoder in [
        &["pnmtojpeg"][..],
        &["pamtopng"],
        &["pamtotiff", "-truecolor"],
        &["pamtogif"],
        &["ppmtobmp", "-bpp=24"],
    ] {
        let Some(whole) = tool(encoder, &ppm) else {
            return;
        };
        let (want, _) = decoded(&whole);
        for _ in 0..12 {
            let end = random.below(whole.len());
            match read(&whole[..end]) {
                // What comes after the pixels may be missing.
                Ok(given) => assert_eq!((encoder[0], given.image), ("pamtotiff", want.clone())),
                Err(why) => assert!(!why.to_string().is_empty()),
            }
        }
        for _ in 0..25 {
            let mut file = whole.clone();
            for _ in 0..=random.below(3) {
                let at = random.below(file.len());
                file[at] = random.below(256) as u8;
            }
            let _ = read(&file);
        }
    }
}

/// Sides above 4096 are refused with number 1, in every form, before the pixels are read.
#[test]
fn sides() {
    let mut file = drawn_png(8, 2, b"", b"abcdef");
    file[16..24].copy_from_slice(&[0, 0, 0xea, 0x60, 0, 0, 0, 1]);
    assert!(matches!(read(&file), Err(Fault::Sides(1, 60_000))));
    let page = Page::new(5000, 2, b"abcdef");
    assert!(matches!(read(&tiff(&[page])), Err(Fault::Sides(5000, 2))));
    let wide = netpbm::ppm(&small(1, 4097, true));
    for encoder in [
        &["pnmtojpeg"][..],
        &["pamtopng"],
        &["pamtotiff", "-truecolor"],
        &["ppmtobmp", "-bpp=24"],
    ] {
        let Some(file) = tool(encoder, &wide) else {
            return;
        };
        let why = read(&file).unwrap_err();
        assert!(matches!(why, Fault::Sides(1, 4097)), "{encoder:?}: {why}");
    }
}

/// Forms that other programs convert, and what is no picture.
#[test]
fn sentences() {
    for (start, name, part) in [
        (
            &b"\0\0\0\x1cftypheic\0\0\0\0mif1"[..],
            "a.heic",
            "heif-convert a.heic a.png",
        ),
        (
            b"RIFF\x12\x01\0\0WEBPVP8 ",
            "a.webp",
            "dwebp a.webp -o a.png",
        ),
        (b"II*\0\x10\0\0\0CR\x02\0", "a.CR2", "dcraw_emu -w a.CR2"),
        (b"P4 1 1 a", "a.pbm", "black and white"),
        (b"%PDF-1.4", "a.pdf", "give a JPEG, PNG, TIFF"),
        (b"", "a.jpg", "it is empty"),
    ] {
        let why = decoding::read(start, Path::new(name))
            .unwrap_err()
            .to_string();
        assert!(why.contains(part), "{why}");
    }
}

/// A folder of programs that stand in for jpegtopnm.
fn stand_in(name: &str, script: &str) -> PathBuf {
    let folder = Path::new(env!("CARGO_TARGET_TMPDIR"))
        .join("decoding")
        .join(name);
    let _ = fs::remove_dir_all(&folder);
    fs::create_dir_all(&folder).expect("a folder for the test");
    let path = folder.join("jpegtopnm");
    fs::write(&path, format!("#!/bin/sh\nPATH=/usr/bin:/bin\n{script}\n")).unwrap();
    #[cfg(unix)]
    {
        use std::os::unix::fs::PermissionsExt;
        fs::set_permissions(&path, fs::Permissions::from_mode(0o755)).unwrap();
    }
    folder
}

/// What comes of a JPEG where programs are sought in this folder alone.
fn with_programs_of(folder: &Path) -> String {
    let mut command = Command::new(std::env::current_exe().unwrap());
    command.args([
        "--ignored",
        "--exact",
        "--nocapture",
        "a_jpeg_in_a_process_of_its_own",
    ]);
    let output = command.env("PATH", folder).output().unwrap();
    let text = String::from_utf8_lossy(&output.stdout).into_owned();
    assert!(output.status.success(), "{text}");
    let line = text.lines().find(|line| line.contains("said: "));
    line.expect("an answer").to_string()
}

#[test]
#[ignore = "run by others, with programs of their own"]
fn a_jpeg_in_a_process_of_its_own() {
    // More than a pipe holds, so that a program that does not read it is noticed.
    let file = [b"\xff\xd8\xff".to_vec(), vec![0; 300_000]].concat();
    match read(&file) {
        Ok(given) => println!("said: {:?} {:?}", given.image, given.decoded.unwrap().done),
        Err(why) => println!("said: {why}"),
    }
    // No process is left behind.
    let tasks = fs::read_dir("/proc/self/task")
        .into_iter()
        .flatten()
        .flatten();
    for task in tasks {
        let children = fs::read_to_string(task.path().join("children")).unwrap_or_default();
        assert_eq!(children, "");
    }
}

/// Converters that are missing, fail, are stopped, warn, never end or write something else.
#[test]
#[cfg(unix)]
fn converters() {
    let missing = with_programs_of(Path::new("/nonexistent"));
    assert!(
        missing.contains("it is a JPEG picture, and jpegtopnm"),
        "{missing}"
    );
    assert!(missing.contains("Debian package netpbm"), "{missing}");
    if !Path::new("/bin/sh").exists() {
        return say("skipped: there is no sh for programs that stand in for a converter");
    }
    let picture = "printf 'P5 1 1 255\\na'";
    let endless = "while :; do echo aaaaaaaaaaaaaaaaaaaaaaaa; done";
    let much =
        "i=0; while [ $i -lt 3000 ]; do echo \"jpegtopnm: $i, and so on\" >&2; i=$((i+1)); done";
    for (name, script, part) in [
        ("well", picture.into(), "rgb: [97, 97, 97]"),
        ("well", picture.into(), "[\"decoded by jpegtopnm\"]"),
        (
            "all",
            format!("cat >/dev/null; {picture}"),
            "rgb: [97, 97, 97]",
        ),
        (
            "own",
            format!("{picture}; echo jpegtopnm: WRITING IT >&2; echo jpegtopnm: hm >&2"),
            "[\"decoded by jpegtopnm\", \"jpegtopnm says: hm\"]",
        ),
        (
            "much",
            format!("{much}; {picture}"),
            "jpegtopnm says: 9, and so on\"]",
        ),
        (
            "warns",
            format!("{picture}; echo Corrupt JPEG data >&2"),
            "warns of it (Corrupt JPEG data)",
        ),
        (
            "fails",
            format!("{picture}; echo jpegtopnm: oh >&2; exit 2"),
            "does not decode (oh);",
        ),
        (
            "killed",
            format!("{picture}; kill -9 $$"),
            "jpegtopnm was stopped",
        ),
        (
            "short",
            "printf 'P6 9 9 255\\nabc'; kill -9 $$".into(),
            "jpegtopnm was stopped",
        ),
        (
            "early",
            "printf 'P6 9 9 255\\nabc'".into(),
            "makes no picture of it (it ends early",
        ),
        ("nothing", "".into(), "makes no picture of it (it is empty)"),
        (
            "garbage",
            "echo hello".into(),
            "makes no picture of it (it is no picture",
        ),
        (
            "zero",
            "printf 'P5 1 1 0\\na'".into(),
            "makes no picture of it (its MAXVAL is 0",
        ),
        (
            "two",
            format!("{picture}; {picture}"),
            "more than one picture",
        ),
        (
            "endless",
            format!("{picture}; {endless}"),
            "more than one picture",
        ),
        ("noise", endless.into(), "makes no picture of it"),
        (
            "huge",
            format!("printf 'P6 5000 5000 255\\n'; {endless}"),
            "refused 1",
        ),
    ] {
        let said = with_programs_of(&stand_in(name, &script));
        assert!(said.contains(part), "{name}: {said}");
    }
}

/// A PNG is read by pngtopam and by Python's zlib, pixel for pixel.
#[test]
fn written_for_others() {
    let mut pictures = vec![small(1, 1, false), small(3, 4, true), draw::badge()];
    let cut = pictures[2].cut(&Settings::default()).unwrap();
    pictures.push(cutout::cutout(&pictures[2], &cut));
    let shown = preview::preview(&pictures[2], &cut).unwrap();
    let small = preview::thumbnail(&shown);
    assert_eq!((small.h, small.w), (240, 240));
    for shown in [shown, small] {
        let (h, w) = (shown.h, shown.w);
        let alpha = vec![255; h * w];
        pictures.push(Image {
            h,
            w,
            rgb: shown.rgb,
            alpha,
        });
    }
    for image in &pictures {
        let file = png::encode(image);
        assert!(file.len() < 300 + 4 * image.h * image.w);
        if let Some(pam) = tool(&["pngtopam", "-alphapam"], &file) {
            assert!(netpbm::read(&pam[..]).unwrap().0 == *image);
        }
        let opaque = image.alpha.iter().all(|&a| a == 255);
        if image.h > 300 {
            continue;
        }
        if let Some(pixels) = tool(&["python3", "-c", UNPACK], &file) {
            let pam = netpbm::pam(image);
            let want = if opaque {
                &image.rgb
            } else {
                &pam[pam.len() - 4 * image.alpha.len()..]
            };
            assert!(pixels == want);
        }
    }
}

/// Takes a PNG of 8 bits a channel apart.
const UNPACK: &str = "
import sys, zlib
png = sys.stdin.buffer.read()
w, h = (int.from_bytes(png[at:at + 4], 'big') for at in (16, 20))
n = {2: 3, 6: 4}[png[25]]
at, data = 8, b''
while at < len(png):
    size = int.from_bytes(png[at:at + 4], 'big')
    kind, body = png[at + 4:at + 8], png[at + 8:at + 8 + size]
    assert zlib.crc32(kind + body) == int.from_bytes(png[at + 8 + size:at + 12 + size], 'big')
    data += body if kind == b'IDAT' else b''
    at += 12 + size
rows, above = zlib.decompress(data), bytes(w * n)
assert len(rows) == h * (w * n + 1)
for y in range(h):
    row = bytearray(rows[y * (w * n + 1) + 1:(y + 1) * (w * n + 1)])
    kind = rows[y * (w * n + 1)]
    for x in range(w * n):
        a, b = row[x - n] if x >= n else 0, above[x]
        c = above[x - n] if x >= n else 0
        near = min((abs(b - c), 0, a), (abs(a - c), 1, b), (abs(a + b - 2 * c), 2, c))[2]
        row[x] = (row[x] + {0: 0, 1: a, 2: b, 4: near}[kind]) % 256
    sys.stdout.buffer.write(row)
    above = row
";

/// CRC-32, bit by bit.
fn crc32(bytes: &[u8]) -> u32 {
    !bytes.iter().fold(!0u32, |sum, &byte| {
        (0..8).fold(sum ^ u32::from(byte), |c, _| {
            c >> 1 ^ if c & 1 == 1 { 0xedb8_8320 } else { 0 }
        })
    })
}

/// A chunk of a PNG.
fn chunk(kind: &[u8], data: &[u8]) -> Vec<u8> {
    let own = [kind, data].concat();
    let sum = crc32(&own).to_be_bytes();
    [&(data.len() as u32).to_be_bytes()[..], &own, &sum].concat()
}

/// A PNG of one row with two pixels, not compressed, with chunks before the pixels.
fn drawn_png(bits: u8, colour_type: u8, before: &[u8], row: &[u8]) -> Vec<u8> {
    let header = [0, 0, 0, 2, 0, 0, 0, 1, bits, colour_type, 0, 0, 0];
    let row = [b"\0", row].concat();
    let (a, b) = row.iter().fold((1u32, 0u32), |(a, b), &v| {
        (a + u32::from(v), b + a + u32::from(v))
    });
    let length = row.len() as u16;
    let block = [
        &[0x78, 1, 1][..],
        &length.to_le_bytes(),
        &(!length).to_le_bytes(),
        &row,
    ];
    let data = [&block.concat()[..], &(b << 16 | a).to_be_bytes()].concat();
    let parts = [
        chunk(b"IHDR", &header),
        before.to_vec(),
        chunk(b"IDAT", &data),
        chunk(b"IEND", b""),
    ];
    [b"\x89PNG\r\n\x1a\n", &parts.concat()[..]].concat()
}

/// The EXIF part of a picture with this orientation.
fn tags(low_first: bool, orientation: u16) -> Vec<u8> {
    if low_first {
        let [a, b] = orientation.to_le_bytes();
        [
            &b"II*\0\x08\0\0\0\x01\0\x12\x01\x03\0\x01\0\0\0"[..],
            &[a, b],
            &[0; 6],
        ]
        .concat()
    } else {
        let [a, b] = orientation.to_be_bytes();
        [
            &b"MM\0*\0\0\0\x08\0\x01\x01\x12\0\x03\0\0\0\x01"[..],
            &[a, b],
            &[0; 6],
        ]
        .concat()
    }
}

/// A picture in a TIFF, in one strip.
#[derive(Clone, Copy)]
struct Page<'a> {
    h: usize,
    w: usize,
    bits: u16,
    channels: u16,
    photometric: u16,
    packed: bool,
    /// What the extra channel is.
    extra: Option<u16>,
    /// More tags, each with its number.
    more: &'a [(u16, u16)],
    pixels: &'a [u8],
}

impl Page<'_> {
    /// A page of three channels of 8 bits.
    fn new(h: usize, w: usize, pixels: &[u8]) -> Page<'_> {
        Page {
            h,
            w,
            bits: 8,
            channels: 3,
            photometric: 2,
            packed: false,
            extra: None,
            more: &[],
            pixels,
        }
    }
}

/// A TIFF of these pages, lowest byte first.
fn tiff(pages: &[Page]) -> Vec<u8> {
    let mut out = b"II*\0\x08\0\0\0".to_vec();
    for (at, page) in pages.iter().enumerate() {
        let mut tags: Vec<(u16, u32)> = vec![
            (256, page.w as u32),
            (257, page.h as u32),
            (259, if page.packed { 32773 } else { 1 }),
            (262, page.photometric.into()),
            (277, page.channels.into()),
            (278, page.h as u32),
            (279, page.pixels.len() as u32),
        ];
        tags.extend(page.extra.map(|extra| (338, extra.into())));
        tags.extend(page.more.iter().map(|&(tag, number)| (tag, number.into())));
        // The list, the bits of each channel, the pixels.
        let bits = out.len() + 2 + 12 * (tags.len() + 2) + 4;
        let pixels = bits + 2 * usize::from(page.channels.max(2));
        tags.push((273, pixels as u32));
        tags.push((258, bits as u32));
        tags.sort();
        out.extend((tags.len() as u16).to_le_bytes());
        for (tag, number) in tags {
            let many = tag == 258 && page.channels > 2;
            let count = if tag == 258 {
                page.channels.into()
            } else {
                1u32
            };
            let number = if tag == 258 && !many {
                page.bits.into()
            } else {
                number
            };
            let kind = if tag == 258 { 3u16 } else { 4 };
            out.extend(tag.to_le_bytes());
            out.extend(kind.to_le_bytes());
            out.extend(count.to_le_bytes());
            out.extend(number.to_le_bytes());
        }
        let next = pixels + page.pixels.len();
        let next = if at + 1 < pages.len() { next as u32 } else { 0 };
        out.extend(next.to_le_bytes());
        (0..page.channels.max(2)).for_each(|_| out.extend(page.bits.to_le_bytes()));
        out.extend_from_slice(page.pixels);
    }
    out
}
