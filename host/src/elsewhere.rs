//! Forms of pictures that are not read here, each with the command that converts it.

use crate::kinds::Kind;
use std::path::Path;

/// The ends of raw files' names, in small letters.
const RAW: [&str; 18] = [
    "3fr", "arw", "cr2", "cr3", "crw", "dng", "erf", "iiq", "kdc", "mef", "mos", "mrw", "nef",
    "nrw", "orf", "pef", "raf", "rw2",
];

/// The sentence for a file that another program must convert, from its first bytes and its name.
pub(crate) fn sentence(start: &[u8], name: &Path) -> Option<String> {
    let (from, to) = typed(name);
    // The form of a file that is made of boxes, of which the first says what it holds.
    let boxes = start.get(4..12).unwrap_or_default();
    if raw(start, name) || boxes == b"ftypcrx " {
        return Some(format!(
            "it is a camera's raw file; develop it first, as by dcraw_emu -w {from}, which writes \
             {from}.ppm (Debian package libraw-bin)"
        ));
    }
    let heif = format!("heif-convert {from} {to} (Debian package libheif-examples)");
    let (form, command) = match boxes {
        b"ftypavif" | b"ftypavis" => ("an AVIF", heif),
        b"ftypheic" | b"ftypheix" | b"ftyphevc" | b"ftypmif1" | b"ftypmsf1" => ("a HEIC", heif),
        _ if start.starts_with(b"RIFF") && boxes.ends_with(b"WEBP") => (
            "a WebP",
            format!("dwebp {from} -o {to} (Debian package webp)"),
        ),
        _ => return None,
    };
    Some(format!(
        "it is {form} picture, which is not read here; convert it first, as by {command}"
    ))
}

/// Whether a file is a camera's raw file. Many have the form of a TIFF, in which a converter finds
/// but a small picture to look at; only their names tell.
fn raw(start: &[u8], name: &Path) -> bool {
    let netpbm = matches!(start, [] | [b'P', b'1'..=b'7', ..]);
    let end = name.extension().unwrap_or_default().to_ascii_lowercase();
    !netpbm
        && matches!(Kind::of(start), None | Some(Kind::Tiff))
        && RAW.iter().any(|raw| end == *raw)
}

/// A file's name, and that of a PNG of it, as they are typed in a command.
fn typed(name: &Path) -> (String, String) {
    let text = name.to_str().unwrap_or("");
    if text.is_empty()
        || text.starts_with('-')
        || text.contains(|c: char| c == '\'' || c.is_control())
    {
        return ("FILE".into(), "FILE.png".into());
    }
    let plain = |c: char| c.is_alphanumeric() || "._/-".contains(c);
    let quote = if text.chars().all(plain) { "" } else { "'" };
    let typed = |path: &Path| format!("{quote}{}{quote}", path.display());
    (typed(name), typed(&name.with_extension("png")))
}

#[cfg(test)]
mod tests {
    use super::*;

    #[test]
    fn sentences() {
        for (start, name, part) in [
            (
                &b"\0\0\0\x1cftypheic\0\0\0\0"[..],
                "a.heic",
                "heif-convert a.heic a.png ",
            ),
            (
                b"\0\0\0\x1cftypavif\0\0\0\0",
                "x/a b.avif",
                "heif-convert 'x/a b.avif' 'x/a b.png' ",
            ),
            (
                b"\0\0\0\x18ftypmif1\0\0\0\0",
                "-",
                "heif-convert FILE FILE.png ",
            ),
            (
                b"RIFF\x12\x01\0\0WEBPVP8 ",
                "it's.webp",
                "dwebp FILE -o FILE.png ",
            ),
            (b"\0\0\0\x18ftypcrx \0\0\0\x01", "a", "dcraw_emu -w a, "),
            (
                b"II*\0\x10\0\0\0CR\x02\0",
                "b/A.CR2",
                "dcraw_emu -w b/A.CR2, ",
            ),
            (b"MM\0*\0\0\0\x08", "a.nef", "writes a.nef.ppm"),
            (b"FUJIFILMCCD-RAW ", "a.raf", "libraw-bin"),
        ] {
            let found = super::sentence(start, Path::new(name)).unwrap();
            assert!(found.contains(part), "{found}");
        }
        for (start, name) in [
            (&b"II*\0\x10\0\0\0"[..], "a.tif"),
            (b"P6 1 1 255\nabc", "a.dng"),
            (b"\xff\xd8\xff\xe0", "a.nef"),
            (b"", "a.nef"),
            (b"RIFF\x12\x01\0\0WAVEfmt ", "a.wav"),
        ] {
            assert_eq!(super::sentence(start, Path::new(name)), None);
        }
    }
}
