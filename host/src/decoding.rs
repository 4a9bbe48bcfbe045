//! Pictures as cameras, scanners and other programs write them.
//!
//! A Netpbm picture is read as it is. A JPEG, PNG, TIFF, GIF or BMP is decoded by Netpbm's converter
//! for it, where that is installed, and turned upright as its EXIF orientation asks; the decoded
//! picture is what is cut and filed. For other forms a sentence says how to convert them.

use crate::converter::{self, Delivered};
use crate::filing::{PICTURE_PAM, PICTURE_PPM};
use crate::kinds::Kind;
use crate::netpbm::{self, Fault, Image};
use crate::{elsewhere, exif, sha256, MOST_SIDE};
use std::io::Read;
use std::path::Path;

/// A picture as it was given, ready to be cut.
#[derive(Clone, Debug, PartialEq, Eq)]
pub struct Given {
    /// The picture, upright.
    pub image: Image,
    /// The SHA-256 of the file that is filed as the picture: the given file itself, or the one in
    /// `decoded`.
    pub sum: String,
    /// What came of a file that was decoded; `None` for a Netpbm picture.
    pub decoded: Option<Decoded>,
}

/// What came of a file that was decoded.
#[derive(Clone, Debug, PartialEq, Eq)]
pub struct Decoded {
    /// The SHA-256 of the given file.
    pub original: String,
    /// The end of the filed picture's name: [`PICTURE_PPM`] where it is opaque, else
    /// [`PICTURE_PAM`].
    pub end: &'static str,
    /// That file's bytes.
    pub file: Vec<u8>,
    /// What was done to the given file, in words, a line each.
    pub done: Vec<String>,
}

/// The most bytes of a file that is decoded. No picture whose sides are accepted needs as many.
const MOST_FILE: u64 = 1 << 29;

/// Reads a picture file. `name` is the file's name, for what only the name tells (raw files), and for
/// the command that a sentence shows.
///
/// ```
/// let given = stand::decoding::read(&b"P6 1 1 255\nabc"[..], "badge.ppm".as_ref())?;
/// assert_eq!(given.image.rgb, b"abc");
/// assert!(given.decoded.is_none());
/// # Ok::<(), stand::netpbm::Fault>(())
/// ```
pub fn read(mut input: impl Read, name: &Path) -> Result<Given, Fault> {
    let mut start = Vec::new();
    input.by_ref().take(16).read_to_end(&mut start)?;
    if let Some(sentence) = elsewhere::sentence(&start, name) {
        return form(sentence);
    }
    let input = start.chain(input);
    let Some(kind) = Kind::of(&start) else {
        let (image, sum) = netpbm::read(input)?;
        let decoded = None;
        return Ok(Given {
            image,
            sum,
            decoded,
        });
    };
    decode(kind, &whole(input, MOST_FILE)?)
}

/// All bytes of a file, which must not be more than `most`.
fn whole(input: impl Read, most: u64) -> Result<Vec<u8>, Fault> {
    let mut file = Vec::new();
    input.take(most + 1).read_to_end(&mut file)?;
    if file.len() as u64 > most {
        let size = most >> 20;
        return form(format!(
            "it has more than {size} MiB; crop the picture or make it smaller"
        ));
    }
    Ok(file)
}

fn form<T>(sentence: impl Into<String>) -> Result<T, Fault> {
    Err(Fault::Form(sentence.into()))
}

/// Decodes a file that was read whole.
fn decode(kind: Kind, file: &[u8]) -> Result<Given, Fault> {
    match kind.sides(file) {
        Some((h, w)) if h.max(w) > MOST_SIDE => return Err(Fault::Sides(h, w)),
        _ => {}
    }
    if let Some(sentence) = kind.not_decoded(file) {
        return form(sentence);
    }
    let (name, program) = kind.converter();
    let deliver = |words| converter::deliver(name, program, words, file);
    let Delivered {
        mut image,
        most,
        remarks,
    } = deliver(kind.words(file))?;
    if let Some(words) = kind.words_for_alpha(file) {
        image.alpha = as_alpha(deliver(words)?.image, &image)?;
    }
    let mut done = vec![format!("decoded by {program}")];
    done.extend(remarks);
    if most > 255 {
        let bits = most.ilog2() + 1;
        done.push(format!(
            "{bits} bits a channel reduced to 8, as by pamdepth 255"
        ));
    }
    done.extend(kind.left_out(file).into_iter().map(String::from));
    if let Some(orientation @ 2..) = exif::orientation(file) {
        image = exif::turned(image, orientation);
        let words = exif::in_words(orientation);
        done.push(format!(
            "{words}, as its EXIF orientation {orientation} asks"
        ));
    }
    Ok(given(image, sha256::of(file), done))
}

/// The alpha of a picture, which came as the greys of another.
fn as_alpha(greys: Image, image: &Image) -> Result<Vec<u8>, Fault> {
    if (greys.h, greys.w) != (image.h, image.w) {
        return form("its alpha has other sides than its colours; save it anew as a PNG");
    }
    Ok(greys.rgb.into_iter().step_by(3).collect())
}

/// A picture that has no file of its own, as one from standard input, with a file that is filed for
/// it.
pub fn kept(picture: Given) -> Given {
    match picture.decoded {
        Some(_) => picture,
        None => given(picture.image, picture.sum, Vec::new()),
    }
}

/// A decoded picture with the file that is filed for it, which depends on its pixels alone.
fn given(image: Image, original: String, done: Vec<String>) -> Given {
    let opaque = image.alpha.iter().all(|&alpha| alpha == 255);
    let (end, file) = if opaque {
        (PICTURE_PPM, netpbm::ppm(&image))
    } else {
        (PICTURE_PAM, netpbm::pam(&image))
    };
    Given {
        image,
        sum: sha256::of(&file),
        decoded: Some(Decoded {
            original,
            end,
            file,
            done,
        }),
    }
}

#[cfg(test)]
mod tests {
    use super::*;

    #[test]
    fn most_bytes() {
        assert_eq!(whole(&b"abc"[..], 3).unwrap(), b"abc");
        assert!(whole(&b"abcd"[..], 3).is_err());
        assert!(whole(std::io::repeat(0), 1 << 20)
            .unwrap_err()
            .to_string()
            .contains("1 MiB"));
    }
}
