//! How a camera was held: the orientation that EXIF notes in a picture's file, and pictures turned
//! upright by it.

use crate::netpbm::Image;
use crate::parts;

/// The orientation of a JPEG, a PNG or a TIFF, from 1 to 8, where the file notes one. With 1 the
/// picture stands upright as it is.
///
/// ```
/// // A TIFF of one tag, the orientation.
/// let file = b"MM\0*\0\0\0\x08\0\x01\x01\x12\0\x03\0\0\0\x01\0\x06\0\0\0\0\0\0";
/// assert_eq!(stand::exif::orientation(file), Some(6));
/// assert_eq!(stand::exif::orientation(b"P6 1 1 255 abc"), None);
/// ```
pub fn orientation(file: &[u8]) -> Option<u8> {
    const ORIENTATION: u16 = 274;
    let number = parts::tag(exif(file)?, ORIENTATION)?;
    u8::try_from(number).ok().filter(|o| (1..=8).contains(o))
}

/// The EXIF part of a JPEG or a PNG; a TIFF is one as it stands.
fn exif(file: &[u8]) -> Option<&[u8]> {
    const APP1: u8 = 0xe1;
    if file.starts_with(parts::PNG) {
        return parts::chunk(file, b"eXIf");
    }
    if !file.starts_with(b"\xff\xd8") {
        return Some(file);
    }
    let mut notes = parts::segments(file).filter(|(marker, _)| *marker == APP1);
    notes.find_map(|(_, data)| data.strip_prefix(b"Exif\0\0"))
}

/// What is done to a picture of this orientation so that it stands upright, in words.
pub fn in_words(orientation: u8) -> &'static str {
    match orientation {
        2 => "mirrored left to right",
        3 => "turned half around",
        4 => "mirrored top to bottom",
        5 => "mirrored left to right and turned a quarter counterclockwise",
        6 => "turned a quarter clockwise",
        7 => "mirrored left to right and turned a quarter clockwise",
        8 => "turned a quarter counterclockwise",
        _ => "left as it is",
    }
}

/// The picture, which has this orientation, upright.
///
/// ```
/// use stand::{exif, netpbm::Image};
///
/// let row = Image { h: 1, w: 2, rgb: vec![1, 1, 1, 2, 2, 2], alpha: vec![255; 2] };
/// let column = exif::turned(row, 6);
/// assert_eq!((column.h, column.w), (2, 1));
/// assert_eq!(column.rgb, [1, 1, 1, 2, 2, 2]);
/// ```
pub fn turned(image: Image, orientation: u8) -> Image {
    if !(2..=8).contains(&orientation) {
        return image;
    }
    let Image { h, w, rgb, alpha } = image;
    // From 5 on, rows become columns.
    let (rows, cols) = if orientation < 5 { (h, w) } else { (w, h) };
    let mut out = Image {
        h: rows,
        w: cols,
        rgb: Vec::with_capacity(rgb.len()),
        alpha: Vec::with_capacity(alpha.len()),
    };
    for y in 0..rows {
        for x in 0..cols {
            let (from_y, from_x) = match orientation {
                2 => (y, w - 1 - x),
                3 => (h - 1 - y, w - 1 - x),
                4 => (h - 1 - y, x),
                5 => (x, y),
                6 => (h - 1 - x, y),
                7 => (h - 1 - x, w - 1 - y),
                _ => (x, w - 1 - y),
            };
            let at = from_y * w + from_x;
            out.rgb.extend_from_slice(&rgb[3 * at..3 * at + 3]);
            out.alpha.push(alpha[at]);
        }
    }
    out
}

#[cfg(test)]
mod tests {
    use super::*;

    /// A list of tags in either order of bytes, with the orientation between others.
    fn tags(low_first: bool, orientation: u16) -> Vec<u8> {
        let two = |n: u16| {
            if low_first {
                n.to_le_bytes()
            } else {
                n.to_be_bytes()
            }
        };
        let four = |n: u32| {
            if low_first {
                n.to_le_bytes()
            } else {
                n.to_be_bytes()
            }
        };
        let mut out = if low_first { b"II*\0" } else { b"MM\0*" }.to_vec();
        out.extend([&four(10)[..], b"ab", &two(3)].concat());
        for (tag, number) in [(256, 1), (274, orientation), (305, 7)] {
            out.extend([&two(tag)[..], &two(3), &four(1), &two(number), &two(0)].concat());
        }
        out.extend(four(0));
        out
    }

    fn jpeg(exif: &[u8]) -> Vec<u8> {
        let segment = |marker: u8, data: &[u8]| {
            let length = (data.len() as u16 + 2).to_be_bytes();
            [&[0xff, marker][..], &length, data].concat()
        };
        let note = segment(0xe1, b"http://ns.adobe.com/xap/1.0/\0");
        let exif = segment(0xe1, &[b"Exif\0\0", exif].concat());
        let start = segment(0xe0, b"JFIF\0");
        [
            b"\xff\xd8",
            &start[..],
            &note,
            b"\xff\xff\xff",
            &exif,
            b"\xff\xda\0\x02abc",
        ]
        .concat()
    }

    fn png(exif: &[u8]) -> Vec<u8> {
        let chunk = |kind: &[u8], data: &[u8]| {
            [&(data.len() as u32).to_be_bytes()[..], kind, data, b"sum."].concat()
        };
        let parts = [
            chunk(b"IHDR", &[0; 13]),
            chunk(b"IDAT", b"x"),
            chunk(b"eXIf", exif),
        ];
        [parts::PNG, &parts.concat()].concat()
    }

    #[test]
    fn found_in_every_form() {
        for number in 0..12 {
            for low_first in [false, true] {
                let tags = tags(low_first, number);
                let want = (1..=8).contains(&number).then_some(number as u8);
                assert_eq!(orientation(&tags), want);
                assert_eq!(orientation(&jpeg(&tags)), want);
                assert_eq!(orientation(&png(&tags)), want);
            }
        }
        assert_eq!(orientation(&jpeg(b"")), None);
        assert_eq!(orientation(b""), None);
        // What stands after the pixels begin is none of the header's.
        let mut late = jpeg(&tags(true, 6));
        late[3] = 0xda;
        assert_eq!(orientation(&late), None);
    }

    /// Whatever the bytes are, nothing breaks, and no orientation is above 8.
    #[test]
    fn damaged() {
        let mut state = 1u64;
        let mut random = |n: usize| {
            state = state
                .wrapping_mul(6364136223846793005)
                .wrapping_add(1442695040888963407);
            (state >> 33) as usize % n
        };
        let tags = tags(false, 8);
        let bases = [jpeg(&tags), png(&tags), tags];
        let mut found = 0;
        for at in 0..60_000 {
            let mut file = bases[at % 3].clone();
            for _ in 0..=random(4) {
                let place = random(file.len());
                match random(4) {
                    0 => file.truncate(place + 1),
                    1 => file[place] = 255,
                    _ => file[place] = random(256) as u8,
                }
            }
            if let Some(orientation) = orientation(&file) {
                assert!((1..=8).contains(&orientation));
                found += 1;
            }
        }
        assert!(found > 1000, "{found}");
    }

    /// The letter F, as it lies in the file for each orientation, stands upright.
    #[test]
    fn upright() {
        let drawn = |rows: &[&str]| Image {
            h: rows.len(),
            w: rows[0].len(),
            rgb: rows.concat().bytes().flat_map(|b| [b, b ^ 1, 7]).collect(),
            alpha: rows.concat().bytes().collect(),
        };
        let upright = drawn(&["####", "#...", "##..", "#...", "#..."]);
        for (orientation, rows) in [
            (1, &["####", "#...", "##..", "#...", "#..."][..]),
            (2, &["####", "...#", "..##", "...#", "...#"]),
            (3, &["...#", "...#", "..##", "...#", "####"]),
            (4, &["#...", "#...", "##..", "#...", "####"]),
            (5, &["#####", "#.#..", "#....", "#...."]),
            (6, &["#....", "#....", "#.#..", "#####"]),
            (7, &["....#", "....#", "..#.#", "#####"]),
            (8, &["#####", "..#.#", "....#", "....#"]),
        ] {
            let lies = drawn(rows);
            assert_eq!(turned(lies, orientation), upright, "{orientation}");
        }
    }
}
