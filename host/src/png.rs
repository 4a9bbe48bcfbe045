//! Writes PNG pictures (ISO/IEC 15948), compressed without loss. They are a function of the pixels:
//! nothing needs to be installed for them, and one picture gives the same bytes on every machine.

use crate::deflate;
use crate::netpbm::Image;

/// CRC-32 of the bytes, as PNG asks for it.
fn crc32(bytes: &[u8]) -> u32 {
    const TABLE: [u32; 256] = {
        let mut table = [0; 256];
        let mut n = 0;
        while n < 256 {
            let mut c = n as u32;
            let mut k = 0;
            while k < 8 {
                c = if c & 1 == 1 {
                    0xedb8_8320 ^ (c >> 1)
                } else {
                    c >> 1
                };
                k += 1;
            }
            table[n] = c;
            n += 1;
        }
        table
    };
    !bytes.iter().fold(!0, |c, &byte| {
        TABLE[((c ^ u32::from(byte)) & 255) as usize] ^ (c >> 8)
    })
}

fn chunk(out: &mut Vec<u8>, kind: &[u8; 4], data: &[u8]) {
    out.extend((data.len() as u32).to_be_bytes());
    let start = out.len();
    out.extend_from_slice(kind);
    out.extend_from_slice(data);
    let sum = crc32(&out[start..]);
    out.extend(sum.to_be_bytes());
}

/// The byte that is foretold for one from those to the left, above, and above to the left: the one
/// of the three that is nearest to left + above - corner.
fn paeth(left: u8, above: u8, corner: u8) -> u8 {
    let (a, b, c) = (i16::from(left), i16::from(above), i16::from(corner));
    let (from_left, from_above) = ((b - c).abs(), (a - c).abs());
    let from_corner = (a + b - 2 * c).abs();
    if from_left <= from_above && from_left <= from_corner {
        left
    } else if from_above <= from_corner {
        above
    } else {
        corner
    }
}

/// A row, of `each` bytes a pixel, as what is left of each byte after one was foretold, by the filter
/// of that number.
fn filtered(filter: u8, row: &[u8], above: &[u8], each: usize, out: &mut [u8]) {
    let zeros = [0; 4];
    let left = zeros[..each].iter().chain(row);
    let corner = zeros[..each].iter().chain(above);
    let places = out.iter_mut().zip(row);
    match filter {
        0 => out.copy_from_slice(row),
        1 => (places.zip(left)).for_each(|((to, v), a)| *to = v.wrapping_sub(*a)),
        2 => (places.zip(above)).for_each(|((to, v), b)| *to = v.wrapping_sub(*b)),
        _ => {
            let around = left.zip(above).zip(corner);
            for ((to, v), ((a, b), c)) in places.zip(around) {
                *to = v.wrapping_sub(paeth(*a, *b, *c));
            }
        }
    }
}

/// The rows of `w` pixels, each with the number of its filter before it: the one that leaves the
/// least, which compresses best.
fn rows(pixels: &[u8], w: usize, each: usize) -> Vec<u8> {
    let length = w * each;
    let mut out = Vec::with_capacity(pixels.len() + pixels.len() / length);
    let mut above = &vec![0; length][..];
    let mut tries = [0, 1, 2, 4].map(|filter| (filter, vec![0; length]));
    for row in pixels.chunks_exact(length) {
        for (filter, left) in &mut tries {
            filtered(*filter, row, above, each, left);
        }
        let size = |left: &[u8]| -> u64 {
            let of = |&v: &u8| u64::from((v as i8).unsigned_abs());
            left.iter().map(of).sum()
        };
        let best = tries.iter().min_by_key(|(_, left)| size(left));
        if let Some((filter, left)) = best {
            out.push(*filter);
            out.extend_from_slice(left);
        }
        above = row;
    }
    out
}

/// A PNG of `w` columns, of three bytes a pixel, or of four with the alpha.
fn png(pixels: &[u8], w: usize, each: usize) -> Vec<u8> {
    let h = pixels.len() / (each * w);
    let mut header = Vec::from((w as u32).to_be_bytes());
    header.extend((h as u32).to_be_bytes());
    // 8 bits a channel; red, green, blue, and the alpha; and the only compression, kind of filters
    // and order of rows that are used.
    header.extend([8, if each == 3 { 2 } else { 6 }, 0, 0, 0]);
    let mut out = b"\x89PNG\r\n\x1a\n".to_vec();
    chunk(&mut out, b"IHDR", &header);
    chunk(&mut out, b"IDAT", &deflate::zlib(&rows(pixels, w, each)));
    chunk(&mut out, b"IEND", &[]);
    out
}

/// A PNG of `w` columns from three bytes (red, green, blue) a pixel, row after row.
///
/// ```
/// let one_red_pixel = stand::png::rgb(&[255, 0, 0], 1);
/// assert_eq!(one_red_pixel[1..4], *b"PNG");
/// ```
///
/// # Panics
///
/// Where `w` is 0, or `rgb` is empty or no whole number of rows.
pub fn rgb(rgb: &[u8], w: usize) -> Vec<u8> {
    assert!(w > 0 && !rgb.is_empty() && rgb.len() % (3 * w) == 0);
    png(rgb, w, 3)
}

/// A PNG of a picture: with its alpha, unless it is opaque.
///
/// # Panics
///
/// Where the picture has no pixels, or its planes are not those of its sides.
pub fn encode(image: &Image) -> Vec<u8> {
    let Image { w, rgb, alpha, .. } = image;
    if alpha.iter().all(|&a| a == 255) {
        return self::rgb(rgb, *w);
    }
    let pixels = rgb.chunks_exact(3).zip(alpha);
    let pixels: Vec<u8> = pixels.flat_map(|(p, &a)| [p[0], p[1], p[2], a]).collect();
    assert!(pixels.len() == 4 * image.h * w);
    png(&pixels, *w, 4)
}

#[cfg(test)]
mod tests {
    use super::*;

    #[test]
    fn known_sums() {
        assert_eq!(crc32(b"123456789"), 0xcbf4_3926);
        assert_eq!(crc32(b"IEND"), 0xae42_6082);
    }

    /// A chunk's data, the place after it, and whether its kind and its sum are right.
    fn take<'a>(png: &'a [u8], at: usize, kind: &[u8]) -> (&'a [u8], usize) {
        let length = u32::from_be_bytes(png[at..at + 4].try_into().unwrap()) as usize;
        let end = at + 8 + length;
        assert_eq!(&png[at + 4..at + 8], kind);
        let sum = u32::from_be_bytes(png[end..end + 4].try_into().unwrap());
        assert_eq!(sum, crc32(&png[at + 4..end]));
        (&png[at + 8..end], end + 4)
    }

    /// The pixels of a PNG of `each` bytes a pixel, read as the standard says.
    fn pixels(png: &[u8], h: usize, w: usize, each: usize) -> Vec<u8> {
        assert_eq!(&png[..8], b"\x89PNG\r\n\x1a\n");
        let (header, at) = take(png, 8, b"IHDR");
        let side = |at: usize| u32::from_be_bytes(header[at..at + 4].try_into().unwrap());
        assert_eq!((side(0) as usize, side(4) as usize), (w, h));
        assert_eq!(header[8..], [8, if each == 3 { 2 } else { 6 }, 0, 0, 0]);
        let (data, at) = take(png, at, b"IDAT");
        let (none, at) = take(png, at, b"IEND");
        assert!(none.is_empty() && at == png.len());

        let (rows, sum) = deflate::inflate::zlib(data);
        assert_eq!(sum, deflate::adler32(&rows));
        assert_eq!(rows.len(), h * (w * each + 1));
        let mut out: Vec<u8> = Vec::new();
        for (y, row) in rows.chunks(w * each + 1).enumerate() {
            for (x, left) in row[1..].iter().enumerate() {
                let place = y * w * each + x;
                let above = if y > 0 { out[place - w * each] } else { 0 };
                let before = if x >= each { out[place - each] } else { 0 };
                let corner = if y > 0 && x >= each {
                    out[place - w * each - each]
                } else {
                    0
                };
                let foretold = match row[0] {
                    0 => 0,
                    1 => before,
                    2 => above,
                    4 => paeth(before, above, corner),
                    other => panic!("filter {other}"),
                };
                out.push(left.wrapping_add(foretold));
            }
        }
        out
    }

    /// Pictures of every small size, smooth and noisy, are the same when they are read back.
    #[test]
    fn read_back() {
        let noise = |i: usize| (i * i * 31 + i / 7 * 17) as u8;
        for (h, w) in [(1, 1), (1, 9), (9, 1), (2, 3), (13, 11), (151, 200)] {
            for kind in 0..3 {
                let value = |i: usize| match kind {
                    0 => (i / 3 % w + i / 3 / w) as u8,
                    1 => noise(i),
                    _ => 200,
                };
                let image = Image {
                    h,
                    w,
                    rgb: (0..3 * h * w).map(value).collect(),
                    alpha: (0..h * w).map(|i| (i % 256) as u8).collect(),
                };
                assert_eq!(pixels(&rgb(&image.rgb, w), h, w, 3), image.rgb);
                let four = image.rgb.chunks(3).zip(&image.alpha);
                let four: Vec<u8> = four.flat_map(|(p, &a)| [p[0], p[1], p[2], a]).collect();
                assert_eq!(pixels(&encode(&image), h, w, 4), four);
                let opaque = Image {
                    alpha: vec![255; h * w],
                    ..image
                };
                assert_eq!(encode(&opaque), rgb(&opaque.rgb, w));
            }
        }
    }

    /// What the standard says of the foretold byte: the nearest of the three, in their order.
    #[test]
    fn foretold() {
        for (a, b, c) in (0..17 * 17 * 17).map(|i| (i % 17, i / 17 % 17, i / 289)) {
            let sum = a + b - c;
            let far = |v: i32| (sum - v).abs();
            let near = [a, b, c].into_iter().min_by_key(|&v| far(v)).unwrap();
            let found = paeth(15 * a as u8, 15 * b as u8, 15 * c as u8);
            assert_eq!(i32::from(found), 15 * near);
        }
    }
}
