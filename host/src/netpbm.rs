//! Netpbm pictures: reads PAM, PPM and PGM, and writes PAM, PPM, PGM and PBM.
//!
//! Read are PAM (P7) of tuple type RGB_ALPHA, RGB, GRAYSCALE_ALPHA or GRAYSCALE, PPM (P6, and P3 in
//! digits) and PGM (P5, and P2 in digits), all with MAXVAL 255, one picture a file. A grey is three
//! equal colours, and a picture without alpha is opaque. Header lines of a PAM may come in any
//! order, with comments and blank lines between them, each once.

use crate::sha256::Summed;
use crate::{Chosen, Cut, Picture, Refusal, Settings, MOST_SIDE};
use std::fmt;
use std::io::{self, BufRead, BufReader, Read};

/// A picture of bytes.
#[derive(Clone, Debug, PartialEq, Eq)]
pub struct Image {
    /// How many rows.
    pub h: usize,
    /// How many columns.
    pub w: usize,
    /// Red, green and blue of each pixel.
    pub rgb: Vec<u8>,
    /// The alpha of each pixel.
    pub alpha: Vec<u8>,
}

impl Image {
    /// The colours as numbers from 0 to 1: byte v is v / 255.
    pub fn colours(&self) -> Vec<f64> {
        self.rgb.iter().map(|&v| f64::from(v) / 255.0).collect()
    }

    /// The outline of the picture.
    pub fn cut(&self, settings: &Settings) -> Result<Cut, Refusal> {
        self.cut_by(&Chosen::from(*settings))
    }

    /// The outline of the picture by these settings and, where it is given, the card's colour.
    pub fn cut_by(&self, chosen: &Chosen) -> Result<Cut, Refusal> {
        let picture = Picture {
            colours: &self.colours(),
            alpha: &self.alpha,
            h: self.h,
            w: self.w,
        };
        chosen.cut(&picture)
    }
}

/// Why a picture could not be read.
#[derive(Debug)]
#[non_exhaustive]
pub enum Fault {
    /// Its rows and columns, of which the cut would refuse one with [`Refusal::Side`].
    Sides(usize, usize),
    /// It is not in a form that is read here; the sentence says what to change.
    Form(String),
    /// The input could not be read.
    Input(io::Error),
}

impl fmt::Display for Fault {
    fn fmt(&self, f: &mut fmt::Formatter<'_>) -> fmt::Result {
        match self {
            Fault::Sides(h, w) => {
                let (why, h, w) = (Refusal::Side, count(*h), count(*w));
                write!(f, "{why}; this one has {h} rows and {w} columns")
            }
            Fault::Form(sentence) => f.write_str(sentence),
            Fault::Input(why) => write!(f, "it could not be read: {why}"),
        }
    }
}

/// A number as it is shown; the largest stands for all that are too large for 64 bits.
fn count(n: usize) -> String {
    if n == usize::MAX {
        "too many".into()
    } else {
        n.to_string()
    }
}

impl std::error::Error for Fault {}

impl From<io::Error> for Fault {
    fn from(why: io::Error) -> Fault {
        Fault::Input(why)
    }
}

fn form<T>(sentence: impl Into<String>) -> Result<T, Fault> {
    Err(Fault::Form(sentence.into()))
}

/// The longest header that is read, in bytes.
const MOST_HEADER: usize = 65_536;

/// What a header says.
struct Header {
    w: usize,
    h: usize,
    /// Numbers a pixel: grey, grey and alpha, colours, colours and alpha.
    depth: usize,
    written: Written,
    /// The MAXVAL.
    most: usize,
}

/// How the numbers of a picture are written.
#[derive(Clone, Copy, PartialEq, Eq)]
enum Written {
    Digits,
    /// As bytes, two each where MAXVAL is above 255, the higher first.
    Bytes,
    /// As bits, 1 for black, each row from a new byte.
    Bits,
}

/// Reads one picture, and gives it with the SHA-256 of all its bytes in hexadecimal.
///
/// ```
/// let (image, _) = stand::netpbm::read(&b"P6 2 1 255\n\xff\x00\x00\x00\x00\xff"[..])?;
/// assert_eq!((image.h, image.w), (1, 2));
/// assert_eq!(image.rgb, [255, 0, 0, 0, 0, 255]);
/// assert_eq!(image.alpha, [255, 255]);
/// # Ok::<(), stand::netpbm::Fault>(())
/// ```
pub fn read(input: impl Read) -> Result<(Image, String), Fault> {
    let mut input = BufReader::with_capacity(1 << 16, Summed::new(input));
    let (image, _) = Source::new(&mut input, false).picture()?;
    if !input.fill_buf()?.is_empty() {
        return form(LEFT_OVER);
    }
    Ok((image, input.get_ref().sum.hex()))
}

/// Reads the first picture of what a converter writes, and gives it with its MAXVAL. Where that is
/// not 255, each number v has become 255 v / MAXVAL, rounded, as by pamdepth. Black and white alone
/// (P4) is read too.
pub(crate) fn converted(input: &mut impl BufRead) -> Result<(Image, usize), Fault> {
    Source::new(input, true).picture()
}

/// The samples of these bytes, from 0 to 255.
fn scaled(header: &Header, bytes: Vec<u8>) -> Vec<u8> {
    let most = header.most;
    let scale = |v: usize| ((255 * v.min(most) + most / 2) / most) as u8;
    match header.written {
        Written::Bits => {
            let bit = |row: &[u8], x: usize| row[x / 8] >> (7 - x % 8) & 1;
            let white = |row, x| if bit(row, x) == 0 { 255 } else { 0 };
            let rows = bytes.chunks_exact(header.w.div_ceil(8));
            rows.flat_map(|row| (0..header.w).map(move |x| white(row, x)))
                .collect()
        }
        _ if most == 255 => bytes,
        _ if most < 255 => bytes.iter().map(|&v| scale(v.into())).collect(),
        _ => {
            let pairs = bytes.chunks_exact(2);
            let number = |p: &[u8]| usize::from(u16::from_be_bytes([p[0], p[1]]));
            pairs.map(|p| scale(number(p))).collect()
        }
    }
}

/// The picture of a header's samples.
fn image(header: &Header, samples: Vec<u8>) -> Image {
    let &Header { w, h, depth, .. } = header;
    let opaque = || vec![255; w * h];
    let (rgb, alpha) = match depth {
        1 => (samples.iter().flat_map(|&v| [v; 3]).collect(), opaque()),
        2 => (
            samples.chunks_exact(2).flat_map(|p| [p[0]; 3]).collect(),
            samples.chunks_exact(2).map(|p| p[1]).collect(),
        ),
        3 => (samples, opaque()),
        _ => (
            samples
                .chunks_exact(4)
                .flat_map(|p| [p[0], p[1], p[2]])
                .collect(),
            samples.chunks_exact(4).map(|p| p[3]).collect(),
        ),
    };
    Image { h, w, rgb, alpha }
}

/// The bytes of a file, with how many may still be taken one by one.
struct Source<'a, R> {
    input: &'a mut R,
    left: usize,
    /// Whether it is a converter's: every MAXVAL and black and white are read, digits are not.
    any: bool,
}

impl<R: BufRead> Source<'_, R> {
    fn new(input: &mut R, any: bool) -> Source<'_, R> {
        let left = MOST_HEADER;
        Source { input, left, any }
    }

    /// A picture with its MAXVAL.
    fn picture(&mut self) -> Result<(Image, usize), Fault> {
        let header = self.header()?;
        let samples = match header.written {
            Written::Digits => self.samples_in_digits(&header)?,
            _ => scaled(&header, self.samples(&header)?),
        };
        Ok((image(&header, samples), header.most))
    }

    /// The next byte; `None` at the end.
    fn byte(&mut self) -> Result<Option<u8>, Fault> {
        if self.left == 0 {
            return form("its header, or the blanks between its numbers, take too many bytes");
        }
        self.left -= 1;
        Ok(self.input.by_ref().bytes().next().transpose()?)
    }

    fn header(&mut self) -> Result<Header, Fault> {
        let Some(first) = self.byte()? else {
            return form("it is empty; give a picture, or copy it again");
        };
        let second = self.byte()?.unwrap_or(0);
        match &[first, second] {
            b"P2" if !self.any => self.pnm_header(1, Written::Digits),
            b"P3" if !self.any => self.pnm_header(3, Written::Digits),
            b"P4" if self.any => self.pnm_header(1, Written::Bits),
            b"P5" => self.pnm_header(1, Written::Bytes),
            b"P6" => self.pnm_header(3, Written::Bytes),
            b"P7" => self.pam_header(),
            other => form(not_read(other)),
        }
    }

    /// The header of a PBM, a PGM or a PPM, after its first two bytes, with the byte that ends it.
    fn pnm_header(&mut self, depth: usize, written: Written) -> Result<Header, Fault> {
        let mut numbers = [0, 0, 1];
        let count = if written == Written::Bits { 2 } else { 3 };
        for number in &mut numbers[..count] {
            *number = match self.number()? {
                Some(number) => number,
                None => return form(CUT_SHORT),
            };
        }
        let [w, h, most] = numbers;
        self.accepted(w, h, most)?;
        Ok(Header {
            w,
            h,
            depth,
            written,
            most,
        })
    }

    /// The header of a PAM, after its first two bytes.
    fn pam_header(&mut self) -> Result<Header, Fault> {
        if !self.line()?.trim_ascii().is_empty() {
            return form("its first line is not P7 alone; give a picture in PPM, PGM or PAM form");
        }
        let (mut w, mut h, mut depth, mut most) = (None, None, None, None);
        let mut kind = Vec::new();
        loop {
            let line = self.line()?;
            let (word, value) = word_and_value(&line);
            match word {
                b"WIDTH" => once(&mut w, "WIDTH", value)?,
                b"HEIGHT" => once(&mut h, "HEIGHT", value)?,
                b"DEPTH" => once(&mut depth, "DEPTH", value)?,
                b"MAXVAL" => once(&mut most, "MAXVAL", value)?,
                b"TUPLTYPE" => kind.push(value.to_vec()),
                b"ENDHDR" => break,
                [] | [b'#', ..] => {}
                other => return form(unknown_line(other)),
            }
        }
        let (Some(w), Some(h), Some(depth), Some(most)) = (w, h, depth, most) else {
            return form("its header lacks a WIDTH, HEIGHT, DEPTH or MAXVAL line");
        };
        self.accepted(w, h, most)?;
        tuple_type(&kind.join(&b' '), depth)?;
        Ok(Header {
            w,
            h,
            depth,
            written: Written::Bytes,
            most,
        })
    }

    /// Refuses sides that the cut would refuse, before anything is read for them, and a MAXVAL that
    /// is not read.
    fn accepted(&self, w: usize, h: usize, most: usize) -> Result<(), Fault> {
        let side = 1..=MOST_SIDE;
        if !side.contains(&w) || !side.contains(&h) {
            return Err(Fault::Sides(h, w));
        }
        if most == 255 || self.any && (1..65_536).contains(&most) {
            return Ok(());
        }
        form(format!(
            "its MAXVAL is {} and not 255; convert it, as by pamdepth 255",
            count(most)
        ))
    }

    /// A line of the header, without its newline.
    fn line(&mut self) -> Result<Vec<u8>, Fault> {
        let mut line = Vec::new();
        loop {
            match self.byte()? {
                None => return form(CUT_SHORT),
                Some(b'\n') => return Ok(line),
                Some(byte) => line.push(byte),
            }
        }
    }

    /// The next byte of a PGM or a PPM outside its raw samples: a comment counts as its newline.
    fn uncommented(&mut self) -> Result<Option<u8>, Fault> {
        let mut byte = self.byte()?;
        if byte == Some(b'#') {
            while !matches!(byte, None | Some(b'\n')) {
                byte = self.byte()?;
            }
        }
        Ok(byte)
    }

    /// The next number in digits, with the one byte after it; `None` at the end. One that is too
    /// large for 64 bits counts as the largest.
    fn number(&mut self) -> Result<Option<usize>, Fault> {
        let mut number = None;
        loop {
            match self.uncommented()? {
                Some(digit @ b'0'..=b'9') => {
                    let tens = number.unwrap_or(0usize).saturating_mul(10);
                    number = Some(tens.saturating_add(usize::from(digit - b'0')));
                }
                Some(blank) if blank.is_ascii_whitespace() || blank == 0x0b => {
                    if number.is_some() {
                        return Ok(number);
                    }
                }
                None => return Ok(number),
                Some(other) => {
                    return form(format!("it has {} where a number belongs", shown(&[other])))
                }
            }
        }
    }

    /// The bytes of the samples.
    fn samples(&mut self, header: &Header) -> Result<Vec<u8>, Fault> {
        let &Header { w, h, depth, .. } = header;
        let count = match header.written {
            Written::Bits => w.div_ceil(8) * h,
            _ if header.most > 255 => 2 * w * h * depth,
            _ => w * h * depth,
        };
        let mut samples = Vec::with_capacity(count);
        self.input
            .by_ref()
            .take(count as u64)
            .read_to_end(&mut samples)?;
        if samples.len() < count {
            return short(samples.len(), count);
        }
        Ok(samples)
    }

    /// The samples in digits, after which only blanks and comments may follow.
    fn samples_in_digits(&mut self, header: &Header) -> Result<Vec<u8>, Fault> {
        let count = header.w * header.h * header.depth;
        self.left = 64 * count + MOST_HEADER;
        let mut samples = Vec::with_capacity(count);
        while let Some(number) = self.number()? {
            if samples.len() == count {
                return form(LEFT_OVER);
            }
            match u8::try_from(number) {
                Ok(byte) => samples.push(byte),
                Err(_) => return form("it has a number above its MAXVAL 255"),
            }
        }
        if samples.len() < count {
            return short(samples.len(), count);
        }
        Ok(samples)
    }
}

const CUT_SHORT: &str = "it ends within its header; copy or convert the picture again";
const LEFT_OVER: &str = "it goes on after the picture; give a file of one picture";

fn short<T>(found: usize, wanted: usize) -> Result<T, Fault> {
    form(format!(
        "it ends early, after {found} of the {wanted} numbers of its pixels; copy or convert the \
         picture again"
    ))
}

/// Bytes as they are shown in a sentence, at most 20 of them.
fn shown(bytes: &[u8]) -> String {
    let first = &bytes[..bytes.len().min(20)];
    format!("\"{}\"", first.escape_ascii())
}

/// The first word of a header line of a PAM, and what follows it.
fn word_and_value(line: &[u8]) -> (&[u8], &[u8]) {
    let line = line.trim_ascii();
    let blank = line.iter().position(u8::is_ascii_whitespace);
    let (word, value) = line.split_at(blank.unwrap_or(line.len()));
    (word, value.trim_ascii())
}

fn unknown_line(word: &[u8]) -> String {
    let word = shown(word);
    format!("its header has a line {word}, which is none of a PAM's; convert the picture again")
}

/// Keeps the number of a header line that may stand there once.
fn once(place: &mut Option<usize>, word: &str, value: &[u8]) -> Result<(), Fault> {
    if place.is_some() {
        return form(format!("its header has two {word} lines"));
    }
    if value.is_empty() || !value.iter().all(u8::is_ascii_digit) {
        return form(format!(
            "its header says {word} {}, which is no number",
            shown(value)
        ));
    }
    let add = |number: usize, digit: &u8| {
        let tens = number.saturating_mul(10);
        tens.saturating_add(usize::from(digit - b'0'))
    };
    *place = Some(value.iter().fold(0, add));
    Ok(())
}

/// Refuses tuple types that are not read, and depths that are not theirs.
fn tuple_type(kind: &[u8], depth: usize) -> Result<(), Fault> {
    let own = match kind {
        b"GRAYSCALE" => 1,
        b"GRAYSCALE_ALPHA" => 2,
        b"RGB" => 3,
        b"RGB_ALPHA" => 4,
        _ => {
            return form(format!(
                "its TUPLTYPE is {}; give a PAM of TUPLTYPE RGB_ALPHA, RGB, GRAYSCALE_ALPHA or \
                 GRAYSCALE",
                shown(kind)
            ))
        }
    };
    if depth != own {
        return form(format!(
            "its DEPTH is {depth}, and that of its TUPLTYPE {} is {own}",
            shown(kind)
        ));
    }
    Ok(())
}

/// The sentence for a file that is no PAM, PPM or PGM, from its first two bytes.
fn not_read(first: &[u8; 2]) -> String {
    let (kind, command) = match first {
        b"\x89P" => ("PNG", "pngtopam -alphapam"),
        b"\xff\xd8" => ("JPEG", "jpegtopnm"),
        b"II" | b"MM" => ("TIFF", "tifftopnm"),
        b"GI" => ("GIF", "giftopnm"),
        b"BM" => ("BMP", "bmptopnm"),
        b"P1" | b"P4" => return "it is a PBM, black and white only; give a PPM, PGM or PAM".into(),
        _ => {
            return "it is no picture that is read here; give a JPEG, PNG, TIFF, PPM, PGM or PAM"
                .into()
        }
    };
    format!("it looks like a {kind} picture; convert it first, as by {command} FILE > FILE.pam")
}

/// A raw PBM (P4) of a mask of `w` columns: a bit 1 where it is on.
///
/// ```
/// assert_eq!(stand::netpbm::pbm(&[1, 0, 1, 0, 1, 1], 3), b"P4\n3 2\n\xa0\x60");
/// ```
pub fn pbm(mask: &[u8], w: usize) -> Vec<u8> {
    let mut out = format!("P4\n{w} {}\n", mask.len() / w).into_bytes();
    for row in mask.chunks(w) {
        out.extend(row.chunks(8).map(|eight| {
            let bit = |byte, (at, &on)| byte | u8::from(on != 0) << (7 - at);
            eight.iter().enumerate().fold(0, bit)
        }));
    }
    out
}

/// A raw PGM (P5) of a plane of bytes with `w` columns.
///
/// ```
/// assert_eq!(stand::netpbm::pgm(&[0, 128, 255], 3), b"P5\n3 1\n255\n\x00\x80\xff");
/// ```
pub fn pgm(plane: &[u8], w: usize) -> Vec<u8> {
    let mut out = format!("P5\n{w} {}\n255\n", plane.len() / w).into_bytes();
    out.extend_from_slice(plane);
    out
}

/// A raw PPM (P6) of a picture, without its alpha.
pub fn ppm(image: &Image) -> Vec<u8> {
    let Image { h, w, rgb, .. } = image;
    [format!("P6\n{w} {h}\n255\n").as_bytes(), rgb].concat()
}

/// A PAM of tuple type RGB_ALPHA.
pub fn pam(image: &Image) -> Vec<u8> {
    let Image { h, w, rgb, alpha } = image;
    let mut out =
        format!("P7\nWIDTH {w}\nHEIGHT {h}\nDEPTH 4\nMAXVAL 255\nTUPLTYPE RGB_ALPHA\nENDHDR\n")
            .into_bytes();
    out.reserve(4 * h * w);
    for (colour, &a) in rgb.chunks_exact(3).zip(alpha) {
        out.extend([colour[0], colour[1], colour[2], a]);
    }
    out
}

#[cfg(test)]
mod tests {
    use super::*;

    fn pixels(bytes: &[u8]) -> Result<(usize, usize, Vec<u8>, Vec<u8>), String> {
        match read(bytes) {
            Ok((Image { h, w, rgb, alpha }, sum)) => {
                assert_eq!(sum, crate::sha256::of(bytes));
                Ok((h, w, rgb, alpha))
            }
            Err(why) => Err(why.to_string()),
        }
    }

    const PAM: &[u8] = b"P7\nWIDTH 2\nHEIGHT 1\nDEPTH 4\nMAXVAL 255\nTUPLTYPE RGB_ALPHA\nENDHDR\n\
                         \x01\x02\x03\x04\x05\x06\x07\x08";

    #[test]
    fn one_picture_in_every_form() {
        let grey = (1, 2, vec![1, 1, 1, 35, 35, 35], vec![255, 255]);
        let coloured = (1, 2, vec![1, 2, 3, 35, 6, 7], vec![255, 255]);
        for (bytes, want) in [
            (&b"P5 2 1 255 \x01#"[..], &grey),
            (b"P5\n#a\n2#b\n1\t255#c\n\x01#", &grey),
            (b"P5 002\x0b\x0c\r1 255\n\x01#", &grey),
            (b"P2 2 1 255 1 35", &grey),
            (b"P2\n2 1\n255\n1#c\n\n035\n# end\n \n", &grey),
            (b"P6 2 1 255 \x01\x02\x03#\x06\x07", &coloured),
            (b"P3 2 1 255 1 2 3 35 6 7\n", &coloured),
            (b"P7 \nDEPTH 1\n\n# a\n  HEIGHT \t1 \r\nWIDTH 2\nTUPLTYPE GRAYSCALE\nMAXVAL 255\nENDHDR\n\x01#", &grey),
            (b"P7\nDEPTH 3\nHEIGHT 1\nWIDTH 2\nTUPLTYPE RGB\nMAXVAL 255\nENDHDR\n\x01\x02\x03#\x06\x07", &coloured),
        ] {
            assert_eq!(pixels(bytes).as_ref(), Ok(want), "{}", bytes.escape_ascii());
        }
        let clear = pixels(PAM).unwrap();
        assert_eq!(clear, (1, 2, vec![1, 2, 3, 5, 6, 7], vec![4, 8]));
        let grey = b"P7\nDEPTH 2\nHEIGHT 1\nWIDTH 2\nTUPLTYPE GRAYSCALE_ALPHA\nMAXVAL 255\nENDHDR\n\x01\x02\x03\x04";
        let clear = pixels(grey).unwrap();
        assert_eq!(clear, (1, 2, vec![1, 1, 1, 3, 3, 3], vec![2, 4]));
    }

    #[test]
    fn written_and_read() {
        let image = Image {
            h: 2,
            w: 1,
            rgb: (10..16).collect(),
            alpha: vec![0, 255],
        };
        assert_eq!(read(&pam(&image)[..]).unwrap().0, image);
        let opaque = read(&ppm(&image)[..]).unwrap().0;
        assert_eq!((opaque.rgb, opaque.alpha), (image.rgb, vec![255; 2]));
        let grey = read(&pgm(&[7, 8], 1)[..]).unwrap().0;
        assert_eq!((grey.h, grey.w, grey.rgb), (2, 1, vec![7, 7, 7, 8, 8, 8]));
        assert_eq!(pbm(&[1; 9], 9), b"P4\n9 1\n\xff\x80");
    }

    /// What a converter writes is scaled to 255, one picture at a time; what follows is left.
    #[test]
    fn from_a_converter() {
        let pam = |most: usize, pixels: &[u8]| {
            let head = format!("P7\nWIDTH 1\nHEIGHT 1\nDEPTH 2\nMAXVAL {most}\n");
            [
                head.as_bytes(),
                b"TUPLTYPE GRAYSCALE_ALPHA\nENDHDR\n",
                pixels,
            ]
            .concat()
        };
        for (bytes, most, grey, alpha) in [
            (b"P5 1 1 255\n\x07".to_vec(), 255, 7, 255),
            (b"P5 1 1 15\n\x05".to_vec(), 15, 85, 255),
            (b"P5 1 1 65535\n\x80\x80".to_vec(), 65535, 128, 255),
            (b"P5 1 1 65535\n\x00\x80".to_vec(), 65535, 0, 255),
            (b"P5 1 1 65535\n\x00\x81".to_vec(), 65535, 1, 255),
            (b"P4 1 1\n\x80".to_vec(), 1, 0, 255),
            (b"P4 1 1\n\x7f".to_vec(), 1, 255, 255),
            (pam(1, &[1, 0]), 1, 255, 0),
            (pam(3, &[1, 9]), 3, 85, 255),
        ] {
            let all = [&bytes[..], b"rest"].concat();
            let mut input = &all[..];
            let (image, found) = converted(&mut input).unwrap();
            assert_eq!(
                (found, &*image.rgb, &*image.alpha),
                (most, &[grey; 3][..], &[alpha][..])
            );
            assert_eq!(input, b"rest");
        }
        let nine = converted(&mut &b"P4 9 2\n\xaa\x80\x00\x7f"[..]).unwrap().0;
        let greys: Vec<u8> = nine.rgb.into_iter().step_by(3).collect();
        let want = [0, 255, 0, 255, 0, 255, 0, 255, 0];
        assert_eq!(greys, [want, [255; 9]].concat());
        for bad in [
            "P5 1 1 0\na",
            "P5 1 1 65536\nabc",
            "P4 4097 1\na",
            "P2 1 1 255 1",
            "P4 9 1\na",
        ] {
            assert!(converted(&mut bad.as_bytes()).is_err(), "{bad}");
        }
    }

    #[test]
    fn sides_are_refused_before_the_pixels() {
        let most = "P6 4096 4097 255 ";
        let zero = "P5 0 1 255 ";
        let huge = "P6 99999999999999999999999999 1 255 ";
        let pam =
            "P7\nWIDTH 18446744073709551616\nHEIGHT 18446744073709551616\nDEPTH 3\nMAXVAL 255\n\
                   TUPLTYPE RGB\nENDHDR\n";
        for text in [most, zero, huge, pam] {
            let why = read(text.as_bytes()).unwrap_err();
            assert!(matches!(why, Fault::Sides(..)), "{text}: {why}");
        }
    }

    #[test]
    fn sentences() {
        for (bytes, part) in [
            (&b""[..], "empty"),
            (b"P", "no picture"),
            (b"P6", "within its header"),
            (b"P6 1 1 255", "after 0 of the 3"),
            (b"P6 1 1 255 ab", "after 2 of the 3"),
            (b"P6 1 1 255 abcd", "goes on after"),
            (b"P6 1 -1 255 abc", "\"-\" where a number"),
            (b"P6 1 1 65535 abcdef", "MAXVAL is 65535"),
            (b"P3 1 1 255 1 2 256", "number above its MAXVAL"),
            (b"P3 1 1 255 1 2 3 4", "goes on after"),
            (b"P3 1 1 255 1 2", "after 2 of the 3"),
            (b"P4 1 1 a", "black and white"),
            (b"\x89PNG\r\n", "pngtopam"),
            (b"\xff\xd8\xff\xe0", "jpegtopnm"),
            (b"P7 332\n", "P7 alone"),
            (b"P7\nWIDTH 1\nWIDTH 1\n", "two WIDTH"),
            (b"P7\nWIDTH one\n", "no number"),
            (b"P7\nWIDTH\n", "no number"),
            (b"P7\nENDHDR\n", "lacks"),
            (b"P7\nCOLOUR 3\n", "\"COLOUR\""),
            (
                b"P7\nWIDTH 1\nHEIGHT 1\nDEPTH 4\nMAXVAL 255\nTUPLTYPE RGB\nENDHDR\nabc",
                "DEPTH is 4",
            ),
            (
                b"P7\nWIDTH 1\nHEIGHT 1\nDEPTH 4\nMAXVAL 255\nTUPLTYPE CMYK\nENDHDR\nabcd",
                "CMYK",
            ),
            (
                b"P7\nWIDTH 1\nHEIGHT 1\nDEPTH 3\nMAXVAL 255\nENDHDR\nabc",
                "TUPLTYPE is \"\"",
            ),
        ] {
            let why = pixels(bytes).unwrap_err();
            assert!(why.contains(part), "{}: {why}", bytes.escape_ascii());
        }
    }

    /// Every picture that is cut short, or has a byte more, is refused.
    #[test]
    fn cut_short() {
        for end in 0..PAM.len() {
            assert!(pixels(&PAM[..end]).is_err(), "{end} bytes");
        }
        assert!(pixels(&[PAM, b"a"].concat()).is_err());
    }

    /// Pictures with some bytes changed are read whole or not at all.
    #[test]
    fn changed() {
        let bases = [
            PAM,
            b"P6 2 1 255 \x01\x02\x03#\x06\x07",
            b"P3 2 1 255 1 2 3 35 6 7\n",
        ];
        let mut state = 1u64;
        let mut random = |n: usize| {
            state = state
                .wrapping_mul(6364136223846793005)
                .wrapping_add(1442695040888963407);
            (state >> 33) as usize % n
        };
        let mut accepted = 0;
        for at in 0..30_000 {
            let mut bytes = bases[at % 3].to_vec();
            for _ in 0..=random(3) {
                let place = random(bytes.len());
                match random(4) {
                    0 => drop(bytes.remove(place)),
                    1 => bytes.insert(place, b"0 19\n#P"[random(7)]),
                    _ => bytes[place] = random(256) as u8,
                }
            }
            if let Ok((h, w, rgb, alpha)) = pixels(&bytes) {
                assert!(h * w > 0 && rgb.len() == 3 * h * w && alpha.len() == h * w);
                accepted += 1;
            }
        }
        assert!(accepted > 1000, "{accepted}");
    }

    /// Inputs without an end are left after some bytes.
    #[test]
    fn endless() {
        for start in ["P7\n#", "P6 #", "P6 1 1 255 abc", "P3 1 1 255 ", "P5 1"] {
            for byte in [b'a', b'\n', b'1', b'#'] {
                let input = start.as_bytes().chain(io::repeat(byte));
                assert!(read(input).is_err(), "{start}");
            }
        }
    }
}
