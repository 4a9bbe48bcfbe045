//! The kinds of picture files that Netpbm decodes, and what must be known of each.

use crate::parts;

/// A kind of files.
#[derive(Clone, Copy, Debug, PartialEq, Eq)]
pub(crate) enum Kind {
    Jpeg,
    Png,
    Tiff,
    Gif,
    Bmp,
}

/// Tags of a TIFF.
const COLUMNS: u16 = 256;
const ROWS: u16 = 257;
const PHOTOMETRIC: u16 = 262;
const PLANES: u16 = 284;
const TILES: u16 = 322;
const MORE_PICTURES: u16 = 330;
const EXTRA_SAMPLES: u16 = 338;
const PROFILE: u16 = 34675;

/// What the extra samples of a TIFF may be.
const MULTIPLIED_ALPHA: u32 = 1;
const ALPHA: u32 = 2;

impl Kind {
    /// The kind of a file, from its first bytes.
    pub fn of(start: &[u8]) -> Option<Kind> {
        let kinds: [(&[u8], Kind); 6] = [
            (b"\xff\xd8\xff", Kind::Jpeg),
            (parts::PNG, Kind::Png),
            (b"II*\0", Kind::Tiff),
            (b"MM\0*", Kind::Tiff),
            (b"GIF8", Kind::Gif),
            (b"BM", Kind::Bmp),
        ];
        let found = kinds.iter().find(|(own, _)| start.starts_with(own));
        found.map(|(_, kind)| *kind)
    }

    /// Its name, and the converter for it.
    pub fn converter(self) -> (&'static str, &'static str) {
        match self {
            Kind::Jpeg => ("JPEG", "jpegtopnm"),
            Kind::Png => ("PNG", "pngtopam"),
            Kind::Tiff => ("TIFF", "tifftopnm"),
            Kind::Gif => ("GIF", "giftopnm"),
            Kind::Bmp => ("BMP", "bmptopnm"),
        }
    }

    /// Rows and columns of a file whose converter decodes all pixels before it says how many they
    /// are.
    pub fn sides(self, file: &[u8]) -> Option<(usize, usize)> {
        let (h, w) = match self {
            Kind::Png => {
                let header = parts::chunk(file, b"IHDR")?;
                let side = |at| Some(u32::from_be_bytes(*header.get(at..)?.first_chunk()?));
                (side(4)?, side(0)?)
            }
            Kind::Tiff => (parts::tag(file, ROWS)?, parts::tag(file, COLUMNS)?),
            _ => return None,
        };
        Some((h as usize, w as usize))
    }

    /// The words with which the converter decodes a file.
    pub fn words(self, file: &[u8]) -> &'static [&'static str] {
        match self {
            Kind::Jpeg => &[],
            Kind::Png => &["-alphapam"],
            // The pixels as they lie in the file: by itself tifftopnm turns some orientations
            // wrongly. By row it keeps all bits, and the colours apart from the alpha.
            Kind::Tiff if by_row(file) => &["-orientraw", "-byrow"],
            Kind::Tiff => &["-orientraw"],
            // All pictures are asked for, so that it is known whether there is one alone.
            Kind::Gif => &["-image=all"],
            Kind::Bmp => &["-quiet"],
        }
    }

    /// The words with which the converter writes the alpha of a file, where that comes apart from
    /// the colours.
    pub fn words_for_alpha(self, file: &[u8]) -> Option<&'static [&'static str]> {
        match self {
            Kind::Gif => Some(&["-alphaout=-"]),
            Kind::Tiff if parts::tag(file, EXTRA_SAMPLES) == Some(ALPHA) => {
                Some(&["-orientraw", "-byrow", "-alphaout=-"])
            }
            _ => None,
        }
    }

    /// The sentence for a file that the converter would decode to something else than it shows.
    pub fn not_decoded(self, file: &[u8]) -> Option<&'static str> {
        const COLOURS_ALONE: Option<&u8> = Some(&2);
        let png = |kind| parts::chunk(file, kind);
        let colour_type = png(b"IHDR").and_then(|header| header.get(9));
        let extra = parts::tag(file, EXTRA_SAMPLES);
        let mixed = extra == Some(MULTIPLIED_ALPHA) || extra == Some(ALPHA) && !by_row(file);
        match self {
            Kind::Png if png(b"acTL").is_some() => Some(MORE),
            Kind::Png if png(b"tRNS").is_some() && colour_type == COLOURS_ALONE => Some(
                "it marks one colour as transparent, which pngtopam does not heed; save it anew \
                 with an alpha for each pixel, or with none",
            ),
            Kind::Tiff if parts::tag(file, MORE_PICTURES).is_some() => Some(MORE),
            Kind::Tiff if mixed => Some(
                "its colours are mixed with its alpha, or would be by tifftopnm; save it anew as a \
                 PNG, which keeps the two apart",
            ),
            _ => None,
        }
    }

    /// What a file holds that the decoded picture does not, in words.
    pub fn left_out(self, file: &[u8]) -> Vec<&'static str> {
        const INKS: u32 = 5;
        let tiff = |tag| parts::tag(file, tag);
        let (inks, profile, channel) = match self {
            Kind::Jpeg => {
                let has = |kind: fn(u8, &[u8]) -> bool| {
                    parts::segments(file).any(|(marker, data)| kind(marker, data))
                };
                (has(four_inks), has(profile), false)
            }
            Kind::Png => (false, parts::chunk(file, b"iCCP").is_some(), false),
            Kind::Tiff => (
                tiff(PHOTOMETRIC) == Some(INKS),
                tiff(PROFILE).is_some(),
                tiff(EXTRA_SAMPLES) == Some(0),
            ),
            Kind::Bmp => (false, false, file.get(28..30) == Some(&[32, 0])),
            Kind::Gif => (false, false, false),
        };
        let all = [
            (inks, "its four inks turned into red, green and blue"),
            (
                profile,
                "its colour profile left out, its numbers taken as they are",
            ),
            (channel, "its extra channel left out"),
        ];
        all.into_iter()
            .filter_map(|(holds, words)| holds.then_some(words))
            .collect()
    }
}

/// The sentence for a file of several pictures.
pub(crate) const MORE: &str =
    "it holds more than one picture; save the one that is to be cut as a file of its own";

/// Whether a TIFF lies in its file row after row, and not in tiles or in a plane for each channel.
fn by_row(file: &[u8]) -> bool {
    const APART: u32 = 2;
    parts::tag(file, TILES).is_none() && parts::tag(file, PLANES) != Some(APART)
}

/// Whether a segment of a JPEG says that it has four channels, which are inks.
fn four_inks(marker: u8, data: &[u8]) -> bool {
    let frame = matches!(marker, 0xc0..=0xcf) && !matches!(marker, 0xc4 | 0xc8 | 0xcc);
    frame && data.get(5) == Some(&4)
}

/// Whether a segment of a JPEG is a colour profile.
fn profile(marker: u8, data: &[u8]) -> bool {
    marker == 0xe2 && data.starts_with(b"ICC_PROFILE\0")
}

#[cfg(test)]
mod tests {
    use super::*;

    const INKS: &str = "its four inks turned into red, green and blue";
    const COLOURS: &str = "its colour profile left out, its numbers taken as they are";
    const CHANNEL: &str = "its extra channel left out";

    #[test]
    fn kinds() {
        let of = |start: &[u8]| Kind::of(start).map(|kind| kind.converter().0);
        assert_eq!(of(b"\xff\xd8\xff\xe0"), Some("JPEG"));
        assert_eq!(of(b"\x89PNG\r\n\x1a\n\0"), Some("PNG"));
        assert_eq!(of(b"II*\0\x08"), Some("TIFF"));
        assert_eq!(of(b"MM\0*\0"), Some("TIFF"));
        assert_eq!(of(b"GIF89a"), Some("GIF"));
        assert_eq!(of(b"BM\x36"), Some("BMP"));
        for other in [&b""[..], b"P6 ", b"\xff\xd8", b"\x89PN", b"II+\0"] {
            assert_eq!(of(other), None);
        }
    }

    #[test]
    fn left_out() {
        let frame = |marker: u8, channels: u8| {
            [
                &b"\xff\xd8\xff"[..],
                &[marker, 0, 8, 8, 0, 1, 0, 1, channels],
            ]
            .concat()
        };
        let jpeg = |file: &[u8]| Kind::Jpeg.left_out(file);
        assert_eq!(jpeg(&frame(0xc0, 3)), [""; 0]);
        assert_eq!(jpeg(&frame(0xc2, 4)), [INKS]);
        // A table has another form.
        assert_eq!(jpeg(&frame(0xc4, 4)), [""; 0]);
        assert_eq!(
            jpeg(b"\xff\xd8\xff\xe2\0\x0eICC_PROFILE\0\xff\xda"),
            [COLOURS]
        );
        let png = [parts::PNG, b"\0\0\0\x01iCCPa"].concat();
        assert_eq!(Kind::Png.left_out(&png), [COLOURS]);
        // A profile of one byte, inks, and a channel of no stated meaning.
        let tiff = b"II*\0\x08\0\0\0\x03\0\x06\x01\x03\0\x01\0\0\0\x05\0\0\0\
                     \x52\x01\x03\0\x01\0\0\0\0\0\0\0\x73\x87\x07\0\x01\0\0\0a\0\0\0";
        assert_eq!(Kind::Tiff.left_out(tiff), [INKS, COLOURS, CHANNEL]);
        let bmp = |bits: u8| [&b"BM"[..], &[0; 26], &[bits, 0]].concat();
        assert_eq!(Kind::Bmp.left_out(&bmp(24)), [""; 0]);
        assert_eq!(Kind::Bmp.left_out(&bmp(32)), [CHANNEL]);
    }
}
