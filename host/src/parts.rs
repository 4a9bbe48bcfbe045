//! The parts of a picture's file that say something of the picture beside its pixels: segments of a
//! JPEG, chunks of a PNG, tags of a TIFF. Whatever the bytes are, they are read no further than they
//! go; a part that is damaged is not found.

/// The first bytes of a PNG.
pub(crate) const PNG: &[u8] = b"\x89PNG\r\n\x1a\n";

/// The segments of a JPEG that stand before its pixels, each with its marker.
pub(crate) fn segments(file: &[u8]) -> impl Iterator<Item = (u8, &[u8])> {
    const PIXELS: u8 = 0xda;
    let mut rest = file.strip_prefix(b"\xff\xd8").unwrap_or(&[]);
    std::iter::from_fn(move || {
        // Any number of bytes 255 may stand before a marker.
        while let [0xff, after @ ..] = rest {
            if after.first() != Some(&0xff) {
                break;
            }
            rest = after;
        }
        let &[0xff, marker, high, low, ..] = rest else {
            return None;
        };
        // The length counts its own two bytes.
        let end = 2 + usize::from(u16::from_be_bytes([high, low]));
        let data = rest.get(4..end).filter(|_| marker != PIXELS)?;
        rest = &rest[end..];
        Some((marker, data))
    })
}

/// The data of a PNG's first chunk of this kind.
pub(crate) fn chunk<'a>(file: &'a [u8], kind: &[u8; 4]) -> Option<&'a [u8]> {
    let mut rest = file.strip_prefix(PNG)?;
    loop {
        let length = u32::from_be_bytes(*rest.first_chunk()?);
        let own = rest.get(4..8)?;
        let data = rest[8..].get(..length as usize)?;
        if own == kind {
            return Some(data);
        }
        // A sum of four bytes follows.
        rest = rest[8 + data.len()..].get(4..)?;
    }
}

/// The first number of a tag in the first list of tags of a TIFF, or of the EXIF part of another
/// picture, which has the form of a TIFF.
pub(crate) fn tag(tiff: &[u8], tag: u16) -> Option<u32> {
    let low_first = match tiff.get(..4)? {
        b"II*\0" => true,
        b"MM\0*" => false,
        _ => return None,
    };
    let two = |bytes: &[u8]| {
        let two = *bytes.first_chunk()?;
        let number = if low_first {
            u16::from_le_bytes(two)
        } else {
            u16::from_be_bytes(two)
        };
        Some(number)
    };
    let four = |bytes: &[u8]| {
        let four = *bytes.first_chunk()?;
        let number = if low_first {
            u32::from_le_bytes(four)
        } else {
            u32::from_be_bytes(four)
        };
        Some(number)
    };
    let list = tiff.get(four(&tiff[4..])? as usize..)?;
    let entries = list.get(2..)?.chunks_exact(12).take(two(list)?.into());
    let entry = { entries }.find(|entry| two(entry) == Some(tag))?;
    // An entry is a tag, the kind of its numbers, how many they are, and the numbers themselves, or
    // their place where they need more than four bytes.
    let (kind, count, own) = (two(&entry[2..])?, four(&entry[4..])?, &entry[8..]);
    let size = match kind {
        1 | 2 | 7 => 1,
        3 => 2,
        4 | 13 => 4,
        _ => return None,
    };
    let numbers = match count {
        0 => return None,
        _ if count <= 4 / size => own,
        _ => tiff.get(four(own)? as usize..)?,
    };
    match size {
        1 => numbers.first().map(|&byte| byte.into()),
        2 => two(numbers).map(u32::from),
        _ => four(numbers),
    }
}
