//! The files of a cut: what each is called, and what it holds. How they come to their place is said
//! in [`crate::placing`].

use crate::decoding::{Decoded, Given};
use crate::diagnosis::Diagnosis;
use crate::netpbm::{self, Image};
use crate::record::Record;
use crate::{cutout, png, preview, sha256, Chosen, Cut, Refusal};

/// The picture that was cut, where it was decoded and is opaque: a raw PPM.
pub const PICTURE_PPM: &str = "picture.ppm";
/// The same where some of it is transparent: a PAM.
pub const PICTURE_PAM: &str = "picture.pam";
/// The mask: a raw PBM, a bit 1 where it is on.
pub const MASK: &str = "mask.pbm";
/// The weights: an f64 a pixel, row after row, each as its 8 bytes from the lowest.
pub const WEIGHTS: &str = "weights.f64";
/// The weights in a byte a pixel: a raw PGM, v for the weight v / 255.
pub const WEIGHTS_PGM: &str = "weights.pgm";
/// The picture with outline and crop box, as a PNG.
pub const PREVIEW: &str = "preview.png";
/// The object, cropped, with the weights as alpha, as a PNG.
pub const CUTOUT: &str = "cutout.png";
/// The preview scaled down, for the contact sheet.
pub const THUMBNAIL: &str = "thumbnail.png";
/// What looks wrong, and what helps: see [`crate::diagnosis`].
pub const DIAGNOSIS: &str = "diagnosis.txt";
/// The preview with the pixels marked that one more pass would take off, as a PNG. It is no part of a
/// cut's [`results`] and is made later, where it is asked for; a cut that replaces the results takes
/// it away.
pub const NEXT_PASS: &str = "next-pass.png";
/// The record: see [`crate::record`].
pub const RECORD: &str = "record.txt";

/// The ends of all names that a cut's files can have, in the order in which they come to their
/// place. The record is the last.
pub const ENDS: [&str; 11] = [
    PICTURE_PPM,
    PICTURE_PAM,
    MASK,
    WEIGHTS,
    WEIGHTS_PGM,
    PREVIEW,
    CUTOUT,
    THUMBNAIL,
    DIAGNOSIS,
    NEXT_PASS,
    RECORD,
];

/// What is filed of a cut, beside the picture.
#[derive(Clone, Debug)]
pub struct Filed {
    /// What the record says.
    pub record: Record,
    /// The mask's file.
    pub mask: Vec<u8>,
    /// The weights' file with 8 bytes a pixel.
    pub weights: Vec<u8>,
    /// The weights' file with one byte a pixel.
    pub weights_pgm: Vec<u8>,
}

/// What is filed of the cut of a picture.
pub fn filed(given: &Given, chosen: &Chosen, cut: &Cut) -> Filed {
    let &Image { h, w, .. } = &given.image;
    let bytes: Vec<u8> = cut.weights.iter().map(|&x| weight_byte(x)).collect();
    let mask = netpbm::pbm(&cut.mask, w);
    let weights: Vec<u8> = cut.weights.iter().flat_map(|x| x.to_le_bytes()).collect();
    let weights_pgm = netpbm::pgm(&bytes, w);
    let record = Record {
        h,
        w,
        chosen: chosen.clone(),
        keyed: cut.keyed,
        crop: cut.crop.clone(),
        picture: given.sum.clone(),
        original: given
            .decoded
            .as_ref()
            .map(|decoded| decoded.original.clone()),
        mask: sha256::of(&mask),
        weights: sha256::of(&weights),
        weights_pgm: Some(sha256::of(&weights_pgm)),
    };
    Filed {
        record,
        mask,
        weights,
        weights_pgm,
    }
}

/// The v of a weight v / 255.
fn weight_byte(weight: f64) -> u8 {
    (weight * 255.0).round() as u8
}

/// A cut as files.
#[derive(Clone, Debug)]
pub struct Results {
    /// What the record says.
    pub record: Record,
    /// What looks wrong, if anything.
    pub diagnosis: Diagnosis,
    /// How many pixels the mask has on.
    pub object: usize,
    /// The end of each file's name with what it holds; the record is the last.
    pub files: Vec<(&'static str, Vec<u8>)>,
}

/// Cuts a picture. With `small` the weights are written in a byte a pixel alone.
pub fn results(given: Given, chosen: &Chosen, small: bool) -> Result<Results, Refusal> {
    let cut = given.image.cut_by(chosen)?;
    let diagnosis = Diagnosis::of(&given.image, chosen, &cut)?;
    let filed = filed(&given, chosen, &cut);
    let mut files = Vec::new();
    let Given { image, decoded, .. } = given;
    if let Some(Decoded { end, file, .. }) = decoded {
        files.push((end, file));
    }
    files.push((MASK, filed.mask));
    if !small {
        files.push((WEIGHTS, filed.weights));
    }
    files.push((WEIGHTS_PGM, filed.weights_pgm));
    let preview = preview::preview(&image, &cut)?;
    let thumbnail = preview::thumbnail(&preview);
    files.push((PREVIEW, png::rgb(&preview.rgb, preview.w)));
    files.push((CUTOUT, png::encode(&cutout::cutout(&image, &cut))));
    files.push((THUMBNAIL, png::rgb(&thumbnail.rgb, thumbnail.w)));
    files.push((DIAGNOSIS, diagnosis.to_string().into_bytes()));
    files.push((RECORD, filed.record.to_string().into_bytes()));
    Ok(Results {
        record: filed.record,
        diagnosis,
        object: cut.mask.iter().filter(|&&m| m != 0).count(),
        files,
    })
}
