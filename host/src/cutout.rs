//! The object alone, for catalogues: cropped, with the weights as its alpha.

use crate::netpbm::Image;
use crate::Cut;

/// The object of a picture: what is in the crop box, with the picture's colours where the mask is on
/// and the weight v / 255 as the alpha v. Off the mask it is transparent, and white, so that it looks
/// right where a program leaves the alpha out.
///
/// ```
/// use stand::{netpbm::Image, Settings};
///
/// // Grey card of 5 by 5 pixels with a black pixel in its middle.
/// let mut image = Image { h: 5, w: 5, rgb: vec![200; 75], alpha: vec![255; 25] };
/// image.rgb[36..39].fill(0);
/// let cut = image.cut(&Settings::default())?;
/// let object = stand::cutout::cutout(&image, &cut);
/// assert_eq!((object.h, object.w), (3, 3));
/// assert_eq!(object.alpha, [0, 0, 0, 0, 255, 0, 0, 0, 0]);
/// assert_eq!(object.rgb[12..15], [0; 3]);
/// assert_eq!(object.rgb[..12], [255; 12]);
/// # Ok::<(), stand::Refusal>(())
/// ```
pub fn cutout(image: &Image, cut: &Cut) -> Image {
    let (rows, cols) = (cut.crop.rows.clone(), cut.crop.cols.clone());
    let mut object = Image {
        h: rows.len(),
        w: cols.len(),
        rgb: Vec::with_capacity(3 * rows.len() * cols.len()),
        alpha: Vec::with_capacity(rows.len() * cols.len()),
    };
    for y in rows {
        for at in y * image.w + cols.start..y * image.w + cols.end {
            let on = cut.mask[at] != 0;
            let colour = if on {
                &image.rgb[3 * at..3 * at + 3]
            } else {
                &[255; 3]
            };
            object.rgb.extend_from_slice(colour);
            let weight = if on { cut.weights[at] } else { 0.0 };
            object.alpha.push((weight * 255.0).round() as u8);
        }
    }
    object
}
