//! A picture to look at: the picture with its outline and its crop box drawn on it.
//!
//! The outline is a line just outside the mask, magenta with white around it, so that it shows on
//! any card. The crop box is a dashed line just outside the box, black and yellow in turn, and what
//! lies outside is darker. What is transparent is laid on white. A picture of fewer than 600 pixels
//! a side is shown enlarged, each pixel as a square, and one of more than 1600 smaller, each pixel as
//! the mean of those that fall on it. The lines are drawn after that, so that they always show.
//!
//! Pixels of the object can be marked in light blue, over all else; see [`marked`]. A band of a paler
//! blue outside the outline leads to them, to a single one too, where the card has room for it.

use crate::netpbm::Image;
use crate::{Crop, Cut, Refusal};
use std::ops::Range;

const OUTLINE: [u8; 3] = [230, 0, 126];
const AROUND: [u8; 3] = [255, 255, 255];
const DASHES: [[u8; 3]; 2] = [[20, 20, 20], [255, 210, 0]];

const BAND: [u8; 3] = [130, 220, 255];

/// The colour of pixels that are marked. It and the band's are told apart from the lines by
/// colour-blind staff too.
pub const MARK: [u8; 3] = [0, 190, 255];

/// The larger side from which on pictures are not enlarged.
const LARGE: usize = 600;

/// The larger side up to which pictures are not made smaller.
const LARGEST: usize = 1600;

/// The larger side of a thumbnail.
const THUMBNAIL: usize = 240;

/// A preview.
#[derive(Clone, Debug, PartialEq, Eq)]
pub struct Preview {
    /// How many rows.
    pub h: usize,
    /// How many columns.
    pub w: usize,
    /// Red, green and blue of each pixel.
    pub rgb: Vec<u8>,
}

/// The preview of a picture and its cut.
pub fn preview(image: &Image, cut: &Cut) -> Result<Preview, Refusal> {
    drawn(image, cut, None)
}

/// The preview with those pixels of the object marked that are on in `marks`, in the colour [`MARK`].
/// A pixel of a picture that is shown smaller is marked where any is that falls on it.
pub fn marked(image: &Image, cut: &Cut, marks: &[u8]) -> Result<Preview, Refusal> {
    match marks.len() == image.h * image.w {
        true => drawn(image, cut, Some(marks)),
        false => Err(Refusal::InputLength),
    }
}

/// Draws the preview of a picture and its cut, with these pixels marked.
fn drawn(image: &Image, cut: &Cut, marks: Option<&[u8]>) -> Result<Preview, Refusal> {
    let scale = LARGE.div_ceil(image.h.max(image.w));
    let shown = Smaller::new(image.h, image.w, LARGEST);
    let rgb = shown.means(&on_white(image));
    let mut rgb = enlarged(&rgb, shown.to.1, 3, scale);
    let plane = |own: &[u8]| enlarged(&shown.any(own), shown.to.1, 1, scale);
    let (mask, marks) = (plane(&cut.mask), marks.map(plane));
    let (h, w) = (shown.to.0 * scale, shown.to.1 * scale);
    let crop = shown.crop(&cut.crop);
    let crop = Crop {
        rows: crop.rows.start * scale..crop.rows.end * scale,
        cols: crop.cols.start * scale..crop.cols.end * scale,
    };
    let line = 2 + h.max(w) / 700;
    let band = marks.as_ref().map(|marks| (marks, 6 * line, BAND));
    let lines = [(&mask, line + line / 2, AROUND), (&mask, line, OUTLINE)];
    for (from, reach, colour) in band.into_iter().chain(lines) {
        let near = crate::squares(from, h, w, reach as u64)?;
        for ((&near, &on), pixel) in near.iter().zip(&mask).zip(rgb.chunks_exact_mut(3)) {
            if near != 0 && on == 0 {
                pixel.copy_from_slice(&colour);
            }
        }
    }
    crop_box(&mut rgb, h, w, &crop, line);
    for (pixel, &on) in rgb.chunks_exact_mut(3).zip(marks.iter().flatten()) {
        if on != 0 {
            pixel.copy_from_slice(&MARK);
        }
    }
    Ok(Preview { h, w, rgb })
}

/// The preview on a contact sheet: at most 240 pixels a side, each the mean of those that fall on it.
pub fn thumbnail(preview: &Preview) -> Preview {
    let shown = Smaller::new(preview.h, preview.w, THUMBNAIL);
    let (h, w) = shown.to;
    let rgb = shown.means(&preview.rgb);
    Preview { h, w, rgb }
}

/// Planes made smaller: each pixel of a plane falls on one of a smaller plane.
struct Smaller {
    /// Rows and columns of the plane, and of the smaller one.
    from: (usize, usize),
    to: (usize, usize),
}

impl Smaller {
    /// To at most so many pixels a side, as many times fewer rows as columns.
    fn new(h: usize, w: usize, most: usize) -> Smaller {
        let side = h.max(w).max(most);
        let fewer = |n: usize| (n * most / side).max(1);
        Smaller {
            from: (h, w),
            to: (fewer(h), fewer(w)),
        }
    }

    /// For each pixel of the smaller plane the rows and the columns that fall on it.
    fn boxes(&self) -> impl Iterator<Item = (Range<usize>, Range<usize>)> {
        let side = |from, to| (0..to).map(move |at| at * from / to..(at + 1) * from / to);
        let cols = side(self.from.1, self.to.1);
        let rows = side(self.from.0, self.to.0);
        rows.flat_map(move |rows| cols.clone().map(move |cols| (rows.clone(), cols)))
    }

    /// A picture made smaller: the mean colours.
    fn means(&self, rgb: &[u8]) -> Vec<u8> {
        let mut out = Vec::with_capacity(3 * self.to.0 * self.to.1);
        for (rows, cols) in self.boxes() {
            let count = rows.len() * cols.len();
            let mut sums = [count / 2; 3];
            for y in rows {
                let at = 3 * (y * self.from.1 + cols.start);
                for pixel in rgb[at..][..3 * cols.len()].chunks_exact(3) {
                    let add = |(sum, &v): (&mut usize, &u8)| *sum += usize::from(v);
                    sums.iter_mut().zip(pixel).for_each(add);
                }
            }
            out.extend(sums.map(|sum| (sum / count) as u8));
        }
        out
    }

    /// A mask made smaller: on where any pixel is, so that nothing of the object is lost.
    fn any(&self, mask: &[u8]) -> Vec<u8> {
        let on = |(mut rows, cols): (Range<usize>, Range<usize>)| {
            let on = |y| {
                mask[y * self.from.1..][cols.clone()]
                    .iter()
                    .any(|&m| m != 0)
            };
            u8::from(rows.any(on))
        };
        self.boxes().map(on).collect()
    }

    /// The box that the pixels of a box fall on.
    fn crop(&self, crop: &Crop) -> Crop {
        let on = |at: usize, from: usize, to: usize| ((at + 1) * to).div_ceil(from) - 1;
        let side =
            |own: &Range<usize>, from, to| on(own.start, from, to)..on(own.end - 1, from, to) + 1;
        Crop {
            rows: side(&crop.rows, self.from.0, self.to.0),
            cols: side(&crop.cols, self.from.1, self.to.1),
        }
    }
}

/// A plane of `w` columns, `each` bytes a pixel, with every pixel as a square of `scale` a side.
fn enlarged(plane: &[u8], w: usize, each: usize, scale: usize) -> Vec<u8> {
    if scale == 1 {
        return plane.to_vec();
    }
    let mut out = Vec::with_capacity(plane.len() * scale * scale);
    for row in plane.chunks(w * each) {
        let pixels = row.chunks(each);
        let wide: Vec<u8> = pixels.flat_map(|pixel| pixel.repeat(scale)).collect();
        (0..scale).for_each(|_| out.extend_from_slice(&wide));
    }
    out
}

/// The picture laid on white.
fn on_white(image: &Image) -> Vec<u8> {
    let mut out = image.rgb.clone();
    for (pixel, &alpha) in out.chunks_exact_mut(3).zip(&image.alpha) {
        let a = u32::from(alpha);
        for v in pixel {
            *v = ((u32::from(*v) * a + 255 * (255 - a) + 127) / 255) as u8;
        }
    }
    out
}

/// Draws the lines around a box, `line` pixels wide, and makes what is outside darker. Where the
/// picture has no room outside the box, the lines are at the picture's edge.
fn crop_box(rgb: &mut [u8], h: usize, w: usize, crop: &Crop, line: usize) {
    let top = crop.rows.start.saturating_sub(line);
    let left = crop.cols.start.saturating_sub(line);
    let bottom = (crop.rows.end + line).min(h);
    let right = (crop.cols.end + line).min(w);
    let on_line = |at: usize, from: usize, to: usize| at < from + line || at + line >= to;
    for (at, pixel) in rgb.chunks_exact_mut(3).enumerate() {
        let (y, x) = (at / w, at % w);
        let across = on_line(y, top, bottom);
        if !(top..bottom).contains(&y) || !(left..right).contains(&x) {
            pixel.iter_mut().for_each(|v| *v -= *v / 4);
        } else if across || on_line(x, left, right) {
            // Dashes run along each side from its first corner.
            let along = if across { x - left } else { y - top };
            pixel.copy_from_slice(&DASHES[along / (6 * line) % 2]);
        }
    }
}

#[cfg(test)]
mod tests {
    use super::*;
    use crate::Settings;

    fn white(h: usize, w: usize, alpha: u8) -> Image {
        Image {
            h,
            w,
            rgb: vec![255; 3 * h * w],
            alpha: vec![alpha; h * w],
        }
    }

    fn drawn_of(image: &Image) -> (Cut, Preview) {
        let cut = image.cut(&Settings::default()).unwrap();
        let out = preview(image, &cut).unwrap();
        (cut, out)
    }

    /// The object stays as it is, the pixels around it are the outline's, then comes the box.
    #[test]
    fn outline() {
        let mut image = white(601, 15, 255);
        image.rgb[3 * (7 * 15 + 7)..][..3].fill(9);
        let (cut, out) = drawn_of(&image);
        assert!(cut.keyed);
        assert_eq!((out.h, out.w), (601, 15));
        let at = |y: usize, x: usize| out.rgb[3 * (y * 15 + x)..][..3].to_vec();
        assert_eq!(at(7, 7), [9; 3]);
        for (y, x) in [(6, 6), (6, 7), (7, 8), (8, 8)] {
            assert_eq!(at(y, x), OUTLINE);
        }
        for (y, x) in [(4, 4), (5, 5), (5, 10), (9, 9), (10, 10)] {
            assert_eq!(at(y, x), DASHES[0]);
        }
        assert_eq!(at(3, 3), [192; 3]);
        assert_eq!(at(0, 0), [192; 3]);
    }

    /// Every side from 1 to 12, with and without an object: enlarged to 600 or more.
    #[test]
    fn small() {
        for h in 1..=12 {
            for w in 1..=12 {
                let mut image = white(h, w, 255);
                let (_, out) = drawn_of(&image);
                assert_eq!(out.rgb.len(), 3 * out.h * out.w);
                assert_eq!((out.h / h, out.w / w), (out.h / h, out.h / h));
                assert!((600..660).contains(&out.h.max(out.w)));
                assert_eq!(out.rgb[..3], DASHES[0]);
                image.rgb[3 * (h / 2 * w + w / 2)..][..3].fill(0);
                let (_, out) = drawn_of(&image);
                assert_eq!(out.rgb.len(), 3 * out.h * out.w);
            }
        }
    }

    /// A large picture is shown smaller, with its object, its outline and its crop box.
    #[test]
    fn large() {
        let mut image = white(4096, 3000, 255);
        // A bar of one pixel's width, which falls within a pixel of the preview, and two spots.
        let bar = (1000..3000).map(|y| (y, 1500));
        for (y, x) in bar.chain([(500, 300), (3500, 2700)]) {
            image.rgb[3 * (y * 3000 + x)..][..3].fill(0);
        }
        let (cut, out) = drawn_of(&image);
        assert!(cut.keyed);
        assert_eq!((out.h, out.w), (1600, 1171));
        let at = |y: usize, x: usize| out.rgb[3 * (y * 1171 + x)..][..3].to_vec();
        let x = 1500 * 1171 / 3000;
        assert!(at(800, x)[0] < 200);
        assert_eq!(
            (at(800, x - 1), at(800, x + 4)),
            (OUTLINE.to_vec(), OUTLINE.to_vec())
        );
        assert_eq!(at(800, x - 20), [255; 3]);
        assert_eq!(at(800, 90), [192; 3]);

        let small = thumbnail(&out);
        assert_eq!((small.h, small.w), (240, 175));
        let pink = |pixel: &[u8]| pixel[0] > 160 && pixel[1] < pixel[0] - 80;
        assert!(small.rgb.chunks(3).filter(|p| pink(p)).count() > 110);
    }

    /// Pixels are marked, over the dashes where the object reaches the picture's edge, and there is
    /// the band near them, outside the object; all else is as without marks.
    #[test]
    fn marks() {
        let mut image = white(20, 30, 255);
        for y in 8..20 {
            image.rgb[3 * (30 * y + 14)..][..6].fill(9);
        }
        let (cut, plain) = drawn_of(&image);
        assert!(cut.keyed);
        let mut marks = vec![0; 600];
        for at in [8 * 30 + 14, 12 * 30 + 15, 19 * 30 + 14] {
            marks[at] = 7;
        }
        let out = marked(&image, &cut, &marks).unwrap();
        assert_eq!((out.h, out.w), (400, 600));
        let [on, mask] = [&marks, &cut.mask].map(|plane| enlarged(plane, 30, 1, 20));
        let near = crate::squares(&on, 400, 600, 12).unwrap();
        let pixels = out.rgb.chunks(3).zip(plain.rgb.chunks(3));
        let mut band = 0;
        for (at, (pixel, before)) in pixels.enumerate() {
            assert_eq!(pixel == MARK, on[at] != 0);
            assert!(pixel == MARK || pixel == before || near[at] == 1 && mask[at] == 0);
            band += usize::from(pixel == BAND);
        }
        assert!(band > 500, "{band}");
        let bottom = &plain.rgb[3 * (399 * 600 + 14 * 20)..][..3];
        assert!(DASHES.iter().any(|dash| dash == bottom));
        assert_eq!(marked(&image, &cut, &vec![0; 600]), Ok(plain));
        assert_eq!(marked(&image, &cut, &marks[1..]), Err(Refusal::InputLength));
    }

    /// Single pixels of a large picture are marked where it is shown smaller.
    #[test]
    fn marks_of_a_large_picture() {
        let mut image = white(2001, 31, 255);
        image.rgb[3 * 31 * 400..3 * 31 * 1600].fill(9);
        for row in image.rgb.chunks_mut(3 * 31) {
            row[..3 * 3].fill(255);
            row[3 * 28..].fill(255);
        }
        let (cut, plain) = drawn_of(&image);
        assert!(cut.keyed);
        for y in (500..1500).step_by(37) {
            let mut marks = vec![0; cut.mask.len()];
            marks[31 * y + y % 25 + 3] = 1;
            let out = marked(&image, &cut, &marks).unwrap();
            let shown = out.rgb.chunks(3).filter(|pixel| *pixel == MARK).count();
            assert_eq!((out.h, shown), (1600, 1));
            assert!(plain.rgb.len() == out.rgb.len());
        }
    }

    /// A colour as staff see it who lack the cones for long, middle or short waves: Machado, Oliveira
    /// and Fernandes (2009).
    const SEEN: [[[f64; 3]; 3]; 4] = [
        [[1.0, 0.0, 0.0], [0.0, 1.0, 0.0], [0.0, 0.0, 1.0]],
        [
            [0.152286, 1.052583, -0.204868],
            [0.114503, 0.786281, 0.099216],
            [-0.003882, -0.048116, 1.051998],
        ],
        [
            [0.367322, 0.860646, -0.227968],
            [0.280085, 0.672501, 0.047413],
            [-0.011820, 0.042940, 0.968881],
        ],
        [
            [1.255528, -0.076749, -0.178779],
            [-0.078411, 0.930809, 0.147602],
            [0.004733, 0.691367, 0.303900],
        ],
    ];

    /// From linear red, green and blue to CIE XYZ, white as 1, 1, 1.
    const XYZ: [[f64; 3]; 3] = [
        [0.4339, 0.3762, 0.1899],
        [0.2126, 0.7152, 0.0722],
        [0.0177, 0.1095, 0.8728],
    ];

    /// The colour in CIE L*a*b*.
    fn lab(colour: [u8; 3], seen: &[[f64; 3]; 3]) -> [f64; 3] {
        let by = |matrix: &[[f64; 3]; 3], v: [f64; 3]| {
            matrix.map(|row| (0..3).map(|i| row[i] * v[i]).sum::<f64>().clamp(0.0, 1.0))
        };
        let linear = colour.map(|v| (f64::from(v) / 255.0).powf(2.2));
        let [x, y, z] = by(&XYZ, by(seen, linear)).map(f64::cbrt);
        [116.0 * y - 16.0, 500.0 * (x - y), 200.0 * (y - z)]
    }

    /// Marks and their band are told apart from the lines, by colour-blind staff too: a difference of
    /// 10 is seen at a glance.
    #[test]
    fn told_apart() {
        for seen in &SEEN {
            for line in [OUTLINE, AROUND, DASHES[0], DASHES[1]] {
                for (colour, least) in [(MARK, 35.0), (BAND, 20.0)] {
                    let (a, b) = (lab(colour, seen), lab(line, seen));
                    let far = (0..3).map(|i| (a[i] - b[i]).powi(2)).sum::<f64>().sqrt();
                    assert!(far > least, "{colour:?} and {line:?}: {far}");
                }
            }
        }
    }

    /// Each pixel falls on one pixel of the smaller plane, the one that [`Smaller::crop`] gives, and
    /// a plane that is small enough stays as it is.
    #[test]
    fn smaller() {
        for (h, w, most) in [
            (1, 1, 1),
            (7, 5, 3),
            (100, 1, 9),
            (3, 1000, 240),
            (17, 17, 16),
        ] {
            let shown = Smaller::new(h, w, most);
            assert!(shown.to.0.max(shown.to.1) == most.min(h.max(w)));
            let mut falls = vec![None; h * w];
            for (at, (rows, cols)) in shown.boxes().enumerate() {
                let place = (at / shown.to.1, at % shown.to.1);
                for y in rows {
                    for x in cols.clone() {
                        assert_eq!(falls[y * w + x].replace(place), None);
                    }
                }
            }
            for (at, place) in falls.iter().enumerate() {
                let (y, x) = (at / w, at % w);
                let one = Crop {
                    rows: y..y + 1,
                    cols: x..x + 1,
                };
                let on = shown.crop(&one);
                assert_eq!(Some((on.rows.start, on.cols.start)), *place);
                assert_eq!((on.rows.len(), on.cols.len()), (1, 1));
                let mut mask = vec![0; h * w];
                mask[at] = 9;
                let any = shown.any(&mask);
                let found = any.iter().position(|&m| m != 0).unwrap();
                assert_eq!(Some((found / shown.to.1, found % shown.to.1)), *place);
                assert_eq!(any.iter().filter(|&&m| m != 0).count(), 1);
            }
        }
        let shown = Smaller::new(2, 2, 1);
        assert_eq!(
            shown.means(&[0, 9, 255, 0, 9, 255, 1, 9, 255, 1, 9, 0]),
            [1, 9, 191]
        );
        let same = Smaller::new(2, 1, 240);
        assert_eq!(same.means(&[1, 2, 3, 4, 5, 6]), [1, 2, 3, 4, 5, 6]);
    }

    #[test]
    fn squares_for_pixels() {
        assert_eq!(enlarged(&[1, 2], 2, 1, 2), [1, 1, 2, 2, 1, 1, 2, 2]);
        assert_eq!(enlarged(&[1, 2, 3], 1, 3, 2), [1, 2, 3, 1, 2, 3].repeat(2));
        assert_eq!(enlarged(&[1, 2, 3, 4], 2, 1, 1), [1, 2, 3, 4]);
    }

    #[test]
    fn transparent_is_white() {
        let mut image = white(1, 3, 255);
        image.rgb.fill(100);
        image.alpha = vec![255, 0, 51];
        assert_eq!(
            on_white(&image),
            [100, 100, 100, 255, 255, 255, 224, 224, 224]
        );
    }
}
