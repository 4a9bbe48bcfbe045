//! The cut for the copy stand, and the plane geometry under it, over the proved static library
//! `libstand.a`.
//!
//! [`cut`] makes the outline that is filed: from a picture and five settings the mask, the weights,
//! the keyed flag and the crop box. [`ground`] and [`growth`] are its two steps. Where the card's
//! colour is known, [`cut_with_colour`] and [`ground_with_colour`] are given it. [`next_pass`] shows
//! what one more pass of growth would take off. Beside them stand [`nearest`], [`labels`],
//! [`squares`], [`square_distance`] and [`fill_transparent`].
//!
//! A plane has `h` rows and `w` columns, each from 1 to [`MOST_SIDE`], and lies row after row in
//! one slice: pixel (y, x) is element `y * w + x`. In a mask a byte 0 is off and any other byte is
//! on. A colour is three `f64` from 0 to 1 (−0 counts as 0), channel c of pixel i at `3 * i + c`.
//!
//! The functions here make the planes and the work buffers, and return what the library wrote or
//! its [`Refusal`]. Whoever cuts one picture after the other and wants to keep the buffers calls
//! [`raw`] instead, with buffers of [`work_len`] numbers.
//!
//! The program `stand` cuts picture files. [`decoding`] and [`netpbm`] read them; [`filing`],
//! [`record`], [`preview`], [`cutout`] and [`png`] are what it writes.
//!
//! ```
//! use stand::{Picture, Settings};
//!
//! // A white card of 5 by 5 pixels with a black pixel in its middle.
//! let mut colours = [1.0; 75];
//! colours[36..39].fill(0.0);
//! let picture = Picture { colours: &colours, alpha: &[255; 25], h: 5, w: 5 };
//! let cut = stand::cut(&picture, &Settings::default())?;
//! assert!(cut.keyed);
//! assert_eq!(cut.mask.iter().filter(|&&m| m == 1).count(), 1);
//! assert_eq!((cut.crop.rows, cut.crop.cols), (1..4, 1..4));
//! # Ok::<(), stand::Refusal>(())
//! ```
//!
//! ```
//! let mask = [
//!     1, 1, 0, 0,
//!     0, 0, 0, 1,
//! ];
//! let parts = stand::labels(&mask, 2, 4)?;
//! assert_eq!(parts.count, 2);
//! assert_eq!(parts.plane, [1, 1, 0, 0, 0, 0, 0, 2]);
//! # Ok::<(), stand::Refusal>(())
//! ```
#![deny(unsafe_code)]
#![warn(missing_docs)]

use std::fmt;
use std::ops::Range;

mod chosen;
mod converter;
pub mod cutout;
pub mod decoding;
mod deflate;
pub mod diagnosis;
mod elsewhere;
pub mod exif;
pub mod filing;
mod kinds;
pub mod netpbm;
mod parts;
pub mod placing;
pub mod png;
pub mod preview;
#[allow(unsafe_code)]
pub mod raw;
pub mod record;
pub mod sha256;

pub use chosen::{CardColour, Chosen};

/// The longest side of a plane, in pixels.
pub const MOST_SIDE: usize = 4096;

/// Why a call was refused. Where several things are wrong, the first of them is answered, in the
/// order 1, 2, 3, 11, 4, 5, 6.
#[derive(Clone, Copy, Debug, PartialEq, Eq, Hash)]
#[non_exhaustive]
pub enum Refusal {
    /// Number 1: a side is 0 or more than [`MOST_SIDE`].
    Side,
    /// Number 2: the length of an input is not that of its plane.
    InputLength,
    /// Number 3: the length of an output is not that of its plane, or a work buffer is too small.
    /// The functions at the root of this crate make fitting buffers and never answer this.
    Room,
    /// Number 4: a colour, or the reference that is given, is below 0, above 1 or no number.
    Colour,
    /// Number 5: the tolerance is infinite or no number.
    Tolerance,
    /// Number 6: no alpha reaches the threshold, so that the mask would be empty.
    Alpha,
    /// Number 11: the text of the card's colour is not six hexadecimal digits.
    CardColour,
    /// A number that this crate does not know: it and the library are not of one version.
    Unknown(u32),
}

impl Refusal {
    /// The library's answer as a result: 0 is accepted, any other number a refusal.
    ///
    /// ```
    /// use stand::Refusal;
    /// assert_eq!(Refusal::check(0), Ok(()));
    /// assert_eq!(Refusal::check(2), Err(Refusal::InputLength));
    /// ```
    pub fn check(number: u32) -> Result<(), Refusal> {
        match number {
            0 => Ok(()),
            1 => Err(Refusal::Side),
            2 => Err(Refusal::InputLength),
            3 => Err(Refusal::Room),
            4 => Err(Refusal::Colour),
            5 => Err(Refusal::Tolerance),
            6 => Err(Refusal::Alpha),
            11 => Err(Refusal::CardColour),
            other => Err(Refusal::Unknown(other)),
        }
    }

    /// The number of the refusal.
    ///
    /// ```
    /// assert_eq!(stand::Refusal::Side.number(), 1);
    /// ```
    pub fn number(self) -> u32 {
        match self {
            Refusal::Side => 1,
            Refusal::InputLength => 2,
            Refusal::Room => 3,
            Refusal::Colour => 4,
            Refusal::Tolerance => 5,
            Refusal::Alpha => 6,
            Refusal::CardColour => 11,
            Refusal::Unknown(other) => other,
        }
    }
}

impl fmt::Display for Refusal {
    fn fmt(&self, f: &mut fmt::Formatter<'_>) -> fmt::Result {
        write!(f, "refused {}: ", self.number())?;
        match self {
            Refusal::Side => write!(
                f,
                "a side is 0 or more than {MOST_SIDE}; use a picture of 1 to {MOST_SIDE} rows and \
                 1 to {MOST_SIDE} columns"
            ),
            Refusal::InputLength => f.write_str(
                "an input does not have the length of its plane; give a mask, a background or an \
                 alpha of h × w bytes and colours of 3 × h × w numbers",
            ),
            Refusal::Room => f.write_str(
                "an output does not have the length of its plane, or a work buffer is too small; \
                 lend outputs of h × w numbers (colours: 3 × h × w) and work buffers of at least \
                 2 × h × w + 2 × (h + w) + 16 numbers",
            ),
            Refusal::Colour => f.write_str(
                "a colour is below 0, above 1 or no number; scale the picture's colours, and the \
                 reference where you give one, to 0 to 1",
            ),
            Refusal::Tolerance => f.write_str(
                "the tolerance is infinite or no number; use a finite one, such as 0.03125",
            ),
            Refusal::Alpha => f.write_str(
                "no pixel's alpha reaches the threshold; lower the threshold, or give a picture \
                 that is not wholly transparent",
            ),
            Refusal::CardColour => f.write_str(
                "the card's colour is not six hexadecimal digits; give it as in F4F1E8, without # \
                 and without spaces",
            ),
            Refusal::Unknown(_) => f.write_str(
                "the number is not known here; build this crate and libstand.a from one version",
            ),
        }
    }
}

impl std::error::Error for Refusal {}

/// How many numbers a work buffer needs for a plane of `h` rows and `w` columns; `None` where a
/// side is 0 or more than [`MOST_SIDE`].
///
/// ```
/// assert_eq!(stand::work_len(2, 3), Some(38));
/// assert_eq!(stand::work_len(4097, 1), None);
/// ```
pub fn work_len(h: usize, w: usize) -> Option<usize> {
    plane_len(h, w).map(|n| 2 * n + 2 * (h + w) + 16)
}

fn plane_len(h: usize, w: usize) -> Option<usize> {
    let side = 1..=MOST_SIDE;
    (side.contains(&h) && side.contains(&w)).then(|| h * w)
}

/// A buffer of `len` zeros; an empty one where a side is refused, since the library tests the
/// sides first and then uses no buffer.
fn zeros<T: Clone + Default>(len: Option<usize>) -> Vec<T> {
    vec![T::default(); len.unwrap_or(0)]
}

/// For each pixel the on-pixel nearest to it: see [`nearest`].
#[derive(Clone, Debug, PartialEq, Eq)]
pub struct Nearest {
    /// The row of the nearest on-pixel, -1 where none is on.
    pub rows: Vec<i32>,
    /// The column of the nearest on-pixel, 0 where none is on.
    pub cols: Vec<i32>,
}

impl Nearest {
    /// Row and column of the on-pixel nearest to the pixel of index `y * w + x`; `None` where the
    /// mask has no on-pixel or the index lies outside the plane.
    ///
    /// ```
    /// let found = stand::nearest(&[0, 0, 1], 1, 3)?;
    /// assert_eq!(found.get(0), Some((0, 2)));
    /// assert_eq!(stand::nearest(&[0, 0, 0], 1, 3)?.get(0), None);
    /// # Ok::<(), stand::Refusal>(())
    /// ```
    pub fn get(&self, index: usize) -> Option<(usize, usize)> {
        let row = usize::try_from(*self.rows.get(index)?).ok()?;
        let col = usize::try_from(*self.cols.get(index)?).ok()?;
        Some((row, col))
    }
}

/// For each pixel the row and the column of the on-pixel at the least dy² + dx²; among equals the
/// least column, and within it the least row. An on-pixel gets itself. With no on-pixel every pixel
/// gets row -1, column 0.
///
/// ```
/// // The middle pixel is as far from either end: the least column is taken.
/// let found = stand::nearest(&[1, 0, 1], 1, 3)?;
/// assert_eq!(found.rows, [0, 0, 0]);
/// assert_eq!(found.cols, [0, 0, 2]);
/// # Ok::<(), stand::Refusal>(())
/// ```
pub fn nearest(mask: &[u8], h: usize, w: usize) -> Result<Nearest, Refusal> {
    let plane = plane_len(h, w);
    let mut work = zeros(work_len(h, w));
    let mut rows = zeros(plane);
    let mut cols = zeros(plane);
    Refusal::check(raw::nearest(mask, h, w, &mut work, &mut rows, &mut cols))?;
    Ok(Nearest { rows, cols })
}

/// The parts of a mask: see [`labels`].
#[derive(Clone, Debug, PartialEq, Eq)]
pub struct Labels {
    /// For each pixel the number of its part, from 1 to `count`; 0 off the mask.
    pub plane: Vec<u32>,
    /// How many parts there are.
    pub count: u32,
}

/// On-pixels joined by steps up, down, left or right share a label. Labels run from 1 in the order
/// of each part's first pixel, row by row from the left; off the mask it is 0.
///
/// ```
/// let parts = stand::labels(&[1, 0, 0, 1], 2, 2)?; // they touch at a corner only
/// assert_eq!((parts.count, parts.plane), (2, vec![1, 0, 0, 2]));
/// # Ok::<(), stand::Refusal>(())
/// ```
pub fn labels(mask: &[u8], h: usize, w: usize) -> Result<Labels, Refusal> {
    let mut parents = zeros(work_len(h, w));
    let mut plane = zeros(plane_len(h, w));
    let answer = raw::labels(mask, h, w, &mut parents, &mut plane);
    Refusal::check(answer.refusal)?;
    Ok(Labels {
        plane,
        count: answer.parts,
    })
}

/// The mask grown by squares: a pixel is 1 exactly when an on-pixel of `mask` is at most k rows and
/// at most k columns away, else 0. k is `iterations`, but never more than the larger side; 0
/// iterations mean the larger side. An empty mask stays empty.
///
/// ```
/// assert_eq!(stand::squares(&[1, 0, 0, 0, 0], 1, 5, 1)?, [1, 1, 0, 0, 0]);
/// assert_eq!(stand::squares(&[1, 0, 0, 0, 0], 1, 5, 0)?, [1, 1, 1, 1, 1]);
/// # Ok::<(), stand::Refusal>(())
/// ```
pub fn squares(mask: &[u8], h: usize, w: usize, iterations: u64) -> Result<Vec<u8>, Refusal> {
    let mut work = zeros(work_len(h, w));
    let mut out = zeros(plane_len(h, w));
    Refusal::check(raw::squares(mask, h, w, iterations, &mut work, &mut out))?;
    Ok(out)
}

/// dy² + dx² from each pixel to its nearest on-pixel. With no on-pixel, pixel (y, x) gets
/// (y + 1)² + x², the square distance from row -1, column 0.
///
/// ```
/// assert_eq!(stand::square_distance(&[1, 0, 0, 0], 2, 2)?, [0, 1, 1, 2]);
/// assert_eq!(stand::square_distance(&[0, 0, 0, 0], 2, 2)?, [1, 2, 4, 5]);
/// # Ok::<(), stand::Refusal>(())
/// ```
pub fn square_distance(mask: &[u8], h: usize, w: usize) -> Result<Vec<u32>, Refusal> {
    let mut work = zeros(work_len(h, w));
    let mut out = zeros(plane_len(h, w));
    Refusal::check(raw::distance(mask, h, w, &mut work, &mut out))?;
    Ok(out)
}

/// Each pixel takes the colour of its nearest on-pixel, bit for bit; an on-pixel keeps its own. With
/// no on-pixel every pixel takes the colour of the first pixel of the last row. A colour is three
/// numbers, channel c of pixel i at `3 * i + c`; they may be any f64.
///
/// ```
/// let colours = [0.1, 0.2, 0.3, 9.0, 9.0, 9.0];
/// let filled = stand::fill_transparent(&colours, &[1, 0], 1, 2)?;
/// assert_eq!(filled, [0.1, 0.2, 0.3, 0.1, 0.2, 0.3]);
/// # Ok::<(), stand::Refusal>(())
/// ```
pub fn fill_transparent(
    colours: &[f64],
    mask: &[u8],
    h: usize,
    w: usize,
) -> Result<Vec<f64>, Refusal> {
    let mut work = zeros(work_len(h, w));
    let mut out = zeros(plane_len(h, w).map(|n| 3 * n));
    Refusal::check(raw::fill(colours, mask, h, w, &mut work, &mut out))?;
    Ok(out)
}

/// A colour: three numbers from 0 to 1. It crosses the C interface as it is.
#[repr(C)]
#[derive(Clone, Copy, Debug, Default, PartialEq)]
pub struct Rgb {
    /// Red.
    pub r: f64,
    /// Green.
    pub g: f64,
    /// Blue.
    pub b: f64,
}

/// The plain card around an object: see [`ground`].
#[derive(Clone, Debug, PartialEq)]
pub struct Ground {
    /// 1 on the ground, 0 elsewhere.
    pub plane: Vec<u8>,
    /// The colour of the border: of each channel half the sum of its two middle values, a zero as
    /// +0. Where the card's colour is given, that colour.
    pub reference: Rgb,
}

/// Makes the buffers of a call that seeks the ground, and gives what it found.
fn ground_by(
    h: usize,
    w: usize,
    call: impl FnOnce(&mut [u32], &mut [u8]) -> raw::StandGround,
) -> Result<Option<Ground>, Refusal> {
    let mut work = zeros(work_len(h, w));
    let mut plane = zeros(plane_len(h, w));
    let answer = call(&mut work, &mut plane);
    Refusal::check(answer.refusal)?;
    Ok(answer.found.then_some(Ground {
        plane,
        reference: answer.reference,
    }))
}

/// The ground of a picture, or `None` where it has none.
///
/// The border list is row 0, row h − 1, then column 0 and column w − 1 of the rows between, repeats
/// included; the reference is its median, channel by channel. A pixel is close when none of its
/// channels is farther than `tolerance` from the reference. The ground is the close pixels joined to
/// a close border pixel by steps up, down, left or right over close pixels. It is found when at
/// least nine tenths of the border list are close and some pixel is not ground. A negative tolerance
/// is accepted, and finds nothing.
///
/// ```
/// let mut colours = [1.0; 36]; // 3 rows, 4 columns, white
/// colours[..3].fill(0.0); // (0, 0) black: 9 of 10 are close
/// let ground = stand::ground(&colours, 3, 4, 0.0)?.expect("a ground");
/// assert_eq!(ground.plane, [0, 1, 1, 1, 1, 1, 1, 1, 1, 1, 1, 1]);
/// assert_eq!(ground.reference, stand::Rgb { r: 1.0, g: 1.0, b: 1.0 });
///
/// colours[3..6].fill(0.0); // (0, 1) black too: 8 of 10
/// assert_eq!(stand::ground(&colours, 3, 4, 0.0)?, None);
/// # Ok::<(), stand::Refusal>(())
/// ```
pub fn ground(
    colours: &[f64],
    h: usize,
    w: usize,
    tolerance: f64,
) -> Result<Option<Ground>, Refusal> {
    ground_by(h, w, |work, out| {
        raw::ground(colours, h, w, tolerance, work, out)
    })
}

/// The ground of a picture on card of a known colour, or `None` where it has none.
///
/// `text` is the colour in six hexadecimal digits, of either case, without # and without spaces. Its
/// three bytes divided by 255 are the reference, in place of the border's median; all else is as in
/// [`ground`]. Nine tenths of the border list must be close to the given colour, and where they are
/// not, the border's own is not tried.
///
/// ```
/// use stand::Refusal;
///
/// let mut colours = [1.0; 27]; // 3 rows, 3 columns, white
/// colours[12..15].fill(0.0); // (1, 1) black
/// let ground = stand::ground_with_colour(&colours, 3, 3, "FFFFFF", 0.0)?.expect("a ground");
/// assert_eq!(ground.plane, [1, 1, 1, 1, 0, 1, 1, 1, 1]);
/// assert_eq!(ground.reference, stand::Rgb { r: 1.0, g: 1.0, b: 1.0 });
///
/// // The border is white and not black.
/// assert_eq!(stand::ground_with_colour(&colours, 3, 3, "000000", 0.0)?, None);
/// let refused = stand::ground_with_colour(&colours, 3, 3, "#FFFFFF", 0.0);
/// assert_eq!(refused, Err(Refusal::CardColour));
/// # Ok::<(), Refusal>(())
/// ```
pub fn ground_with_colour(
    colours: &[f64],
    h: usize,
    w: usize,
    text: impl AsRef<[u8]>,
    tolerance: f64,
) -> Result<Option<Ground>, Refusal> {
    ground_by(h, w, |work, out| {
        raw::ground_with_colour(colours, h, w, text.as_ref(), tolerance, work, out)
    })
}

/// The work buffers of growth and cut.
struct Buffers {
    nearest: Vec<u32>,
    shallow: Vec<u8>,
    deep: Vec<u8>,
    marks: Vec<u8>,
}

impl Buffers {
    fn new(h: usize, w: usize) -> Buffers {
        let len = work_len(h, w);
        Buffers {
            nearest: zeros(len),
            shallow: zeros(len),
            deep: zeros(len),
            marks: zeros(len),
        }
    }

    fn lend(&mut self) -> raw::Work<'_> {
        raw::Work {
            nearest: &mut self.nearest,
            shallow: &mut self.shallow,
            deep: &mut self.deep,
            marks: &mut self.marks,
        }
    }
}

/// The background after at most `passes` passes, none for a negative number; each takes pixels of
/// the object's anti-aliased rim into it.
///
/// An edge pixel, not background but within one row and one column of it, joins when it is less than
/// half as far from `reference` as its body colour is: the colour of the nearest pixel that is more
/// than 4 rows or columns away from the background, if dy² + dx² is at most 36, else of the nearest
/// pixel that is neither background nor edge. All joins of a pass take effect together, and a pass
/// without a join ends growth. Any non-zero byte of `background` is on; the result holds 0 and 1.
///
/// ```
/// // 27 white pixels, a light one, two black ones.
/// let mut colours = [1.0; 90];
/// colours[81..84].fill(0.75);
/// colours[84..].fill(0.0);
/// let white = stand::Rgb { r: 1.0, g: 1.0, b: 1.0 };
/// let mut background = [1; 30];
/// background[27..].fill(0);
/// let grown = stand::growth(&colours, &background, 1, 30, white, 1)?;
/// assert_eq!(grown[26..], [1, 1, 0, 0]);
///
/// colours[81..84].fill(0.5); // half as far as black
/// let grown = stand::growth(&colours, &background, 1, 30, white, 1)?;
/// assert_eq!(grown[26..], [1, 0, 0, 0]);
/// # Ok::<(), stand::Refusal>(())
/// ```
pub fn growth(
    colours: &[f64],
    background: &[u8],
    h: usize,
    w: usize,
    reference: Rgb,
    passes: i64,
) -> Result<Vec<u8>, Refusal> {
    let mut buffers = Buffers::new(h, w);
    let mut out = zeros(plane_len(h, w));
    Refusal::check(raw::growth(
        colours,
        background,
        h,
        w,
        reference,
        passes,
        &mut buffers.lend(),
        &mut out,
    ))?;
    Ok(out)
}

/// What one more pass would do to a background: see [`next_pass`].
#[derive(Clone, Debug, PartialEq, Eq)]
pub struct NextPass {
    /// The background after that pass, 1 on it and 0 elsewhere.
    pub background: Vec<u8>,
    /// How many pixels are on it that were not on the background before.
    pub joins: u64,
}

/// A look at the coming pass: the background that one more pass of [`growth`] would make, and how
/// many pixels it would take off the object.
///
/// The number is 0 exactly where growth ends there; the result then has the pixels of `background`,
/// written as 0 and 1. What [`growth`] refuses is refused here, with the same number.
///
/// ```
/// // White, two pixels that are nearly so, four black ones; a background of one pixel.
/// let greys = [1.0, 0.875, 0.75, 0.0, 0.0, 0.0, 0.0];
/// let colours: Vec<f64> = greys.iter().flat_map(|&grey| [grey; 3]).collect();
/// let white = stand::Rgb { r: 1.0, g: 1.0, b: 1.0 };
/// let look = |background: &[u8]| stand::next_pass(&colours, background, 1, 7, white);
///
/// // The second pixel joins, and the third only after it.
/// let first = look(&[7, 0, 0, 0, 0, 0, 0])?;
/// assert_eq!((first.background, first.joins), (vec![1, 1, 0, 0, 0, 0, 0], 1));
/// let second = look(&[1, 1, 0, 0, 0, 0, 0])?;
/// assert_eq!((second.background, second.joins), (vec![1, 1, 1, 0, 0, 0, 0], 1));
///
/// // Black does not join: growth ends.
/// let last = look(&[1, 1, 255, 0, 0, 0, 0])?;
/// assert_eq!((last.background, last.joins), (vec![1, 1, 1, 0, 0, 0, 0], 0));
/// # Ok::<(), stand::Refusal>(())
/// ```
pub fn next_pass(
    colours: &[f64],
    background: &[u8],
    h: usize,
    w: usize,
    reference: Rgb,
) -> Result<NextPass, Refusal> {
    let mut buffers = Buffers::new(h, w);
    let mut next = zeros(plane_len(h, w));
    let work = &mut buffers.lend();
    let answer = raw::next_pass(colours, background, h, w, reference, work, &mut next);
    Refusal::check(answer.refusal)?;
    Ok(NextPass {
        background: next,
        joins: answer.joins,
    })
}

/// A picture: `h` rows of `w` pixels.
#[derive(Clone, Copy, Debug, PartialEq)]
pub struct Picture<'a> {
    /// 3 × h × w numbers from 0 to 1, channel c of pixel i at `3 * i + c`.
    pub colours: &'a [f64],
    /// h × w bytes, 0 for transparent and 255 for opaque.
    pub alpha: &'a [u8],
    /// How many rows, 1 to [`MOST_SIDE`].
    pub h: usize,
    /// How many columns, 1 to [`MOST_SIDE`].
    pub w: usize,
}

/// The five settings of a cut. They cross the C interface as they are.
///
/// ```
/// use stand::Settings;
/// let wider = Settings { key_bg_fringe: 3, ..Settings::default() };
/// assert_eq!(wider.alpha_threshold, 128);
/// ```
#[repr(C)]
#[derive(Clone, Copy, Debug, PartialEq)]
pub struct Settings {
    /// The mask is on where alpha is at least this.
    pub alpha_threshold: i64,
    /// Whether a ground is sought where that mask is full.
    pub key_bg: bool,
    /// The most passes of growth; a negative number counts as 0.
    pub key_bg_fringe: i64,
    /// How far from the reference the ground may be.
    pub key_bg_tolerance: f64,
    /// Whether the crop box is the mask's, and not the whole picture.
    pub crop_to_alpha: bool,
}

impl Default for Settings {
    /// Threshold 128, keying on, one pass of growth, tolerance 0.03125, cropping on.
    fn default() -> Settings {
        Settings {
            alpha_threshold: 128,
            key_bg: true,
            key_bg_fringe: 1,
            key_bg_tolerance: 0.03125,
            crop_to_alpha: true,
        }
    }
}

/// A crop box.
#[derive(Clone, Debug, PartialEq, Eq)]
pub struct Crop {
    /// Its rows.
    pub rows: Range<usize>,
    /// Its columns.
    pub cols: Range<usize>,
}

/// The outline of a picture: see [`cut`] and [`cut_with_colour`].
#[derive(Clone, Debug, PartialEq)]
pub struct Cut {
    /// 1 on the object, 0 elsewhere; it is never empty.
    pub mask: Vec<u8>,
    /// max(alpha, 1) / 255 on the mask, 0 elsewhere.
    pub weights: Vec<f64>,
    /// Whether a ground was sought and found.
    pub keyed: bool,
    /// The mask's box with one pixel added on each side, clamped to the picture; the whole picture
    /// where `crop_to_alpha` is off or the mask is full.
    pub crop: Crop,
}

/// Makes the buffers of a call that cuts, and gives the outline that it wrote.
fn cut_by(
    h: usize,
    w: usize,
    call: impl FnOnce(&mut raw::Work<'_>, &mut [u8], &mut [f64]) -> raw::StandCut,
) -> Result<Cut, Refusal> {
    let mut buffers = Buffers::new(h, w);
    let mut mask = zeros(plane_len(h, w));
    let mut weights = zeros(plane_len(h, w));
    let answer = call(&mut buffers.lend(), &mut mask, &mut weights);
    Refusal::check(answer.refusal)?;
    Ok(Cut {
        mask,
        weights,
        keyed: answer.keyed,
        crop: Crop {
            rows: answer.y0..answer.y1,
            cols: answer.x0..answer.x1,
        },
    })
}

/// The outline of a picture.
///
/// The mask is on where alpha is at least the threshold. If it is on everywhere and `key_bg` asks for
/// it, the [`ground`] is sought and grown by [`growth`], and the mask becomes what it leaves; where
/// no ground is found, the mask stays full. What is wrong with the picture or the settings is refused
/// whether or not the settings make use of it.
///
/// ```
/// use stand::{Picture, Refusal, Settings};
///
/// // Three pixels, the first opaque, the second nearly, the third transparent.
/// let picture = Picture { colours: &[0.5; 9], alpha: &[255, 200, 0], h: 1, w: 3 };
/// let cut = stand::cut(&picture, &Settings::default())?;
/// assert_eq!(cut.mask, [1, 1, 0]);
/// assert_eq!(cut.weights, [1.0, 200.0 / 255.0, 0.0]);
/// assert!(!cut.keyed);
/// assert_eq!((cut.crop.rows, cut.crop.cols), (0..1, 0..3));
///
/// let settings = Settings { alpha_threshold: 256, ..Settings::default() };
/// assert_eq!(stand::cut(&picture, &settings), Err(Refusal::Alpha));
/// # Ok::<(), stand::Refusal>(())
/// ```
pub fn cut(picture: &Picture<'_>, settings: &Settings) -> Result<Cut, Refusal> {
    let Picture {
        colours,
        alpha,
        h,
        w,
    } = *picture;
    cut_by(h, w, |work, mask, weights| {
        raw::cut(colours, alpha, h, w, *settings, work, mask, weights)
    })
}

/// The outline of a picture on card of a known colour.
///
/// `text` is the colour in six hexadecimal digits, of either case, without # and without spaces. The
/// ground is the one that [`ground_with_colour`] finds, and the given colour is the reference that it
/// grows with; all else is as in [`cut`]. A text that is no such colour is refused where no ground is
/// sought, too.
///
/// ```
/// use stand::{Picture, Refusal, Settings};
///
/// // A black pixel on white card.
/// let mut colours = [1.0; 75];
/// colours[36..39].fill(0.0);
/// let picture = Picture { colours: &colours, alpha: &[255; 25], h: 5, w: 5 };
/// let settings = Settings::default();
/// let cut = stand::cut_with_colour(&picture, "FFFFFF", &settings)?;
/// assert_eq!(cut, stand::cut(&picture, &settings)?);
///
/// // The card is not grey: none is found, and the whole picture is the object.
/// let cut = stand::cut_with_colour(&picture, "808080", &settings)?;
/// assert_eq!((cut.keyed, cut.mask), (false, vec![1; 25]));
///
/// let refused = stand::cut_with_colour(&picture, "white", &settings);
/// assert_eq!(refused, Err(Refusal::CardColour));
/// # Ok::<(), Refusal>(())
/// ```
pub fn cut_with_colour(
    picture: &Picture<'_>,
    text: impl AsRef<[u8]>,
    settings: &Settings,
) -> Result<Cut, Refusal> {
    let Picture {
        colours,
        alpha,
        h,
        w,
    } = *picture;
    let text = text.as_ref();
    cut_by(h, w, |work, mask, weights| {
        raw::cut_with_colour(colours, alpha, h, w, text, *settings, work, mask, weights)
    })
}
