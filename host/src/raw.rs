//! The library's calls on lent buffers, as they are.
//!
//! Each function here is one call of the C interface (`include/stand.h`). The buffers may have
//! any length: the library tests them, answers a number, and after a refusal leaves every buffer
//! as it was. Use these to keep buffers from one picture to the next; the functions at the root of
//! this crate make the buffers themselves.
//!
//! This is the only module with `unsafe` in it. What makes the calls sound: a slice is a pointer
//! that is aligned and not null, with that many elements behind it; `&mut` slices overlap nothing;
//! the library keeps no pointer, asks nothing else of its caller, and is proved to stay inside.

use crate::{Rgb, Settings};

/// What [`labels`] answers.
#[repr(C)]
#[derive(Clone, Copy, Debug, PartialEq, Eq)]
pub struct StandLabels {
    /// 0, or the number of the refusal.
    pub refusal: u32,
    /// How many parts the mask has; 0 when refused.
    pub parts: u32,
}

/// What [`ground`] and [`ground_with_colour`] answer.
#[repr(C)]
#[derive(Clone, Copy, Debug, PartialEq)]
pub struct StandGround {
    /// 0, or the number of the refusal.
    pub refusal: u32,
    /// Whether the ground was found; false when refused.
    pub found: bool,
    /// The border's colour, or the one that is given, a zero as +0; all +0 when not found.
    pub reference: Rgb,
}

/// What [`next_pass`] answers.
#[repr(C)]
#[derive(Clone, Copy, Debug, PartialEq, Eq)]
pub struct StandNextPass {
    /// 0, or the number of the refusal.
    pub refusal: u32,
    /// How many pixels would join; 0 when refused.
    pub joins: u64,
}

/// What [`cut`] and [`cut_with_colour`] answer.
#[repr(C)]
#[derive(Clone, Copy, Debug, PartialEq, Eq)]
pub struct StandCut {
    /// 0, or the number of the refusal.
    pub refusal: u32,
    /// Whether a ground was sought and found; false when refused.
    pub keyed: bool,
    /// The first row of the crop box; with the next three, 0 when refused.
    pub y0: usize,
    /// The row after its last.
    pub y1: usize,
    /// Its first column.
    pub x0: usize,
    /// The column after its last.
    pub x1: usize,
}

// The layout that the library was built for.
#[cfg(target_pointer_width = "64")]
const _: () = {
    assert!(size_of::<Settings>() == 40);
    assert!(size_of::<StandCut>() == 40);
    assert!(size_of::<StandGround>() == 32);
    assert!(size_of::<StandNextPass>() == 16);
};

/// The work buffers of [`growth`], [`next_pass`], [`cut`] and [`cut_with_colour`], each of at least
/// [`crate::work_len`] numbers: 14 bytes a pixel in all.
#[derive(Debug)]
pub struct Work<'a> {
    /// The border's values and the pixels that the flood has still to look at, then the indices of
    /// nearest pixels.
    pub nearest: &'a mut [u32],
    /// The shallow pixels.
    pub shallow: &'a mut [u8],
    /// The deep pixels.
    pub deep: &'a mut [u8],
    /// What a pass has decided of each pixel; in the end 1 where it joins.
    pub marks: &'a mut [u8],
}

/// The exports themselves, on pointers: for what slices cannot say. What the caller sees to is in
/// `include/stand.h`.
#[allow(missing_docs)]
pub mod exports {
    use super::{StandCut, StandGround, StandLabels, StandNextPass};
    use crate::{Rgb, Settings};

    extern "C" {
        pub fn stand_nearest(
            mask: *const u8,
            mask_len: usize,
            h: usize,
            w: usize,
            work: *mut u32,
            work_len: usize,
            rows: *mut i32,
            rows_len: usize,
            cols: *mut i32,
            cols_len: usize,
        ) -> u32;
        pub fn stand_labels(
            mask: *const u8,
            mask_len: usize,
            h: usize,
            w: usize,
            parents: *mut u32,
            parents_len: usize,
            labels: *mut u32,
            labels_len: usize,
        ) -> StandLabels;
        pub fn stand_squares(
            mask: *const u8,
            mask_len: usize,
            h: usize,
            w: usize,
            iterations: u64,
            work: *mut u8,
            work_len: usize,
            out: *mut u8,
            out_len: usize,
        ) -> u32;
        pub fn stand_distance(
            mask: *const u8,
            mask_len: usize,
            h: usize,
            w: usize,
            work: *mut u32,
            work_len: usize,
            out: *mut u32,
            out_len: usize,
        ) -> u32;
        pub fn stand_fill(
            colours: *const u64,
            colours_len: usize,
            mask: *const u8,
            mask_len: usize,
            h: usize,
            w: usize,
            work: *mut u32,
            work_len: usize,
            out: *mut u64,
            out_len: usize,
        ) -> u32;
        pub fn stand_ground(
            colours: *const f64,
            colours_len: usize,
            h: usize,
            w: usize,
            tolerance: f64,
            work: *mut u32,
            work_len: usize,
            out: *mut u8,
            out_len: usize,
        ) -> StandGround;
        pub fn stand_ground_with_colour(
            colours: *const f64,
            colours_len: usize,
            h: usize,
            w: usize,
            text: *const u8,
            text_len: usize,
            tolerance: f64,
            work: *mut u32,
            work_len: usize,
            out: *mut u8,
            out_len: usize,
        ) -> StandGround;
        pub fn stand_growth(
            colours: *const f64,
            colours_len: usize,
            background: *const u8,
            background_len: usize,
            h: usize,
            w: usize,
            reference: Rgb,
            passes: i64,
            nearest: *mut u32,
            nearest_len: usize,
            shallow: *mut u8,
            shallow_len: usize,
            deep: *mut u8,
            deep_len: usize,
            marks: *mut u8,
            marks_len: usize,
            out: *mut u8,
            out_len: usize,
        ) -> u32;
        pub fn stand_next_pass(
            colours: *const f64,
            colours_len: usize,
            background: *const u8,
            background_len: usize,
            h: usize,
            w: usize,
            reference: Rgb,
            nearest: *mut u32,
            nearest_len: usize,
            shallow: *mut u8,
            shallow_len: usize,
            deep: *mut u8,
            deep_len: usize,
            marks: *mut u8,
            marks_len: usize,
            out: *mut u8,
            out_len: usize,
        ) -> StandNextPass;
        pub fn stand_cut(
            colours: *const f64,
            colours_len: usize,
            alpha: *const u8,
            alpha_len: usize,
            h: usize,
            w: usize,
            settings: Settings,
            nearest: *mut u32,
            nearest_len: usize,
            shallow: *mut u8,
            shallow_len: usize,
            deep: *mut u8,
            deep_len: usize,
            marks: *mut u8,
            marks_len: usize,
            mask: *mut u8,
            mask_len: usize,
            weights: *mut f64,
            weights_len: usize,
        ) -> StandCut;
        pub fn stand_cut_with_colour(
            colours: *const f64,
            colours_len: usize,
            alpha: *const u8,
            alpha_len: usize,
            h: usize,
            w: usize,
            text: *const u8,
            text_len: usize,
            settings: Settings,
            nearest: *mut u32,
            nearest_len: usize,
            shallow: *mut u8,
            shallow_len: usize,
            deep: *mut u8,
            deep_len: usize,
            marks: *mut u8,
            marks_len: usize,
            mask: *mut u8,
            mask_len: usize,
            weights: *mut f64,
            weights_len: usize,
        ) -> StandCut;
    }
}
use exports::*;

/// `stand_nearest`: `work` is a work buffer, `rows` and `cols` are outputs of h × w numbers.
pub fn nearest(
    mask: &[u8],
    h: usize,
    w: usize,
    work: &mut [u32],
    rows: &mut [i32],
    cols: &mut [i32],
) -> u32 {
    unsafe {
        stand_nearest(
            mask.as_ptr(),
            mask.len(),
            h,
            w,
            work.as_mut_ptr(),
            work.len(),
            rows.as_mut_ptr(),
            rows.len(),
            cols.as_mut_ptr(),
            cols.len(),
        )
    }
}

/// `stand_labels`: `parents` is a work buffer, `labels` an output of h × w numbers.
pub fn labels(
    mask: &[u8],
    h: usize,
    w: usize,
    parents: &mut [u32],
    labels: &mut [u32],
) -> StandLabels {
    unsafe {
        stand_labels(
            mask.as_ptr(),
            mask.len(),
            h,
            w,
            parents.as_mut_ptr(),
            parents.len(),
            labels.as_mut_ptr(),
            labels.len(),
        )
    }
}

/// `stand_squares`: `work` is a work buffer, `out` an output of h × w bytes. After the call each byte
/// of `work`, also beyond h × w, is 0, 1 or what it was before; after a refusal it is what it was.
pub fn squares(
    mask: &[u8],
    h: usize,
    w: usize,
    iterations: u64,
    work: &mut [u8],
    out: &mut [u8],
) -> u32 {
    unsafe {
        stand_squares(
            mask.as_ptr(),
            mask.len(),
            h,
            w,
            iterations,
            work.as_mut_ptr(),
            work.len(),
            out.as_mut_ptr(),
            out.len(),
        )
    }
}

/// `stand_distance`: `work` is a work buffer, `out` an output of h × w numbers.
pub fn distance(mask: &[u8], h: usize, w: usize, work: &mut [u32], out: &mut [u32]) -> u32 {
    unsafe {
        stand_distance(
            mask.as_ptr(),
            mask.len(),
            h,
            w,
            work.as_mut_ptr(),
            work.len(),
            out.as_mut_ptr(),
            out.len(),
        )
    }
}

/// `stand_fill` on f64: the library moves the bits of the numbers and nothing else. `work` is a
/// work buffer, `out` an output of 3 × h × w numbers.
pub fn fill(
    colours: &[f64],
    mask: &[u8],
    h: usize,
    w: usize,
    work: &mut [u32],
    out: &mut [f64],
) -> u32 {
    // f64 and u64 have one size, and any bits are a value of either; that they have one alignment
    // is asked here, since it is a matter of the platform.
    const { assert!(align_of::<f64>() == align_of::<u64>()) };
    unsafe {
        stand_fill(
            colours.as_ptr().cast(),
            colours.len(),
            mask.as_ptr(),
            mask.len(),
            h,
            w,
            work.as_mut_ptr(),
            work.len(),
            out.as_mut_ptr().cast(),
            out.len(),
        )
    }
}

/// `stand_ground`: `work` is a work buffer, `out` an output of h × w bytes.
pub fn ground(
    colours: &[f64],
    h: usize,
    w: usize,
    tolerance: f64,
    work: &mut [u32],
    out: &mut [u8],
) -> StandGround {
    unsafe {
        stand_ground(
            colours.as_ptr(),
            colours.len(),
            h,
            w,
            tolerance,
            work.as_mut_ptr(),
            work.len(),
            out.as_mut_ptr(),
            out.len(),
        )
    }
}

/// `stand_ground_with_colour`: `text` is the six digits of the card's colour, `work` a work buffer,
/// `out` an output of h × w bytes.
pub fn ground_with_colour(
    colours: &[f64],
    h: usize,
    w: usize,
    text: &[u8],
    tolerance: f64,
    work: &mut [u32],
    out: &mut [u8],
) -> StandGround {
    unsafe {
        stand_ground_with_colour(
            colours.as_ptr(),
            colours.len(),
            h,
            w,
            text.as_ptr(),
            text.len(),
            tolerance,
            work.as_mut_ptr(),
            work.len(),
            out.as_mut_ptr(),
            out.len(),
        )
    }
}

/// `stand_growth`: `out` is an output of h × w bytes.
#[allow(clippy::too_many_arguments)]
pub fn growth(
    colours: &[f64],
    background: &[u8],
    h: usize,
    w: usize,
    reference: Rgb,
    passes: i64,
    work: &mut Work<'_>,
    out: &mut [u8],
) -> u32 {
    unsafe {
        stand_growth(
            colours.as_ptr(),
            colours.len(),
            background.as_ptr(),
            background.len(),
            h,
            w,
            reference,
            passes,
            work.nearest.as_mut_ptr(),
            work.nearest.len(),
            work.shallow.as_mut_ptr(),
            work.shallow.len(),
            work.deep.as_mut_ptr(),
            work.deep.len(),
            work.marks.as_mut_ptr(),
            work.marks.len(),
            out.as_mut_ptr(),
            out.len(),
        )
    }
}

/// `stand_next_pass`: `out` is an output of h × w bytes.
pub fn next_pass(
    colours: &[f64],
    background: &[u8],
    h: usize,
    w: usize,
    reference: Rgb,
    work: &mut Work<'_>,
    out: &mut [u8],
) -> StandNextPass {
    unsafe {
        stand_next_pass(
            colours.as_ptr(),
            colours.len(),
            background.as_ptr(),
            background.len(),
            h,
            w,
            reference,
            work.nearest.as_mut_ptr(),
            work.nearest.len(),
            work.shallow.as_mut_ptr(),
            work.shallow.len(),
            work.deep.as_mut_ptr(),
            work.deep.len(),
            work.marks.as_mut_ptr(),
            work.marks.len(),
            out.as_mut_ptr(),
            out.len(),
        )
    }
}

/// `stand_cut`: `mask` is an output of h × w bytes, `weights` one of h × w numbers.
#[allow(clippy::too_many_arguments)]
pub fn cut(
    colours: &[f64],
    alpha: &[u8],
    h: usize,
    w: usize,
    settings: Settings,
    work: &mut Work<'_>,
    mask: &mut [u8],
    weights: &mut [f64],
) -> StandCut {
    unsafe {
        stand_cut(
            colours.as_ptr(),
            colours.len(),
            alpha.as_ptr(),
            alpha.len(),
            h,
            w,
            settings,
            work.nearest.as_mut_ptr(),
            work.nearest.len(),
            work.shallow.as_mut_ptr(),
            work.shallow.len(),
            work.deep.as_mut_ptr(),
            work.deep.len(),
            work.marks.as_mut_ptr(),
            work.marks.len(),
            mask.as_mut_ptr(),
            mask.len(),
            weights.as_mut_ptr(),
            weights.len(),
        )
    }
}

/// `stand_cut_with_colour`: `text` is the six digits of the card's colour, `mask` an output of h × w
/// bytes, `weights` one of h × w numbers.
#[allow(clippy::too_many_arguments)]
pub fn cut_with_colour(
    colours: &[f64],
    alpha: &[u8],
    h: usize,
    w: usize,
    text: &[u8],
    settings: Settings,
    work: &mut Work<'_>,
    mask: &mut [u8],
    weights: &mut [f64],
) -> StandCut {
    unsafe {
        stand_cut_with_colour(
            colours.as_ptr(),
            colours.len(),
            alpha.as_ptr(),
            alpha.len(),
            h,
            w,
            text.as_ptr(),
            text.len(),
            settings,
            work.nearest.as_mut_ptr(),
            work.nearest.len(),
            work.shallow.as_mut_ptr(),
            work.shallow.len(),
            work.deep.as_mut_ptr(),
            work.deep.len(),
            work.marks.as_mut_ptr(),
            work.marks.len(),
            mask.as_mut_ptr(),
            mask.len(),
            weights.as_mut_ptr(),
            weights.len(),
        )
    }
}
