//! The parts of a mask, and what they enclose.

use crate::{Crop, Refusal};

/// Parts with fewer pixels are specks.
pub const SPECK: usize = 64;

/// The parts of a mask.
#[derive(Clone, Debug, PartialEq, Eq)]
pub struct Parts {
    /// How many there are.
    pub count: usize,
    /// How many pixels they have.
    pub pixels: usize,
    /// How many pixels the largest has.
    pub largest: usize,
    /// How many are specks; the largest is none.
    pub specks: usize,
    /// How many pixels the specks have.
    pub speckled: usize,
    /// The least box that holds all parts.
    pub all: Crop,
    /// The least box that holds all parts that are no specks.
    pub solid: Crop,
}

impl Parts {
    /// The parts of a mask (R6).
    pub fn of(mask: &[u8], h: usize, w: usize) -> Result<Parts, Refusal> {
        let labels = crate::labels(mask, h, w)?;
        let mut sizes = vec![0; labels.count as usize + 1];
        for &label in &labels.plane {
            sizes[label as usize] += 1;
        }
        sizes[0] = 0;
        let largest = sizes.iter().copied().max().unwrap_or(0);
        let object = sizes.iter().position(|&size| size == largest);
        let speck = |label: usize| sizes[label] < SPECK && Some(label) != object;
        let specks = || (1..sizes.len()).filter(|&label| speck(label));
        let solid = |label: &u32| *label != 0 && !speck(*label as usize);
        Ok(Parts {
            count: sizes.len() - 1,
            pixels: sizes.iter().sum(),
            largest,
            specks: specks().count(),
            speckled: specks().map(|label| sizes[label]).sum(),
            all: least_box(&labels.plane, w, |&label| label != 0),
            solid: least_box(&labels.plane, w, solid),
        })
    }

    /// How many pixels the parts that are no specks have.
    pub fn solid_pixels(&self) -> usize {
        self.pixels - self.speckled
    }

    /// Whether most of the pixels are in parts that are no specks.
    pub fn mostly_solid(&self) -> bool {
        self.solid_pixels() > self.speckled
    }
}

/// The least box that holds the elements of a plane of `w` columns that are wanted.
fn least_box(plane: &[u32], w: usize, wanted: impl Fn(&u32) -> bool) -> Crop {
    let (mut rows, mut cols) = (0..0, w..0);
    for (y, row) in plane.chunks(w).enumerate() {
        let Some(first) = row.iter().position(&wanted) else {
            continue;
        };
        let last = row.iter().rposition(&wanted).unwrap_or(first);
        if rows.is_empty() {
            rows.start = y;
        }
        rows.end = y + 1;
        cols.start = cols.start.min(first);
        cols.end = cols.end.max(last + 1);
    }
    if rows.is_empty() {
        cols = 0..0;
    }
    Crop { rows, cols }
}

#[cfg(test)]
mod tests {
    use super::*;

    fn boxed(rows: std::ops::Range<usize>, cols: std::ops::Range<usize>) -> Crop {
        Crop { rows, cols }
    }

    /// A part of 64 pixels, one of 63, one of 100 and a single pixel.
    #[test]
    fn specks_and_boxes() {
        let (h, w) = (40, 50);
        let mut mask = vec![0; h * w];
        let mut put = |rows: std::ops::Range<usize>, cols: std::ops::Range<usize>| {
            rows.for_each(|y| mask[y * w..][cols.clone()].fill(1));
        };
        put(10..20, 10..20);
        put(30..38, 21..29);
        put(1..8, 30..39);
        put(39..40, 49..50);
        let parts = Parts::of(&mask, h, w).unwrap();
        let want = Parts {
            count: 4,
            pixels: 228,
            largest: 100,
            specks: 2,
            speckled: 64,
            all: boxed(1..40, 10..50),
            solid: boxed(10..38, 10..29),
        };
        assert_eq!(parts, want);
        assert!(parts.mostly_solid());
    }

    /// The largest part is no speck, however small; of many crumbs only one is the largest.
    #[test]
    fn crumbs() {
        let parts = Parts::of(&[0, 1, 0, 0], 1, 4).unwrap();
        assert_eq!((parts.specks, parts.solid.clone()), (0, boxed(0..1, 1..2)));
        assert!(parts.mostly_solid());
        let parts = Parts::of(&[1, 0, 1, 0, 1], 1, 5).unwrap();
        assert_eq!((parts.specks, parts.speckled), (2, 2));
        assert_eq!(
            (parts.all.clone(), parts.solid.clone()),
            (boxed(0..1, 0..5), boxed(0..1, 0..1))
        );
        assert!(!parts.mostly_solid());
        let parts = Parts::of(&[0; 6], 2, 3).unwrap();
        assert_eq!((parts.count, parts.all.clone()), (0, boxed(0..0, 0..0)));
        assert!(!parts.mostly_solid());
    }
}
