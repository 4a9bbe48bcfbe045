//! For each pixel of a picture the least tolerance at which it is ground (R15 to R20). The reference
//! is the border's median, or the card's colour where that is given (R83).
//!
//! A picture of bytes has few differences from its reference: at most 256 a channel. They are put in
//! order, and a level is a place in that order. A pixel is ground at a tolerance when a way leads to
//! it from the border on which no difference is greater. So its level is the least, over all ways
//! from the border, of the greatest difference on the way; a flood that goes on from the lowest
//! level reached so far finds it.

use crate::netpbm::Image;
use std::ops::Range;

/// The levels of a picture.
pub struct Levels {
    /// The differences that there can be, in rising order.
    pub steps: Vec<f64>,
    /// How many entries of the border list have each difference.
    pub border: Vec<usize>,
    /// The place in the plane of each entry of the border list.
    pub entries: Vec<usize>,
    /// The level of each pixel, as a place in `steps`, with a rim of one pixel around the picture.
    pub plane: Vec<u16>,
    /// From a pixel to the one below it: the picture's columns and two.
    pub stride: usize,
}

/// Marks a pixel that the flood has reached.
const REACHED: u16 = 0x8000;

/// The rim: reached from the start, and in the end higher than every level.
const RIM: u16 = u16::MAX;

impl Levels {
    /// The levels of a picture that has a pixel, with the card's colour where it is given.
    pub fn of(image: &Image, given: Option<[u8; 3]>) -> Levels {
        let entries = entries(image.h, image.w);
        let differences = differences(image, &entries, given);
        let mut steps = differences.concat();
        steps.sort_by(f64::total_cmp);
        steps.dedup();
        let place = |&difference: &f64| steps.partition_point(|&step| step < difference) as u16;
        let places = differences.map(|of_bytes| of_bytes.iter().map(place).collect::<Vec<u16>>());
        let [red, green, blue] = &places;
        let own = |pixel: &[u8]| {
            let (r, g) = (red[usize::from(pixel[0])], green[usize::from(pixel[1])]);
            r.max(g).max(blue[usize::from(pixel[2])])
        };
        let stride = image.w + 2;
        let mut plane = vec![RIM; stride * (image.h + 2)];
        let rows = plane.chunks_exact_mut(stride).skip(1);
        for (row, pixels) in rows.zip(image.rgb.chunks_exact(3 * image.w)) {
            for (level, pixel) in row[1..].iter_mut().zip(pixels.chunks_exact(3)) {
                *level = own(pixel);
            }
        }
        let mut border = vec![0; steps.len()];
        for at in &entries {
            border[usize::from(own(&image.rgb[3 * at..3 * at + 3]))] += 1;
        }
        let with_rim = |at: usize| (at / image.w + 1) * stride + at % image.w + 1;
        let entries: Vec<usize> = entries.into_iter().map(with_rim).collect();
        flood(&mut plane, stride, steps.len(), &entries);
        Levels {
            steps,
            border,
            entries,
            plane,
            stride,
        }
    }

    /// The places of each row's pixels in the plane.
    pub fn rows(&self) -> impl Iterator<Item = Range<usize>> {
        let (stride, end) = (self.stride, self.plane.len() - self.stride);
        let starts = (stride..end).step_by(stride);
        starts.map(move |start| start + 1..start + stride - 1)
    }

    /// The pixels that are not ground at a level: 1 on them, without the rim.
    pub fn left_at(&self, level: usize) -> Vec<u8> {
        let pixels = self.rows().flat_map(|row| &self.plane[row]);
        pixels
            .map(|&own| u8::from(usize::from(own) > level))
            .collect()
    }

    /// The highest level within `reach` rows and columns of each pixel.
    pub fn highest(&self, reach: usize) -> Vec<u16> {
        let mut across = vec![0; self.plane.len()];
        for row in self.rows() {
            raise(&mut across[row.clone()], &self.plane[row], 1, reach);
        }
        let mut out = vec![0; across.len()];
        raise(&mut out, &across, self.stride, reach);
        out
    }
}

/// Raises each number to the greatest of those that are at most `reach` times `step` places away.
fn raise(numbers: &mut [u16], of: &[u16], step: usize, reach: usize) {
    numbers.copy_from_slice(of);
    for away in (1..=reach).map(|times| times * step) {
        let (after, before) = (of.iter().skip(away), of.iter());
        let higher = |(number, other): (&mut u16, &u16)| *number = (*number).max(*other);
        numbers.iter_mut().zip(after).for_each(higher);
        numbers.iter_mut().skip(away).zip(before).for_each(higher);
    }
}

/// Raises each pixel's own difference to its level, from the pixels of the border on.
fn flood(plane: &mut [u16], stride: usize, count: usize, starts: &[usize]) {
    let mut waiting: Vec<Vec<u32>> = vec![Vec::new(); count];
    for &place in starts {
        if plane[place] & REACHED == 0 {
            waiting[usize::from(plane[place])].push(place as u32);
            plane[place] |= REACHED;
        }
    }
    for level in 0..count {
        let mut next = std::mem::take(&mut waiting[level]);
        while let Some(place) = next.pop() {
            let place = place as usize;
            for beside in [place - 1, place + 1, place - stride, place + stride] {
                let own = plane[beside];
                if own & REACHED != 0 {
                    continue;
                }
                if usize::from(own) <= level {
                    plane[beside] = level as u16 | REACHED;
                    next.push(beside as u32);
                } else {
                    plane[beside] = own | REACHED;
                    waiting[usize::from(own)].push(beside as u32);
                }
            }
        }
    }
    plane.iter_mut().for_each(|level| *level &= !REACHED);
}

/// The border list (R15).
fn entries(h: usize, w: usize) -> Vec<usize> {
    let side = |x: usize| (1..h.saturating_sub(1)).map(move |y| y * w + x);
    let ends = (0..w).chain((h - 1) * w..h * w);
    ends.chain(side(0)).chain(side(w - 1)).collect()
}

/// The two middle values of each channel of the border list (R17).
fn middles(image: &Image, entries: &[usize]) -> [[u8; 2]; 3] {
    [0, 1, 2].map(|channel| {
        let mut counts = [0; 256];
        for at in entries {
            counts[usize::from(image.rgb[3 * at + channel])] += 1;
        }
        let in_order = |place: usize| {
            let mut before = 0;
            let byte = counts.iter().position(|count| {
                before += count;
                before > place
            });
            byte.unwrap_or(255) as u8
        };
        let half = entries.len() / 2;
        [in_order(half - 1), in_order(half)]
    })
}

/// The border's median in the nearest bytes, of two that are as near the higher ones.
pub fn edge_colour(image: &Image) -> [u8; 3] {
    let middles = middles(image, &entries(image.h, image.w));
    middles.map(|[a, b]| (u16::from(a) + u16::from(b)).div_ceil(2) as u8)
}

/// For each channel and each byte the difference from the reference (R17, R18, R83), computed as the
/// library does.
fn differences(image: &Image, entries: &[usize], given: Option<[u8; 3]>) -> [Vec<f64>; 3] {
    let colour = |byte: u8| f64::from(byte) / 255.0;
    let reference = match given {
        Some(bytes) => bytes.map(colour),
        None => middles(image, entries).map(|[a, b]| (colour(a) + colour(b)) / 2.0),
    };
    reference.map(|reference| {
        let from_reference = |byte| (colour(byte) - reference).abs();
        (0..=255).map(from_reference).collect()
    })
}

#[cfg(test)]
mod tests {
    use super::*;
    use crate::CardColour;

    /// Pictures of any small sides in four bytes, of which one is most of the border or is not.
    fn pictures(count: usize) -> impl Iterator<Item = Image> {
        let mut state = 3u64;
        let mut random = move |n: usize| {
            state = state
                .wrapping_mul(6364136223846793005)
                .wrapping_add(1442695040888963407);
            (state >> 33) as usize % n
        };
        (0..count).map(move |_| {
            let (h, w) = (1 + random(9), 1 + random(9));
            let bytes = [200, 203, 190, 7].map(|byte| byte + random(8) as u8);
            let border = entries(h, w);
            let (within, around) = (1 + random(12), [1, 2, 24, 24][random(4)]);
            let byte = |at: usize| {
                let often = if border.contains(&(at / 3)) {
                    around
                } else {
                    within
                };
                bytes[if random(often) > 0 { 0 } else { random(4) }]
            };
            let rgb = (0..3 * h * w).map(byte).collect();
            let alpha = vec![255; h * w];
            Image { h, w, rgb, alpha }
        })
    }

    /// What the library's ground leaves of a picture, where it is found.
    fn rest(image: &Image, given: Option<[u8; 3]>, tolerance: f64) -> Option<Vec<u8>> {
        let (colours, h, w) = (image.colours(), image.h, image.w);
        let ground = match given.map(CardColour::from) {
            None => crate::ground(&colours, h, w, tolerance),
            Some(text) => crate::ground_with_colour(&colours, h, w, text, tolerance),
        };
        let ground = ground.expect("an accepted picture")?;
        Some(ground.plane.iter().map(|on| 1 - on).collect())
    }

    /// At every tolerance that makes a difference, and just below it, what is left and what is close
    /// on the border are as the library's ground says. Says how often card is found.
    fn hold(image: &Image, given: Option<[u8; 3]>) -> usize {
        let rest = |tolerance: f64| rest(image, given, tolerance);
        let levels = Levels::of(image, given);
        let entries: usize = levels.border.iter().sum();
        let (mut close, mut before, mut found) = (0, None, 0);
        for (level, &step) in levels.steps.iter().enumerate() {
            let just_below = match step.to_bits() {
                0 => -0.1,
                bits => f64::from_bits(bits - 1),
            };
            assert_eq!(rest(just_below), before, "{image:?} {given:?} below {step}");
            close += levels.border[level];
            let left = levels.left_at(level);
            let enough = 10 * close >= 9 * entries && left.contains(&1);
            before = enough.then_some(left);
            assert_eq!(rest(step), before, "{image:?} {given:?} at {step}");
            found += usize::from(enough);
        }
        found
    }

    #[test]
    fn the_library_says_the_same() {
        let found: usize = pictures(1000).map(|image| hold(&image, None)).sum();
        assert!(found > 3000, "{found} grounds");
    }

    /// With a given colour: that of a pixel, one near the edge's, and any.
    #[test]
    fn the_library_says_the_same_of_a_given_colour() {
        let mut found = 0;
        for (at, image) in pictures(600).enumerate() {
            let pixel = 3 * (at % (image.h * image.w));
            let near = edge_colour(&image).map(|byte| byte.saturating_add(at as u8 % 5));
            let any = [at as u8, 255 - at as u8, (7 * at) as u8];
            let own = [0, 1, 2].map(|channel| image.rgb[pixel + channel]);
            found += hold(&image, Some([own, near, any][at % 3]));
        }
        assert!(found > 1500, "{found} grounds");
    }

    /// The nearest bytes to a median, which may lie half way between two.
    #[test]
    fn colour_of_the_edge() {
        let image = |bytes: [u8; 4]| Image {
            h: 2,
            w: 2,
            rgb: bytes.into_iter().flat_map(|v| [v, 9, 255 - v]).collect(),
            alpha: vec![255; 4],
        };
        assert_eq!(edge_colour(&image([7, 1, 3, 200])), [5, 9, 250]);
        assert_eq!(edge_colour(&image([7, 1, 4, 200])), [6, 9, 250]);
        assert_eq!(edge_colour(&image([255; 4])), [255, 9, 0]);
    }

    #[test]
    fn highest_in_reach() {
        for image in pictures(300) {
            let levels = Levels::of(&image, None);
            for reach in 0..4 {
                let highest = levels.highest(reach);
                let inner = |plane: &[u16]| -> Vec<u16> {
                    levels.rows().flat_map(|row| plane[row].to_vec()).collect()
                };
                let own = inner(&levels.plane);
                for (i, highest) in inner(&highest).into_iter().enumerate() {
                    let (y, x) = (i / image.w, i % image.w);
                    let near = |j: &usize| {
                        let (v, u) = (j / image.w, j % image.w);
                        v.abs_diff(y) <= reach && u.abs_diff(x) <= reach
                    };
                    let want = (0..own.len()).filter(near).map(|j| own[j]).max();
                    assert_eq!(Some(highest), want);
                }
            }
        }
    }
}
