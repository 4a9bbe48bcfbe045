//! Masks of known kinds, 0 and 1, and random numbers of a fixed seed.
#![allow(dead_code)]

/// SplitMix64: the same numbers on every machine.
pub struct Random(pub u64);

impl Random {
    pub fn next(&mut self) -> u64 {
        self.0 = self.0.wrapping_add(0x9e37_79b9_7f4a_7c15);
        let mut z = self.0;
        z = (z ^ (z >> 30)).wrapping_mul(0xbf58_476d_1ce4_e5b9);
        z = (z ^ (z >> 27)).wrapping_mul(0x94d0_49bb_1331_11eb);
        z ^ (z >> 31)
    }

    /// A number below `n`.
    pub fn below(&mut self, n: usize) -> usize {
        (self.next() % n as u64) as usize
    }

    /// A mask in which about `per_mille` of a thousand pixels are on.
    pub fn mask(&mut self, n: usize, per_mille: usize) -> Vec<u8> {
        (0..n)
            .map(|_| (self.below(1000) < per_mille) as u8)
            .collect()
    }

    /// The same mask with any non-zero byte for on.
    pub fn any_bytes(&mut self, mask: &[u8]) -> Vec<u8> {
        mask.iter()
            .map(|&m| if m == 0 { 0 } else { 1 + self.below(255) as u8 })
            .collect()
    }
}

/// mask.rs takes its masks as bool.
pub fn bools(mask: &[u8]) -> Vec<bool> {
    mask.iter().map(|&m| m != 0).collect()
}

pub fn empty(h: usize, w: usize) -> Vec<u8> {
    vec![0; h * w]
}

pub fn full(h: usize, w: usize) -> Vec<u8> {
    vec![1; h * w]
}

/// One pixel, a third down and two thirds across.
pub fn single(h: usize, w: usize) -> Vec<u8> {
    let mut mask = empty(h, w);
    mask[(h / 3) * w + 2 * w / 3] = 1;
    mask
}

/// A disc with a hole off its middle, and a ring around it: a badge on card.
pub fn object(h: usize, w: usize) -> Vec<u8> {
    let side = h.min(w) as i64;
    let (cy, cx) = (h as i64 / 2, w as i64 / 2);
    let mut mask = Vec::with_capacity(h * w);
    for y in 0..h as i64 {
        for x in 0..w as i64 {
            let square = |a: i64, b: i64| (y - a) * (y - a) + (x - b) * (x - b);
            let within = |a: i64, b: i64, thousandths: i64| {
                square(a, b) * 1_000_000 <= side * side * thousandths * thousandths
            };
            let disc = within(cy, cx, 330) && !within(cy - side / 8, cx + side / 10, 60);
            let ring = within(cy, cx, 430) && !within(cy, cx, 390);
            mask.push((disc || ring) as u8);
        }
    }
    mask
}

pub fn complement(mask: &[u8]) -> Vec<u8> {
    mask.iter().map(|&m| (m == 0) as u8).collect()
}

/// Every other pixel: each is a part of its own.
pub fn checkerboard(h: usize, w: usize) -> Vec<u8> {
    (0..h * w)
        .map(|i| ((i / w + i % w + 1) % 2) as u8)
        .collect()
}

/// One line of one pixel's width that turns inwards with a gap of one pixel.
pub fn spiral(h: usize, w: usize) -> Vec<u8> {
    let mut mask = empty(h, w);
    let (h, w) = (h as i64, w as i64);
    let at = |mask: &[u8], y: i64, x: i64| {
        y >= 0 && y < h && x >= 0 && x < w && mask[(y * w + x) as usize] != 0
    };
    let (mut y, mut x, mut dy, mut dx) = (0, 0, 0, 1);
    let mut turns = 0;
    mask[0] = 1;
    while turns < 2 {
        let (ny, nx) = (y + dy, x + dx);
        let inside = ny >= 0 && ny < h && nx >= 0 && nx < w;
        if inside && !at(&mask, ny, nx) && !at(&mask, ny + dy, nx + dx) {
            (y, x) = (ny, nx);
            mask[(y * w + x) as usize] = 1;
            turns = 0;
        } else {
            (dy, dx) = (dx, -dy);
            turns += 1;
        }
    }
    mask
}

/// Teeth of one pixel's width, joined along the last row.
pub fn comb(h: usize, w: usize) -> Vec<u8> {
    (0..h * w)
        .map(|i| (i / w + 1 == h || (i % w) % 2 != 1) as u8)
        .collect()
}

/// The mask as lines of digits.
pub fn show(mask: &[u8], w: usize) -> String {
    mask.chunks(w)
        .map(|row| {
            row.iter()
                .map(|&m| if m == 0 { '0' } else { '1' })
                .collect::<String>()
        })
        .collect::<Vec<_>>()
        .join("\n")
}
