//! Pictures of a fixed seed for the recorded lists. They are drawn with sums, products, quotients,
//! roots and bits only, so that a seed gives the same numbers on every machine.

use crate::masks::Random;
use crate::pictures::{self, colour, mix, pick, unit, Colour};

/// A number up to two units in the last place away, from 0 to 1.
fn beside(random: &mut Random, x: f64) -> f64 {
    let bits = (x + 0.0).to_bits();
    let moved = match random.below(5) as u64 {
        steps @ 0..=2 => bits + steps,
        steps => bits.saturating_sub(steps - 2),
    };
    f64::from_bits(moved).min(1.0)
}

/// How much of a pixel a disc or ring covers, in sixteenths: radii in pixels about (cy, cx), with a
/// rim of `soft` pixels.
pub struct Disc {
    pub cy: f64,
    pub cx: f64,
    pub outer: f64,
    pub inner: Option<f64>,
    pub soft: f64,
}

impl Disc {
    pub fn cover(&self, y: usize, x: usize) -> f64 {
        let (dy, dx) = (y as f64 - self.cy, x as f64 - self.cx);
        let d = (dy * dy + dx * dx).sqrt();
        let outside = self.outer - d;
        let gap = self.inner.map_or(outside, |r| outside.min(d - r));
        ((gap / self.soft + 0.5).clamp(0.0, 1.0) * 16.0).round() / 16.0
    }

    fn draw(random: &mut Random, h: usize, w: usize) -> Disc {
        let side = h.min(w) as f64;
        let outer = side * (0.1 + 0.35 * unit(random));
        Disc {
            cy: h as f64 * (0.3 + 0.4 * unit(random)),
            cx: w as f64 * (0.3 + 0.4 * unit(random)),
            outer,
            inner: (random.below(3) == 0).then(|| outer * unit(random)),
            soft: pick(random, &[0.01, 1.0, 2.0, 3.0, 5.0, 9.0]),
        }
    }
}

/// The colours of each pixel, from a function of its index.
fn plane(n: usize, of: impl FnMut(usize) -> Colour) -> Vec<f64> {
    (0..n).flat_map(of).collect()
}

/// A few colours, one of them on most of the border.
fn few(random: &mut Random, h: usize, w: usize) -> (Vec<f64>, f64) {
    let palette = [0; 4].map(|_: u8| colour(random));
    let edge = pictures::onto_border(h, w);
    let (inner, outer) = (random.below(1000), random.below(120));
    let all = plane(h * w, |i| {
        let off = random.below(1000) < if edge[i] { outer } else { inner };
        palette[if off { random.below(4) } else { 0 }]
    });
    (all, 0.0)
}

/// Colours a few units in the last place apart, and a body.
fn neighbours(random: &mut Random, h: usize, w: usize) -> (Vec<f64>, f64) {
    let (base, body) = (colour(random), colour(random));
    let disc = Disc::draw(random, h, w);
    let often = 1 + random.below(12);
    let all = plane(h * w, |i| {
        let card = match random.below(often) {
            0 => base.map(|c| beside(random, c)),
            _ => base,
        };
        mix(card, body, disc.cover(i / w, i % w))
    });
    let ulp = f64::from_bits((base[0] + 0.0).to_bits() + 1) - base[0];
    (all, pick(random, &[0.0, 5e-324, ulp, ulp * 2.0, 1e-16]))
}

/// Any colours inside a border of one.
fn noise(random: &mut Random, h: usize, w: usize) -> (Vec<f64>, f64) {
    let base = colour(random);
    let palette = [0; 24].map(|_: u8| [0; 3].map(|_: u8| unit(random)));
    let edge = pictures::onto_border(h, w);
    let density = pick(random, &[30, 200, 500, 900]);
    let all = plane(h * w, |i| {
        let off = !edge[i] && random.below(1000) < density;
        if off {
            pick(random, &palette)
        } else {
            base
        }
    });
    (all, 0.03125)
}

/// Rings of rising difference from the border, evenly or ever faster: many passes join.
fn rings(random: &mut Random, h: usize, w: usize) -> (Vec<f64>, f64) {
    let (base, body) = (colour(random), colour(random));
    let depth = 2 + random.below(h.min(w) / 2 + 1);
    let faster = random.below(3) > 0;
    let all = plane(h * w, |i| {
        let (y, x) = (i / w, i % w);
        let ring = y.min(x).min(h - 1 - y).min(w - 1 - x).min(depth) as f64;
        let part = ring / depth as f64;
        mix(base, body, if faster { part * part } else { part })
    });
    (all, pick(random, &[0.0, 0.01, 0.03125]))
}

/// A border with about nine tenths close, and a disc.
fn nine_tenths(random: &mut Random, h: usize, w: usize) -> (Vec<f64>, f64) {
    let (base, body) = (colour(random), colour(random));
    let list = pictures::border(h, w);
    let disc = Disc::draw(random, h, w);
    let edge = pictures::onto_border(h, w);
    let mut off = vec![false; h * w];
    for _ in 0..(list.len() / 10 + random.below(3)).saturating_sub(1) {
        off[pick(random, &list)] = true;
    }
    let all = plane(h * w, |i| match edge[i] {
        true if off[i] => body,
        true => base,
        false => mix(base, body, disc.cover(i / w, i % w)),
    });
    (all, 0.0)
}

/// One or two discs or rings on a card, some with noise within the tolerance.
fn discs(random: &mut Random, h: usize, w: usize) -> (Vec<f64>, f64) {
    let base = colour(random);
    let cards = match random.below(2) {
        0 => [base; 3],
        _ => [base; 3].map(|c| c.map(|v| (v + 0.03 * (unit(random) - 0.5)).clamp(0.0, 1.0))),
    };
    let shapes: Vec<(Disc, Colour)> = (0..1 + random.below(2))
        .map(|_| (Disc::draw(random, h, w), colour(random)))
        .collect();
    let all = plane(h * w, |i| {
        let card = pick(random, &cards);
        shapes.iter().fold(card, |own, (disc, body)| {
            mix(own, *body, disc.cover(i / w, i % w))
        })
    });
    (all, 0.03125)
}

/// The colours of a picture, and a tolerance that suits them.
pub fn colours(random: &mut Random, h: usize, w: usize) -> (Vec<f64>, f64) {
    match random.below(10) {
        0 => few(random, h, w),
        1 | 2 => neighbours(random, h, w),
        3 => noise(random, h, w),
        4 | 5 => rings(random, h, w),
        6 => nine_tenths(random, h, w),
        _ => discs(random, h, w),
    }
}

/// Alpha: mostly opaque, else of few values.
pub fn alpha(random: &mut Random, n: usize) -> Vec<u8> {
    match random.below(12) {
        0 => (0..n)
            .map(|_| pick(random, &[0, 1, 127, 128, 254, 255]))
            .collect(),
        1 => (0..n).map(|_| pick(random, &[128, 200, 255])).collect(),
        2 => vec![pick(random, &[0, 1, 127, 128, 254]); n],
        3 => {
            let mut alpha = vec![255; n];
            alpha[random.below(n)] = random.next() as u8;
            alpha
        }
        _ => vec![255; n],
    }
}
