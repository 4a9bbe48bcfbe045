//! Pictures of known kinds with settings to cut them by, and what the rules say of their border
//! and ground, computed in the plainest way.
#![allow(dead_code)]

use crate::masks::Random;
use stand::{Picture, Rgb, Settings};

/// A picture, and the settings it is cut by.
#[derive(Clone)]
pub struct Drawn {
    pub colours: Vec<f64>,
    pub alpha: Vec<u8>,
    pub h: usize,
    pub w: usize,
    pub settings: Settings,
}

impl Drawn {
    pub fn picture(&self) -> Picture<'_> {
        Picture {
            colours: &self.colours,
            alpha: &self.alpha,
            h: self.h,
            w: self.w,
        }
    }

    /// Enough to make the picture again in a test of its own.
    pub fn show(&self) -> String {
        let bits: Vec<u64> = self.colours.iter().map(|c| c.to_bits()).collect();
        format!(
            "{} × {}, {:?}\nalpha {:?}\ncolours, as bits {:x?}",
            self.h, self.w, self.settings, self.alpha, bits
        )
    }
}

pub const PASSES: [i64; 9] = [-1, 0, 1, 2, 3, 7, 1000, i64::MAX, i64::MIN];
pub const THRESHOLDS: [i64; 8] = [-5, 0, 1, 128, 255, 256, i64::MIN, i64::MAX];
/// 0, tiny, the stand's own, negative, 1, very large.
pub const TOLERANCES: [f64; 11] = [
    0.0,
    -0.0,
    5e-324,
    1e-16,
    1e-9,
    0.03125,
    -0.03125,
    -1e300,
    1.0,
    1e300,
    f64::MAX,
];

pub fn pick<T: Copy>(random: &mut Random, of: &[T]) -> T {
    of[random.below(of.len())]
}

/// From 0 to 1.
pub fn unit(random: &mut Random) -> f64 {
    (random.next() >> 11) as f64 / ((1u64 << 53) - 1) as f64
}

pub type Colour = [f64; 3];

pub fn colour(random: &mut Random) -> Colour {
    match random.below(8) {
        0 => [1.0; 3],
        1 => [0.0; 3],
        2 => [-0.0; 3],
        3 => [-0.0, 0.0, 1.0],
        4 => [0.5; 3],
        5 => [random.below(256) as f64 / 255.0; 3],
        _ => [unit(random), unit(random), unit(random)],
    }
}

/// `part` of the way from a to b; the ends themselves at 0 and 1.
pub fn mix(a: Colour, b: Colour, part: f64) -> Colour {
    match part {
        p if p <= 0.0 => a,
        p if p >= 1.0 => b,
        p => [0, 1, 2].map(|c| (a[c] * (1.0 - p) + b[c] * p).clamp(0.0, 1.0)),
    }
}

/// A number a few units in the last place away, from 0 to 1.
fn beside(random: &mut Random, x: f64) -> f64 {
    let steps = random.below(3) as u64;
    let bits = (x + 0.0).to_bits();
    let moved = match random.below(2) {
        0 => bits.saturating_sub(steps),
        _ => bits + steps,
    };
    f64::from_bits(moved).min(1.0)
}

/// How much of pixel (y, x) a shape covers, 0 to 1.
type Cover = Box<dyn Fn(f64, f64) -> f64>;

/// A disc, ring, rectangle or line with a rim of `soft` pixels.
fn shape(random: &mut Random, h: usize, w: usize) -> Cover {
    let (hf, wf) = (h as f64, w as f64);
    let (cy, cx) = (
        hf * (0.3 + 0.4 * unit(random)),
        wf * (0.3 + 0.4 * unit(random)),
    );
    let side = hf.min(wf);
    let soft = pick(random, &[0.01, 1.0, 2.0, 3.0, 5.0, 9.0, 14.0]);
    let steep = pick(random, &[1, 1, 2, 4]);
    let within = move |gap: f64| (gap / soft + 0.5).clamp(0.0, 1.0).powi(steep);
    let radius = side * (0.1 + 0.35 * unit(random));
    match random.below(5) {
        0 => Box::new(move |y, x| within(radius - (y - cy).hypot(x - cx))),
        1 => {
            let inner = radius * unit(random);
            Box::new(move |y, x| {
                let d = (y - cy).hypot(x - cx);
                within((radius - d).min(d - inner))
            })
        }
        2 => {
            let (ry, rx) = (hf * 0.4 * unit(random), wf * 0.4 * unit(random));
            Box::new(move |y, x| within((ry - (y - cy).abs()).min(rx - (x - cx).abs())))
        }
        3 => {
            // A body with a thin line across it.
            let (sin, cos) = (unit(random) * 6.3).sin_cos();
            let width = 0.4 + unit(random);
            Box::new(move |y, x| {
                let (dy, dx) = (y - cy, x - cx);
                let line = width - (dy * cos - dx * sin).abs();
                let inside = (side * 0.45 - dy.hypot(dx)).min(line);
                within((radius * 0.7 - dy.hypot(dx)).max(inside))
            })
        }
        _ => {
            let (sin, cos) = (unit(random) * 6.3).sin_cos();
            let width = unit(random);
            Box::new(move |y, x| {
                let (dy, dx) = (y - cy, x - cx);
                within((side * 0.45 - dy.hypot(dx)).min(width - (dy * cos - dx * sin).abs()))
            })
        }
    }
}

/// A card of one colour, with noise of this size.
fn card(random: &mut Random, n: usize, base: Colour, noise: f64) -> Vec<f64> {
    (0..3 * n)
        .map(|i| match noise {
            0.0 => base[i % 3],
            _ => (base[i % 3] + noise * (2.0 * unit(random) - 1.0)).clamp(0.0, 1.0),
        })
        .collect()
}

fn put(colours: &mut [f64], i: usize, colour: Colour) {
    colours[3 * i..3 * i + 3].copy_from_slice(&colour);
}

fn get(colours: &[f64], i: usize) -> Colour {
    [colours[3 * i], colours[3 * i + 1], colours[3 * i + 2]]
}

/// Colours of a kind, and a tolerance that suits them.
fn colours(random: &mut Random, h: usize, w: usize) -> (Vec<f64>, f64) {
    let n = h * w;
    let base = colour(random);
    match random.below(12) {
        // A few colours, one of them on most of the border.
        0 | 1 => {
            let palette = [base, colour(random), colour(random), colour(random)];
            let few = 2 + random.below(3);
            let edge = onto_border(h, w);
            let (inner, outer) = (random.below(1000), random.below(120));
            let all = (0..n)
                .flat_map(|i| {
                    let per_mille = if edge[i] { outer } else { inner };
                    let off = random.below(1000) < per_mille;
                    palette[if off { random.below(few) } else { 0 }]
                })
                .collect();
            (all, 0.0)
        }
        // Colours a few units in the last place apart.
        2 | 3 => {
            let mut all = card(random, n, base, 0.0);
            for _ in 0..random.below(n + 1) {
                let i = random.below(3 * n);
                all[i] = beside(random, base[i % 3]);
            }
            let body = colour(random);
            let cover = shape(random, h, w);
            for i in 0..n {
                let part = cover((i / w) as f64, (i % w) as f64);
                if part > 0.0 && random.below(4) > 0 {
                    let own = get(&all, i);
                    put(&mut all, i, mix(own, body, part));
                }
            }
            let ulp = f64::from_bits((base[0] + 0.0).to_bits() + 1) - base[0];
            let of = [0.0, 5e-324, ulp, ulp * 2.0, 1e-16];
            (all, pick(random, &of))
        }
        // Noise: everywhere, or inside a plain border.
        4 => {
            let noise = card(random, n, [0.5; 3], 0.5);
            if random.below(3) == 0 {
                return (noise, pick(random, &[0.3, 0.45, 0.5]));
            }
            let (edge, density) = (onto_border(h, w), pick(random, &[30, 200, 500, 900]));
            let mut all = card(random, n, base, 0.0);
            for i in (0..n).filter(|&i| !edge[i]) {
                if random.below(1000) < density {
                    put(&mut all, i, get(&noise, i));
                }
            }
            (all, 0.03125)
        }
        // Rings of rising difference from the border, evenly or ever faster: many passes join.
        5 => {
            let body = colour(random);
            let depth = 1.0 + (h.min(w) / 2) as f64 * (0.3 + unit(random));
            let faster = random.below(3) > 0;
            let all = (0..n)
                .flat_map(|i| {
                    let (y, x) = (i / w, i % w);
                    let ring = y.min(x).min(h - 1 - y).min(w - 1 - x) as f64;
                    let part = match faster {
                        true if ring > 0.0 => ((ring - depth) / 3.0).exp2(),
                        _ => ring / depth,
                    };
                    mix(base, body, part)
                })
                .collect();
            (all, pick(random, &[0.0, 0.01, 0.03125]))
        }
        // A border with exactly nine tenths close, or one entry more or less.
        6 | 7 => {
            let list = border(h, w);
            let body = colour(random);
            let mut all = card(random, n, base, 0.0);
            let wanted = list.len() - (9 * list.len()).div_ceil(10) + random.below(3);
            let (mut off, mut tries) = (0, 0);
            while off < wanted.saturating_sub(1) && tries < 400 {
                put(&mut all, list[random.below(list.len())], body);
                off = list.iter().filter(|&&i| get(&all, i) != base).count();
                tries += 1;
            }
            let cover = shape(random, h, w);
            let edge = onto_border(h, w);
            for i in (0..n).filter(|&i| !edge[i]) {
                put(
                    &mut all,
                    i,
                    mix(base, body, cover((i / w) as f64, (i % w) as f64)),
                );
            }
            (all, 0.0)
        }
        // Shapes with a soft rim on a card with noise within the tolerance, some with specks.
        _ => {
            let noise = pick(random, &[0.0, 0.0, 0.01, 0.015]);
            let mut all = card(random, n, base, noise);
            for _ in 0..1 + random.below(2) {
                let body = colour(random);
                let textured = random.below(2) == 0;
                let cover = shape(random, h, w);
                for i in 0..n {
                    let part = cover((i / w) as f64, (i % w) as f64);
                    if part > 0.0 {
                        let of = match textured {
                            true => mix(body, colour(random), 0.2),
                            false => body,
                        };
                        let own = get(&all, i);
                        put(&mut all, i, mix(own, of, part));
                    }
                }
            }
            if random.below(3) == 0 {
                for _ in 0..1 + random.below(6) {
                    let (i, speck, part) = (random.below(n), colour(random), unit(random));
                    let own = get(&all, i);
                    put(&mut all, i, mix(own, speck, part));
                }
            }
            (all, 0.03125)
        }
    }
}

fn alpha(random: &mut Random, h: usize, w: usize) -> Vec<u8> {
    let n = h * w;
    match random.below(16) {
        0 => (0..n).map(|_| random.next() as u8).collect(),
        1 => (0..n)
            .map(|_| pick(random, &[0, 1, 127, 128, 254, 255]))
            .collect(),
        2 => (0..n).map(|_| 128 + random.below(128) as u8).collect(),
        3 => vec![pick(random, &[0, 1, 127, 128, 254]); n],
        4 => {
            let cover = shape(random, h, w);
            (0..n)
                .map(|i| (255.0 * cover((i / w) as f64, (i % w) as f64)) as u8)
                .collect()
        }
        5 => {
            let mut alpha = vec![255; n];
            alpha[random.below(n)] = random.next() as u8;
            alpha
        }
        _ => vec![255; n],
    }
}

/// A picture of these sides; most are opaque with keying asked for.
pub fn draw(random: &mut Random, h: usize, w: usize) -> Drawn {
    let (colours, suiting) = colours(random, h, w);
    let settings = Settings {
        alpha_threshold: match random.below(4) {
            0 => pick(random, &THRESHOLDS),
            _ => 128,
        },
        key_bg: random.below(10) > 0,
        key_bg_fringe: pick(random, &PASSES),
        key_bg_tolerance: match random.below(4) {
            0 => pick(random, &TOLERANCES),
            _ => suiting,
        },
        crop_to_alpha: random.below(4) > 0,
    };
    Drawn {
        alpha: alpha(random, h, w),
        colours,
        h,
        w,
        settings,
    }
}

/// A byte for each channel, to the nearest.
pub fn bytes_of(colour: Colour) -> [u8; 3] {
    colour.map(|c| (c * 255.0).round() as u8)
}

/// The colours as a file of bytes has them.
pub fn in_bytes(colours: &mut [f64]) {
    for c in colours {
        *c = (*c * 255.0).round() / 255.0;
    }
}

/// Six hexadecimal digits, each in either case.
pub fn text_of(random: &mut Random, bytes: [u8; 3]) -> String {
    let [r, g, b] = bytes;
    other_case(random, &format!("{r:02x}{g:02x}{b:02x}"))
}

/// The same digits, each in either case.
pub fn other_case(random: &mut Random, text: &str) -> String {
    text.chars()
        .map(|c| match random.below(2) {
            0 => c.to_ascii_uppercase(),
            _ => c.to_ascii_lowercase(),
        })
        .collect()
}

/// A colour to give for a picture: its border's own, one beside that, a pixel's, or any.
pub fn card_colour(random: &mut Random, colours: &[f64], h: usize, w: usize) -> [u8; 3] {
    let Rgb { r, g, b } = reference(colours, h, w);
    let own = bytes_of([r, g, b]);
    match random.below(10) {
        0..=4 => own,
        5..=7 => own.map(|c| {
            let up = c.saturating_add(random.below(4) as u8);
            up.saturating_sub(random.below(4) as u8)
        }),
        8 => bytes_of(get(colours, random.below(h * w))),
        _ => [0; 3].map(|_: u8| random.next() as u8),
    }
}

/// A card of two shades, and the colour halfway between them: each is as far from it as the tolerance
/// allows, and twice as far from the other.
fn two_shades(random: &mut Random, drawn: &mut Drawn) -> [u8; 3] {
    let step = 1 + random.below(8);
    let middle = [0; 3].map(|_: u8| step + random.below(256 - 2 * step));
    let (lighter, body) = (random.below(11), colour(random));
    let cover = shape(random, drawn.h, drawn.w);
    for i in 0..drawn.h * drawn.w {
        let shade = match random.below(10) < lighter {
            true => middle.map(|m| (m + step) as f64 / 255.0),
            false => middle.map(|m| (m - step) as f64 / 255.0),
        };
        let part = cover((i / drawn.w) as f64, (i % drawn.w) as f64);
        put(&mut drawn.colours, i, mix(shade, body, part));
    }
    drawn.settings.key_bg_tolerance = step as f64 / 255.0 + 1e-9;
    middle.map(|m| m as u8)
}

/// A picture of these sides, and the card's colour as a text that is given with it. Most have the
/// colours of a file of bytes.
pub fn draw_given(random: &mut Random, h: usize, w: usize) -> (Drawn, String) {
    let mut drawn = draw(random, h, w);
    let bytes = match random.below(6) {
        0 => two_shades(random, &mut drawn),
        1 => card_colour(random, &drawn.colours, h, w),
        _ => {
            in_bytes(&mut drawn.colours);
            let own = drawn.settings.key_bg_tolerance;
            let of = [own, own, own, 0.0, 1.0 / 255.0, 0.00393, 2.0 / 255.0];
            drawn.settings.key_bg_tolerance = pick(random, &of);
            card_colour(random, &drawn.colours, h, w)
        }
    };
    (drawn, text_of(random, bytes))
}

/// Sides to `most`: some lines, some squares.
pub fn sides(random: &mut Random, most: usize) -> (usize, usize) {
    let (h, w) = (1 + random.below(most), 1 + random.below(most));
    match random.below(16) {
        0 => (1, w),
        1 => (h, 1),
        2 => (2, w),
        3 => (h, 2),
        4 => (h, h),
        _ => (h, w),
    }
}

/// The border list (R15), repeats included.
pub fn border(h: usize, w: usize) -> Vec<usize> {
    let inner = 1..h.saturating_sub(1);
    (0..w)
        .chain((h - 1) * w..h * w)
        .chain(inner.clone().map(|y| y * w))
        .chain(inner.map(|y| y * w + w - 1))
        .collect()
}

/// Whether each pixel is on the border.
pub fn onto_border(h: usize, w: usize) -> Vec<bool> {
    let mut on = vec![false; h * w];
    for i in border(h, w) {
        on[i] = true;
    }
    on
}

/// The reference (R17), by sorting; a zero as +0.
pub fn reference(colours: &[f64], h: usize, w: usize) -> Rgb {
    let list = border(h, w);
    let [r, g, b] = [0, 1, 2].map(|c| {
        let mut values: Vec<f64> = list.iter().map(|i| colours[3 * i + c]).collect();
        values.sort_by(|a, b| a.partial_cmp(b).expect("numbers"));
        (values[values.len() / 2 - 1] + values[values.len() / 2]) / 2.0 + 0.0
    });
    Rgb { r, g, b }
}

/// The colour that six hexadecimal digits give: three bytes, each divided by 255.
pub fn colour_of(text: &str) -> Rgb {
    let byte = |i: usize| u8::from_str_radix(&text[i..i + 2], 16).expect("two digits");
    let [r, g, b] = [0, 2, 4].map(|i| byte(i) as f64 / 255.0);
    Rgb { r, g, b }
}

/// The reference of a cut: the card's colour where it is given, else the median of the border.
pub fn reference_by(given: Option<&str>, colours: &[f64], h: usize, w: usize) -> Rgb {
    match given {
        Some(text) => colour_of(text),
        None => reference(colours, h, w),
    }
}

/// Whether pixel i is close to the reference.
pub fn is_close(colours: &[f64], i: usize, reference: Rgb, tolerance: f64) -> bool {
    let [r, g, b] = get(colours, i);
    let most = (r - reference.r)
        .abs()
        .max((g - reference.g).abs())
        .max((b - reference.b).abs());
    most <= tolerance
}

/// The ground (R20), found or not: 1 on it.
pub fn ground(colours: &[f64], h: usize, w: usize, tolerance: f64) -> Vec<u8> {
    ground_by(reference(colours, h, w), colours, h, w, tolerance)
}

/// The same by any reference.
pub fn ground_by(reference: Rgb, colours: &[f64], h: usize, w: usize, tolerance: f64) -> Vec<u8> {
    let close: Vec<bool> = (0..h * w)
        .map(|i| is_close(colours, i, reference, tolerance))
        .collect();
    let mut ground = vec![0; h * w];
    let mut rest: Vec<usize> = border(h, w);
    while let Some(i) = rest.pop() {
        if close[i] && ground[i] == 0 {
            ground[i] = 1;
            let (y, x) = (i / w, i % w);
            rest.extend((y > 0).then(|| i - w));
            rest.extend((y + 1 < h).then(|| i + w));
            rest.extend((x > 0).then(|| i - 1));
            rest.extend((x + 1 < w).then(|| i + 1));
        }
    }
    ground
}

/// How many entries of the border list are close, and how many entries it has.
pub fn close_entries(colours: &[f64], h: usize, w: usize, tolerance: f64) -> (usize, usize) {
    close_entries_by(reference(colours, h, w), colours, h, w, tolerance)
}

/// The same by any reference.
pub fn close_entries_by(
    reference: Rgb,
    colours: &[f64],
    h: usize,
    w: usize,
    tolerance: f64,
) -> (usize, usize) {
    let list = border(h, w);
    let close = list
        .iter()
        .filter(|&&i| is_close(colours, i, reference, tolerance));
    (close.count(), list.len())
}

/// A badge on a white card with noise within the stand's tolerance: a textured disc with a hole, and
/// a ring around it, each with an anti-aliased rim of two pixels. With `dust`, one pixel of about
/// four thousand is a speck.
pub fn badge(random: &mut Random, h: usize, w: usize, dust: bool) -> Vec<f64> {
    let side = h.min(w) as f64;
    let (cy, cx) = (h as f64 / 2.0, w as f64 / 2.0);
    let mut colours = Vec::with_capacity(3 * h * w);
    for i in 0..h * w {
        let (y, x) = ((i / w) as f64, (i % w) as f64);
        let middle = (y - cy).hypot(x - cx);
        let hole = (y - cy + side / 8.0).hypot(x - cx - side / 10.0) - side * 0.06;
        let disc = (side * 0.33 - middle).min(hole);
        let ring = (side * 0.43 - middle).min(middle - side * 0.39);
        let cover = (disc.max(ring) / 2.0 + 0.5).clamp(0.0, 1.0);
        let noise = (random.next() >> 40) as f64 / (1u64 << 24) as f64;
        let card = [1.0 - noise / 50.0; 3];
        let body = [0.55, 0.2, 0.15].map(|c| c + noise / 8.0);
        let speck = dust && random.below(4096) == 0;
        colours.extend(if speck {
            [0.4; 3]
        } else {
            mix(card, body, cover)
        });
    }
    colours
}

/// A white card in which about `per_mille` of a thousand pixels off the border have any colour.
pub fn noise(random: &mut Random, h: usize, w: usize, per_mille: usize) -> Vec<f64> {
    let border = onto_border(h, w);
    let mut colours = vec![1.0; 3 * h * w];
    for i in (0..h * w).filter(|&i| !border[i]) {
        if random.below(1000) < per_mille {
            let any = [0; 3].map(|_: u8| unit(random));
            put(&mut colours, i, any);
        }
    }
    colours
}

/// The grey of ring d of a card for p passes: 1 − 1.25^(d − p − 4). Twice the difference of ring p from
/// the border's grey is below that of ring p + 4, and not below its own.
fn ring(p: usize, d: usize, _: usize) -> f64 {
    1.0 - (d..p + 4).fold(1.0, |power, _| power / 1.25)
}

/// The same for a given r = 254 / 255: r − r (1.25^d − 1) / (1.25^(p + 4) − 1). Ring 0 has the two greys that
/// are 1 / 255 from r, and every third pixel, by row plus column, the darker.
fn ring_by_colour(p: usize, d: usize, at: usize) -> f64 {
    let power = |n: usize| (0..n).fold(1.0, |power, _| power * 1.25);
    let r = 254.0 / 255.0;
    match d {
        0 if at % 3 == 0 => 253.0 / 255.0,
        0 => 1.0,
        _ => r - r * ((power(d) - 1.0) / (power(p + 4) - 1.0)),
    }
}

/// Square cards of grey rings, counted from 0 at the border, for p passes: the colour that is given with
/// them, if one is, the grey by p, ring, and row plus column, and a tolerance by which the border is the
/// ground.
pub struct Rings {
    pub given: Option<&'static str>,
    grey: fn(usize, usize, usize) -> f64,
    pub tolerance: f64,
}

pub const BY_MEDIAN: Rings = Rings {
    given: None,
    grey: ring,
    tolerance: 0.0,
};

/// By the median, white, these have no ground: a third of the border is 2 / 255 from it.
pub const BY_COLOUR: Rings = Rings {
    given: Some("fefefe"),
    grey: ring_by_colour,
    tolerance: 0.00393,
};

impl Rings {
    /// The card with this grey in its middle pixel.
    pub fn card(&self, p: usize, side: usize, middle: f64) -> Vec<f64> {
        let at = |i: usize| {
            let (y, x) = (i / side, i % side);
            match y.min(x).min(side - 1 - y).min(side - 1 - x) {
                ring if ring == side / 2 => middle,
                ring => (self.grey)(p, ring, y + x),
            }
        };
        (0..side * side).flat_map(|i| [at(i); 3]).collect()
    }

    /// Greys of the middle pixel of a card of side 2 (p + 4) + 1: with the first, as the rings go on,
    /// pixels join in pass p that do not with the second.
    pub fn middles(&self, p: usize) -> (f64, f64) {
        ((self.grey)(p, p + 4, 0), (self.grey)(p, p, 0))
    }
}
