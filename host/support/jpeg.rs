//! What a JPEG does to a picture: by a program that writes and reads one, or, where none is
//! installed, by rounding each block of 8 by 8 pixels in frequencies.

use stand::netpbm::{self, Image};
use std::f64::consts::PI;
use std::io::Write;
use std::process::{Command, Stdio};

/// Programs that write a JPEG, and those that read it.
const PROGRAMS: [(&str, &str); 2] = [("pnmtojpeg", "jpegtopnm"), ("cjpeg", "djpeg")];

/// The picture as it comes back from a JPEG of this quality, with that JPEG where a program made one.
pub fn through(image: Image, quality: u8) -> (Image, Option<Vec<u8>>) {
    let picture = ppm(&image);
    for (write, read) in PROGRAMS {
        let quality = quality.to_string();
        let Some(jpeg) = piped(write, &["-quality", &quality], picture.clone()) else {
            continue;
        };
        let Some(back) = piped(read, &[], jpeg.clone()) else {
            continue;
        };
        if let Ok((image, _)) = netpbm::read(&back[..]) {
            return (image, Some(jpeg));
        }
    }
    (rounded(image, quality), None)
}

/// The picture as a PPM.
pub fn ppm(image: &Image) -> Vec<u8> {
    let mut out = format!("P6\n{} {}\n255\n", image.w, image.h).into_bytes();
    out.extend_from_slice(&image.rgb);
    out
}

/// What a program writes when it reads this; `None` where it is not installed or fails.
fn piped(program: &str, words: &[&str], input: Vec<u8>) -> Option<Vec<u8>> {
    let mut child = Command::new(program)
        .args(words)
        .stdin(Stdio::piped())
        .stdout(Stdio::piped())
        .stderr(Stdio::null())
        .spawn()
        .ok()?;
    let mut stdin = child.stdin.take()?;
    // It may write before it has read everything.
    let feed = std::thread::spawn(move || stdin.write_all(&input));
    let output = child.wait_with_output().ok()?;
    let fed = feed.join().ok()?.is_ok();
    (fed && output.status.success()).then_some(output.stdout)
}

/// The picture with the frequencies of each block rounded: coarser the higher they are and the lower
/// the quality. What is colour alone is rounded more coarsely, four pixels as one.
pub fn rounded(mut image: Image, quality: u8) -> Image {
    let quality = f64::from(quality.clamp(1, 100));
    let scale = if quality < 50.0 {
        50.0 / quality
    } else {
        2.0 - quality / 50.0
    };
    let waves: [[f64; 8]; 8] = std::array::from_fn(|k| {
        let size: f64 = if k == 0 { 0.125 } else { 0.25 };
        std::array::from_fn(|x| size.sqrt() * ((2 * x + 1) as f64 * k as f64 * PI / 16.0).cos())
    });
    for top in (0..image.h).step_by(8) {
        for left in (0..image.w).step_by(8) {
            round_block(&mut image, top, left, &waves, scale);
        }
    }
    image
}

/// The place in the picture of a pixel of a block; past the edge, that of the edge.
fn place(image: &Image, top: usize, left: usize, at: usize) -> usize {
    let y = (top + at / 8).min(image.h - 1);
    let x = (left + at % 8).min(image.w - 1);
    3 * (y * image.w + x)
}

fn round_block(image: &mut Image, top: usize, left: usize, waves: &[[f64; 8]; 8], scale: f64) {
    let mut planes = [[0.0; 64]; 3];
    for at in 0..64 {
        let from = place(image, top, left, at);
        let [r, g, b] = [0, 1, 2].map(|c| f64::from(image.rgb[from + c]));
        let light = 0.299 * r + 0.587 * g + 0.114 * b;
        for (plane, value) in planes.iter_mut().zip([light, b - light, r - light]) {
            plane[at] = value;
        }
    }
    let [light, blue, red] = &mut planes;
    round_plane(light, waves, scale);
    for colour in [blue, red] {
        *colour = by_fours(colour);
        round_plane(colour, waves, 4.0 * scale);
    }
    for at in 0..64 {
        let [light, blue, red] = planes.map(|plane| plane[at]);
        let (r, b) = (light + red, light + blue);
        let g = (light - 0.299 * r - 0.114 * b) / 0.587;
        let to = place(image, top, left, at);
        for (c, value) in [r, g, b].into_iter().enumerate() {
            image.rgb[to + c] = value.round().clamp(0.0, 255.0) as u8;
        }
    }
}

/// Each pixel as the mean of its square of four.
fn by_fours(plane: &[f64; 64]) -> [f64; 64] {
    std::array::from_fn(|at| {
        let first = at & !0b001_001;
        [0, 1, 8, 9]
            .iter()
            .map(|next| plane[first + next])
            .sum::<f64>()
            / 4.0
    })
}

/// To frequencies, rounded, and back.
fn round_plane(plane: &mut [f64; 64], waves: &[[f64; 8]; 8], scale: f64) {
    let mut rounded = [0.0; 64];
    for (k, to) in rounded.iter_mut().enumerate() {
        let (down, across) = (waves[k / 8], waves[k % 8]);
        let sum: f64 = (0..64)
            .map(|i| plane[i] * down[i / 8] * across[i % 8])
            .sum();
        let step = (scale * (10.0 + 6.0 * (k / 8 + k % 8) as f64)).max(1.0);
        *to = (sum / step).round() * step;
    }
    for (i, to) in plane.iter_mut().enumerate() {
        let wave = |k: usize| rounded[k] * waves[k / 8][i / 8] * waves[k % 8][i % 8];
        *to = (0..64).map(wave).sum();
    }
}
