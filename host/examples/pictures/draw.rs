//! Draws the example pictures: objects with an anti-aliased rim, on card with the grain and the
//! uneven light of a photograph.

use stand::netpbm::Image;

/// A colour, each channel from 0 to 255.
type Colour = [f64; 3];

/// A picture with what it shows.
pub struct Drawn {
    pub name: &'static str,
    pub about: &'static str,
    pub image: Image,
}

/// All example pictures.
pub fn all() -> [Drawn; 5] {
    let drawn = |name, about, image| Drawn { name, about, image };
    [
        drawn("badge", "an enamel badge", badge()),
        drawn("sign", "an enamel sign with bolt holes", sign()),
        drawn("ticket", "a ticket with a torn edge", ticket()),
        drawn("partial", "a sign that runs out of the picture", partial()),
        drawn("blank", "a picture that is wholly transparent", blank()),
    ]
}

const CARD: Colour = [233.0, 231.0, 225.0];
const BRASS: Colour = [196.0, 152.0, 66.0];
const BLUE: Colour = [26.0, 48.0, 112.0];
const RED: Colour = [146.0, 26.0, 32.0];
const CREAM: Colour = [243.0, 234.0, 208.0];
const STEEL: Colour = [74.0, 70.0, 68.0];
const BUFF: Colour = [218.0, 166.0, 92.0];
const INK: Colour = [44.0, 36.0, 40.0];

/// A number from 0 to 1 that depends on the three given ones alone.
fn grain(a: u64, b: u64, c: u64) -> f64 {
    let mut z = a.wrapping_mul(0x9e37_79b9_7f4a_7c15) ^ b.wrapping_mul(0xc2b2_ae3d_27d4_eb4f) ^ c;
    z = (z ^ (z >> 30)).wrapping_mul(0xbf58_476d_1ce4_e5b9);
    z = (z ^ (z >> 27)).wrapping_mul(0x94d0_49bb_1331_11eb);
    ((z ^ (z >> 31)) >> 11) as f64 / (1u64 << 53) as f64
}

/// Draws what `object` shows at a point (x, y), card where it shows nothing: the mean of 8 × 8
/// points a pixel, with grain.
fn photograph(h: usize, w: usize, object: impl Fn(f64, f64) -> Option<Colour>) -> Image {
    let mut rgb = Vec::with_capacity(3 * h * w);
    for y in 0..h {
        for x in 0..w {
            // The light falls off from the upper left; with the grain it stays within 3 of the card.
            let light = 1.5 - 3.0 * (x + y) as f64 / (w + h) as f64;
            let mut sum = [0.0; 3];
            for at in 0..64 {
                let px = x as f64 + (f64::from(at % 8) + 0.5) / 8.0;
                let py = y as f64 + (f64::from(at / 8) + 0.5) / 8.0;
                let colour = object(px, py).unwrap_or(CARD);
                for (total, channel) in sum.iter_mut().zip(colour) {
                    *total += channel / 64.0;
                }
            }
            let noise = light + 3.0 * (grain(x as u64, y as u64, 7) - 0.5);
            rgb.extend(sum.map(|v| (v + noise).round().clamp(0.0, 255.0) as u8));
        }
    }
    Image {
        h,
        w,
        rgb,
        alpha: vec![255; h * w],
    }
}

/// A colour made lighter or darker.
fn shade(colour: Colour, by: f64) -> Colour {
    colour.map(|v| v * by)
}

/// How far a point lies outside a rectangle with round corners around the origin; negative inside.
fn outside(x: f64, y: f64, half_w: f64, half_h: f64, round: f64) -> f64 {
    let dx = x.abs() - half_w + round;
    let dy = y.abs() - half_h + round;
    dx.max(0.0).hypot(dy.max(0.0)) + dx.max(dy).min(0.0) - round
}

/// A round badge: a brass rim, blue enamel, a wheel with wings.
pub fn badge() -> Image {
    photograph(300, 300, |px, py| {
        let (x, y) = (px - 150.0, py - 150.0);
        let r = x.hypot(y);
        let sheen = 0.92 + 0.18 * ((y.atan2(x) + 2.2) * 2.0).cos();
        let wheel = (33.0..43.0).contains(&r) || r < 8.0 || (r < 33.0 && spoke(x, y));
        let ring = (82.0..86.0).contains(&r);
        let rim = r > 106.0;
        match r {
            _ if r > 118.0 => None,
            _ if rim || ring || wheel || wings(x, y) || bead(x, y, r) => Some(shade(BRASS, sheen)),
            _ => Some(shade(BLUE, 1.0 - y / 600.0)),
        }
    })
}

/// Whether a point is on one of eight spokes.
fn spoke(x: f64, y: f64) -> bool {
    let half = 0.5f64.sqrt();
    let lines = [x, y, half * (x + y), half * (x - y)];
    lines.iter().any(|d| d.abs() < 2.2)
}

/// Whether a point is on one of the feathers beside the wheel.
fn wings(x: f64, y: f64) -> bool {
    let feathers = [(-12.0, 74.0), (-3.0, 70.0), (6.0, 64.0)];
    let on = |&(top, end): &(f64, f64)| {
        let fall = (x.abs() - 46.0) / 12.0;
        x.abs() > 46.0 && x.abs() < end && (top..top + 6.0 - fall).contains(&y)
    };
    feathers.iter().any(on)
}

/// Whether a point is on one of 32 beads between ring and rim.
fn bead(x: f64, y: f64, r: f64) -> bool {
    let part = std::f64::consts::TAU / 32.0;
    let angle = y.atan2(x);
    let nearest = (angle / part).round() * part;
    (r - 96.0).hypot(96.0 * (angle - nearest)) < 3.2
}

/// A sign at a point, from its middle: enamel, a cream line, letters, two bolt holes, a chip.
fn sign_at(x: f64, y: f64) -> Option<Colour> {
    let edge = outside(x, y, 170.0, 84.0, 20.0);
    let hole = (x.abs() - 143.0).hypot(y);
    let chip = (x - 168.0).hypot(y - 62.0) - 3.0 * (x / 5.0).sin();
    match edge {
        _ if edge > 0.0 || hole < 9.0 => None,
        _ if chip < 17.0 || hole < 12.0 => Some(STEEL),
        _ if (-15.0..-10.0).contains(&edge) => Some(CREAM),
        _ if written("TRAM", x, y + 32.0, 6.0) || written("STOP", x, y - 32.0, 6.0) => Some(CREAM),
        _ => Some(shade(RED, 1.05 - x / 2000.0)),
    }
}

/// A sign whose bolt holes show the card.
pub fn sign() -> Image {
    photograph(250, 400, |px, py| sign_at(px - 200.0, py - 125.0))
}

/// The same sign, running out of the picture.
fn partial() -> Image {
    photograph(200, 300, |px, py| sign_at(px - 200.0, py - 150.0))
}

/// A card ticket, torn off at its right, with a notch punched into its left.
pub fn ticket() -> Image {
    photograph(220, 380, |px, py| {
        let (x, y) = (px - 170.0, py - 110.0);
        let torn = 136.0
            + 5.0 * (y / 9.0).sin()
            + 3.0 * (y / 3.7 + 1.0).sin()
            + 2.0 * grain(py as u64, 3, 5);
        let notch = (x + 132.0).hypot(y - 34.0) < 12.0;
        let paper = outside(x, y, 132.0, 72.0, 7.0);
        let whole = if x < 0.0 { paper } else { y.abs() - 72.0 };
        let fibre = 4.0 * grain((px * 2.0) as u64, (py * 2.0) as u64, 1);
        match x {
            _ if whole > 0.0 || x > torn || notch => None,
            _ if x > torn - 4.0 => Some(shade(BUFF, 1.12)),
            _ if (y + 38.0).abs() < 1.2 || (y - 44.0).abs() < 1.2 => Some(INK),
            _ if written("TRAM", x, y + 55.0, 3.0) => Some(INK),
            _ if written("SINGLE", x, y, 6.0) => Some(INK),
            _ if written("0427", x, y - 58.0, 2.5) => Some(RED),
            _ => Some(BUFF.map(|v| v + fibre)),
        }
    })
}

/// A picture without any alpha.
fn blank() -> Image {
    Image {
        alpha: vec![0; 40 * 60],
        ..photograph(40, 60, |_, _| None)
    }
}

/// Five columns by seven rows: the rows of a letter, the leftmost column as 16.
fn letter(character: char) -> [u8; 7] {
    match character {
        'A' => [14, 17, 17, 31, 17, 17, 17],
        'E' => [31, 16, 16, 30, 16, 16, 31],
        'G' => [14, 17, 16, 23, 17, 17, 14],
        'I' => [14, 4, 4, 4, 4, 4, 14],
        'L' => [16, 16, 16, 16, 16, 16, 31],
        'M' => [17, 27, 21, 21, 17, 17, 17],
        'N' => [17, 25, 21, 21, 19, 17, 17],
        'O' => [14, 17, 17, 17, 17, 17, 14],
        'P' => [30, 17, 17, 30, 16, 16, 16],
        'R' => [30, 17, 17, 30, 20, 18, 17],
        'S' => [15, 16, 16, 14, 1, 1, 30],
        'T' => [31, 4, 4, 4, 4, 4, 4],
        '0' => [14, 17, 19, 21, 25, 17, 14],
        '2' => [14, 17, 1, 6, 8, 16, 31],
        '4' => [2, 6, 10, 18, 31, 2, 2],
        '7' => [31, 1, 2, 4, 8, 8, 8],
        _ => [0; 7],
    }
}

/// Whether a point is on a word around the origin, its dots `size` pixels large.
fn written(word: &str, x: f64, y: f64, size: f64) -> bool {
    let wide = 6.0 * word.len() as f64 - 1.0;
    let (col, row) = (x / size + wide / 2.0, y / size + 3.5);
    if !(0.0..wide).contains(&col) || !(0.0..7.0).contains(&row) {
        return false;
    }
    let (place, dot) = (col as usize / 6, col as usize % 6);
    let character = word.chars().nth(place).unwrap_or(' ');
    dot < 5 && letter(character)[row as usize] >> (4 - dot) & 1 == 1
}
