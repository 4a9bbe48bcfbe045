//! Eight photographs of objects on card, drawn with what makes real ones hard: light that falls off,
//! a soft shadow, the fibre of the card, the noise of a sensor, dust, and the blocks of a JPEG. The
//! outline of each is known.
//!
//! A scene is drawn at any size. Points are given in units of the shorter side, from the middle of
//! the picture; the grain of card and sensor is as many pixels wide at every size.
#![allow(dead_code)]

#[path = "jpeg.rs"]
pub mod jpeg;
#[path = "objects.rs"]
pub mod objects;

use crate::masks::Random;
use objects::{Colour, Object};
use stand::netpbm::Image;

/// A drawn photograph.
pub struct Photograph {
    pub image: Image,
    /// The JPEG that the picture was read from, where a program to write one is installed.
    pub jpeg: Option<Vec<u8>>,
    /// 1 on the object and on the card that is seen through its holes, else 0.
    pub truth: Vec<u8>,
}

/// How a photograph comes about.
#[derive(Clone, Copy)]
pub struct Scene {
    pub name: &'static str,
    pub about: &'static str,
    pub object: Object,
    pub card: Colour,
    /// By how much the light falls off to the right, to the bottom, and to the corners.
    pub light: [f64; 3],
    pub shadow: Shadow,
    /// How uneven the card is.
    pub fibre: f64,
    /// The standard deviation of the sensor's noise, of 255.
    pub noise: f64,
    /// How many grains of dust lie there.
    pub dust: usize,
    /// The quality of the JPEG.
    pub quality: u8,
}

/// A shadow: how far to the right and down it falls, over which distance it fades, and how dark it is.
#[derive(Clone, Copy)]
pub struct Shadow {
    pub right: f64,
    pub down: f64,
    pub soft: f64,
    pub dark: f64,
}

const fn shadow(right: f64, down: f64, soft: f64, dark: f64) -> Shadow {
    Shadow {
        right,
        down,
        soft,
        dark,
    }
}

/// The eight scenes.
pub const SCENES: [Scene; 8] = [
    Scene {
        name: "badge",
        about: "an enamel badge on white card, lit from the left",
        object: objects::badge,
        card: [0.91, 0.9, 0.875],
        light: [0.1, 0.02, 0.02],
        shadow: shadow(0.015, 0.01, 0.03, 0.12),
        fibre: 0.012,
        noise: 2.0,
        dust: 25,
        quality: 88,
    },
    Scene {
        name: "shield",
        about: "a cap badge on grey card, by a sensor with much noise",
        object: objects::shield,
        card: [0.62, 0.63, 0.64],
        light: [0.015, 0.01, 0.02],
        shadow: shadow(0.006, 0.012, 0.02, 0.1),
        fibre: 0.01,
        noise: 4.3,
        dust: 12,
        quality: 92,
    },
    Scene {
        name: "sign",
        about: "an enamel sign with bolt holes on white card, with a wide soft shadow",
        object: objects::sign,
        card: [0.91, 0.9, 0.875],
        light: [0.02, 0.015, 0.02],
        shadow: shadow(0.02, 0.03, 0.09, 0.16),
        fibre: 0.03,
        noise: 4.0,
        dust: 40,
        quality: 85,
    },
    Scene {
        name: "ticket",
        about: "a torn ticket with punched holes on blue card, with dust",
        object: objects::ticket,
        card: [0.42, 0.53, 0.66],
        light: [0.02, 0.03, 0.015],
        shadow: shadow(0.004, 0.005, 0.01, 0.15),
        fibre: 0.055,
        noise: 4.6,
        dust: 220,
        quality: 80,
    },
    Scene {
        name: "token",
        about: "a brass token with a square hole on slate card",
        object: objects::token,
        card: [0.2, 0.205, 0.22],
        light: [0.1, 0.06, 0.05],
        shadow: shadow(0.01, 0.01, 0.03, 0.4),
        fibre: 0.06,
        noise: 3.6,
        dust: 60,
        quality: 90,
    },
    Scene {
        name: "plate",
        about: "an oval number plate on cream card, with dark corners",
        object: objects::plate,
        card: [0.88, 0.83, 0.71],
        light: [0.03, 0.05, 0.16],
        shadow: shadow(-0.012, 0.02, 0.05, 0.2),
        fibre: 0.015,
        noise: 1.6,
        dust: 30,
        quality: 75,
    },
    Scene {
        name: "pass",
        about: "a pale season ticket on grey card that is hardly darker",
        object: objects::pass,
        card: [0.72, 0.72, 0.715],
        light: [0.07, 0.03, 0.03],
        shadow: shadow(0.003, 0.004, 0.008, 0.1),
        fibre: 0.012,
        noise: 1.7,
        dust: 20,
        quality: 86,
    },
    Scene {
        name: "buttons",
        about: "three uniform buttons on rough green card",
        object: objects::buttons,
        card: [0.36, 0.52, 0.4],
        light: [0.03, 0.09, 0.06],
        shadow: shadow(0.012, 0.016, 0.03, 0.25),
        fibre: 0.09,
        noise: 2.2,
        dust: 30,
        quality: 82,
    },
];

impl Scene {
    /// The photograph, `h` rows of `w` pixels; the same each time.
    pub fn photograph(&self, h: usize, w: usize) -> Photograph {
        let (image, truth) = self.seen(h, w);
        let (image, jpeg) = jpeg::through(image, self.quality);
        Photograph { image, jpeg, truth }
    }

    /// The same object on clean card in soft, even light, by a better camera.
    pub fn in_good_light(&self) -> Scene {
        Scene {
            light: [0.01, 0.01, 0.01],
            shadow: Shadow {
                dark: 0.02,
                ..self.shadow
            },
            fibre: 0.006,
            noise: 0.8,
            dust: 0,
            quality: 95,
            ..*self
        }
    }

    /// What the sensor sees, and where the object is.
    pub fn seen(&self, h: usize, w: usize) -> (Image, Vec<u8>) {
        let seed = |seed: u64, byte| seed * 31 + u64::from(byte);
        let mut random = Random(self.name.bytes().fold(7, seed));
        let side = h.min(w) as f64;
        let dust = dust(&mut random, self.dust, h, w);
        let mut rgb = Vec::with_capacity(3 * h * w);
        let mut truth = Vec::with_capacity(h * w);
        for y in 0..h {
            let near: Vec<&Grain> = dust.iter().filter(|grain| grain.in_row(y)).collect();
            for x in 0..w {
                let right = (x as f64 + 0.5 - w as f64 / 2.0) / side;
                let down = (y as f64 + 0.5 - h as f64 / 2.0) / side;
                let there = (self.object)(right, down);
                truth.push(u8::from(there.outline < 0.0));
                // The lens spreads an edge over two pixels.
                let cover = (0.5 - there.solid * side / 2.0).clamp(0.0, 1.0);
                let card = self.card_at(x, y, side) * self.shade_at(right, down);
                let light = near
                    .iter()
                    .fold(self.light_at(right, down), |light, grain| {
                        light * grain.light_at(x, y)
                    });
                for (card_colour, colour) in self.card.into_iter().zip(there.colour) {
                    let value = card * card_colour * (1.0 - cover) + colour * cover;
                    let noise = self.noise * normal(&mut random);
                    rgb.push((255.0 * light * value + noise).round().clamp(0.0, 255.0) as u8);
                }
            }
        }
        let alpha = vec![255; h * w];
        (Image { h, w, rgb, alpha }, truth)
    }

    /// How light the card is at a pixel: streaks along and across, fine grain, and wide clouds.
    fn card_at(&self, x: usize, y: usize, side: f64) -> f64 {
        let (x, y) = (x as f64, y as f64);
        let streaks = smooth(x / 11.0, y / 1.7, 1) + smooth(x / 1.7, y / 11.0, 2);
        let grain = smooth(x / 1.4, y / 1.4, 3);
        let clouds = smooth(12.0 * x / side, 12.0 * y / side, 4);
        1.0 + self.fibre * (0.4 * streaks + 0.4 * grain + 0.3 * clouds - 0.75)
    }

    /// How much light the shadow leaves.
    fn shade_at(&self, right: f64, down: f64) -> f64 {
        let shadow = &self.shadow;
        let away = (self.object)(right - shadow.right, down - shadow.down).outline;
        let depth = (0.7 - away / shadow.soft).clamp(0.0, 1.0);
        1.0 - shadow.dark * depth * depth * (3.0 - 2.0 * depth)
    }

    /// How much light falls on a point, 1 in the middle.
    fn light_at(&self, right: f64, down: f64) -> f64 {
        let [across, along, corners] = self.light;
        1.0 - across * right - along * down - corners * (right * right + down * down)
    }
}

/// A grain of dust: a dark spot with a soft rim.
struct Grain {
    x: f64,
    y: f64,
    radius: f64,
    dark: f64,
}

/// Grains anywhere in a picture, most of them small.
fn dust(random: &mut Random, count: usize, h: usize, w: usize) -> Vec<Grain> {
    let side = h.min(w) as f64;
    let grain = |_| Grain {
        x: unit(random) * w as f64,
        y: unit(random) * h as f64,
        radius: 0.6 + side * 0.003 * unit(random).powi(3),
        dark: 0.15 + 0.5 * unit(random),
    };
    (0..count).map(grain).collect()
}

impl Grain {
    fn in_row(&self, y: usize) -> bool {
        (y as f64 - self.y).abs() < self.radius + 2.0
    }

    fn light_at(&self, x: usize, y: usize) -> f64 {
        let away = (x as f64 - self.x).hypot(y as f64 - self.y);
        1.0 - self.dark * (self.radius + 0.5 - away).clamp(0.0, 1.0)
    }
}

/// From 0 to 1.
fn unit(random: &mut Random) -> f64 {
    (random.next() >> 11) as f64 / (1u64 << 53) as f64
}

/// A number of mean 0 and standard deviation 1, nearly normal: the sum of four even ones.
fn normal(random: &mut Random) -> f64 {
    let bits = random.next();
    let sum: u64 = (0..4).map(|part| bits >> (16 * part) & 0xffff).sum();
    (sum as f64 / 65536.0 - 2.0) * 3f64.sqrt()
}

/// A number from 0 to 1 for a point of a grid.
fn at_corner(x: i64, y: i64, kind: u64) -> f64 {
    let place = (x as u64) << 32 ^ y as u64 & 0xffff_ffff;
    unit(&mut Random(
        place ^ kind.wrapping_mul(0xd1b5_4a32_d192_ed03),
    ))
}

/// A smooth field of numbers from 0 to 1, which changes over a distance of 1.
fn smooth(x: f64, y: f64, kind: u64) -> f64 {
    let (left, top) = (x.floor(), y.floor());
    let (right, down) = (x - left, y - top);
    let (left, top) = (left as i64, top as i64);
    let row = |y| at_corner(left, y, kind) * (1.0 - right) + at_corner(left + 1, y, kind) * right;
    row(top) * (1.0 - down) + row(top + 1) * down
}
