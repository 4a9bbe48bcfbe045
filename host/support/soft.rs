//! Objects with a soft rim, off which several passes take pixels.

use stand::netpbm::Image;

/// The colour of the card.
pub const CARD: [u8; 3] = [236, 234, 228];

/// A dark disc on card, of half the picture's shorter side, that fades into the card over `rim`
/// pixels. With `rim` 0 no pass takes anything off it.
pub fn disc(h: usize, w: usize, rim: f64) -> Image {
    let radius = h.min(w) as f64 / 4.0;
    let pixel = |at: usize| {
        let (y, x) = ((at / w) as f64 + 0.5, (at % w) as f64 + 0.5);
        let far = (y - h as f64 / 2.0).hypot(x - w as f64 / 2.0) - radius;
        let card = match rim {
            0.0 => f64::from(u8::from(far > 0.0)),
            rim => (far / rim).clamp(0.0, 1.0),
        };
        CARD.map(|v| (30.0 + card * (f64::from(v) - 30.0)).round() as u8)
    };
    Image {
        h,
        w,
        rgb: (0..h * w).flat_map(pixel).collect(),
        alpha: vec![255; h * w],
    }
}
