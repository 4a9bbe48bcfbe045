//! A second reading of ground and cut by any reference, such as a colour that is given: mask.rs's own
//! functions put together anew. mask.rs itself takes the median of the border and nothing else.

use crate::config::Config;
use crate::mask::{self, Subject};
use crate::pictures;
use stand::{Picture, Rgb, Settings};

/// The settings as mask.rs takes them.
pub fn config(s: &Settings) -> Config {
    Config {
        alpha_threshold: s.alpha_threshold,
        key_bg: s.key_bg,
        key_bg_fringe: s.key_bg_fringe,
        key_bg_tolerance: s.key_bg_tolerance,
        crop_to_alpha: s.crop_to_alpha,
    }
}

/// The ground where it is found: the parts of the close pixels, by `label4`, that have a pixel on the
/// border.
pub fn ground(
    reference: Rgb,
    colours: &[f64],
    h: usize,
    w: usize,
    tolerance: f64,
) -> Option<Vec<bool>> {
    let close: Vec<bool> = (0..h * w)
        .map(|i| pictures::is_close(colours, i, reference, tolerance))
        .collect();
    let list = pictures::border(h, w);
    let entries = list.iter().filter(|&&i| close[i]).count();
    if 10 * entries < 9 * list.len() {
        return None;
    }
    let (labels, parts) = mask::label4(&close, h, w);
    let mut reached = vec![false; parts + 1];
    for &i in list.iter().filter(|&&i| close[i]) {
        reached[labels[i] as usize] = true;
    }
    let ground: Vec<bool> = labels.iter().map(|&l| reached[l as usize]).collect();
    ground.contains(&false).then_some(ground)
}

/// The cut; nothing where no alpha reaches the threshold.
pub fn subject(reference: Rgb, picture: &Picture, s: &Settings) -> Option<Subject> {
    let Picture {
        colours,
        alpha,
        h,
        w,
    } = *picture;
    let by_alpha = Config {
        key_bg: false,
        ..config(s)
    };
    let opaque = alpha.iter().all(|&a| a as i64 >= s.alpha_threshold);
    let sought = s.key_bg && opaque;
    let found = sought.then(|| ground(reference, colours, h, w, s.key_bg_tolerance));
    let Some(ground) = found.flatten() else {
        return mask::subject(colours, alpha, h, w, &by_alpha).ok();
    };
    let passes = usize::try_from(s.key_bg_fringe).unwrap_or(0);
    let of = [reference.r, reference.g, reference.b];
    let grown = mask::unmix_fringe(colours, &ground, h, w, &of, passes);
    // The mask handed to mask.rs as an alpha, whose weights are those of the picture's.
    let kept: Vec<u8> = (alpha.iter().zip(&grown))
        .map(|(&a, &off)| if off { 0 } else { a.max(1) })
        .collect();
    let on = Config {
        alpha_threshold: 1,
        ..by_alpha
    };
    let cut = mask::subject(colours, &kept, h, w, &on).expect("growth leaves a pixel");
    Some(Subject {
        background_keyed: true,
        ..cut
    })
}
