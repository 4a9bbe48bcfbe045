//! What every tolerance would leave of a picture, and which of them is best.
//!
//! A good tolerance has a firm outline: where the object begins, the difference from the card rises
//! within a few pixels. Where an outline runs through a shadow, through uneven light or around the
//! noise of a sensor, it hardly does. So the best tolerance is the one with the firmest outline;
//! since a high tolerance takes light parts of the object for card, it must be firmer for that.

use super::levels::Levels;

/// How many rows and columns away from a firm outline the difference has risen.
const REACH: usize = 3;
/// It has risen to so many times the tolerance, and by so many times what is usual on the border.
const TIMES: f64 = 1.5;
/// It has risen by so much: 10 of 255.
pub const RISE: f64 = 0.04;
/// By which share of its length the outline must be firmer at twice the tolerance.
const FIRMER: f64 = 0.2;
/// Tolerances below this are not held against each other.
const LOW: f64 = 0.03;
/// What is worse by this share is as good.
const AS_GOOD: f64 = 0.05;

/// What a tolerance would do.
#[derive(Clone, Copy, Debug)]
pub struct At {
    /// The tolerance.
    pub tolerance: f64,
    /// How many entries of the border list are close.
    pub close: usize,
    /// How many pixels are not ground.
    pub left: usize,
    /// Which share of the outline is firm.
    pub firm: f64,
}

impl At {
    /// What is to be as high as can be.
    pub fn worth(&self) -> f64 {
        self.firm - FIRMER * (self.tolerance.max(LOW) / LOW).log2()
    }
}

/// What every tolerance would do.
pub struct Profile {
    /// For each level its tolerance and what that would do.
    pub all: Vec<At>,
    /// How many entries the border list has.
    pub entries: usize,
}

impl Profile {
    /// The profile of a picture; along a firm outline the difference rises by `rise` or more.
    pub fn of(levels: &Levels, rise: f64) -> Profile {
        let count = levels.steps.len();
        let mut ground = vec![0; count];
        for row in levels.rows() {
            for &level in &levels.plane[row] {
                ground[usize::from(level)] += 1;
            }
        }
        let (long, firm) = outlines(levels, rise);
        let mut left: usize = ground.iter().sum();
        let mut close = 0;
        let at = |level: usize| {
            close += levels.border[level];
            left -= ground[level];
            At {
                tolerance: levels.steps[level],
                close,
                left,
                firm: firm[level] as f64 / long[level].max(1) as f64,
            }
        };
        let all = (0..count).map(at).collect();
        Profile {
            all,
            entries: levels.border.iter().sum(),
        }
    }

    /// The level of a tolerance; `None` where nothing is close.
    pub fn level(&self, tolerance: f64) -> Option<usize> {
        let below = self.all.partition_point(|at| at.tolerance <= tolerance);
        below.checked_sub(1)
    }

    /// Whether so many in ten of the border list are close (R21 asks for nine).
    pub fn tenths(&self, at: &At, tenths: usize) -> bool {
        10 * at.close >= tenths * self.entries
    }

    /// The lowest level at which nine tenths of the border list are close.
    pub fn least(&self) -> usize {
        let fewer = |at: &At| !self.tenths(at, 9);
        self.all.partition_point(fewer).min(self.all.len() - 1)
    }

    /// The best level of those at which so many in ten of the border list are close and something
    /// is left. Of levels that are as good the highest is taken, which leaves the fewest specks.
    pub fn best(&self, tenths: usize) -> Option<usize> {
        let usable = |&level: &usize| {
            let at = &self.all[level];
            at.left > 0 && self.tenths(at, tenths)
        };
        let worth = |level: usize| self.all[level].worth();
        let usable: Vec<usize> = (0..self.all.len()).filter(usable).collect();
        let by_worth = |a: &usize, b: &usize| worth(*a).total_cmp(&worth(*b));
        let best = usable.iter().copied().max_by(by_worth)?;
        let after = usable.into_iter().filter(|&level| level > best);
        let as_good = after.take_while(|&level| worth(level) >= worth(best) - AS_GOOD);
        as_good.last().or(Some(best))
    }
}

/// For each level how many pixels its outline has, and how many of them are firm.
///
/// A pixel belongs to the outline from the lowest level beside it up to its own.
fn outlines(levels: &Levels, rise: f64) -> (Vec<i64>, Vec<i64>) {
    let steps = &levels.steps;
    let highest = levels.highest(REACH);
    let rise = rise.max(TIMES * usual_rise(levels, &highest));
    // For each level the first level that would not be firm with it in reach.
    let firm_below = |&step: &f64| {
        let firm = |tolerance: &f64| (TIMES * tolerance).max(tolerance + rise) <= step;
        steps.partition_point(firm)
    };
    let firm_below: Vec<usize> = steps.iter().map(firm_below).collect();
    let plane = &levels.plane;
    let stride = levels.stride;
    let mut long = vec![0; steps.len() + 1];
    let mut firm = vec![0; steps.len() + 1];
    for place in levels.rows().flatten() {
        let beside = [place - 1, place + 1, place - stride, place + stride];
        let lowest = beside
            .into_iter()
            .fold(plane[place], |l, at| l.min(plane[at]));
        let (from, to) = (usize::from(lowest), usize::from(plane[place]));
        if from < to {
            let firm_to = firm_below[usize::from(highest[place])].clamp(from, to);
            long[from] += 1;
            long[to] -= 1;
            firm[from] += 1;
            firm[firm_to] -= 1;
        }
    }
    (summed(long), summed(firm))
}

/// How much the difference rises in reach of a pixel of the border, in the middle of them all: the
/// noise of the card.
fn usual_rise(levels: &Levels, highest: &[u16]) -> f64 {
    let step = |level: u16| levels.steps[usize::from(level)];
    let rise = |&at: &usize| step(highest[at]) - step(levels.plane[at]);
    let mut rises: Vec<f64> = levels.entries.iter().map(rise).collect();
    let middle = rises.len() / 2;
    *rises.select_nth_unstable_by(middle, f64::total_cmp).1
}

/// The sums of the first number, the first two, and so on.
fn summed(mut numbers: Vec<i64>) -> Vec<i64> {
    let mut sum = 0;
    for number in &mut numbers {
        sum += *number;
        *number = sum;
    }
    numbers
}

#[cfg(test)]
mod tests {
    use super::*;
    use crate::netpbm::Image;

    /// A grey picture of 60 by 60.
    fn picture(grey: impl Fn(usize, usize) -> u8) -> Image {
        let rgb = (0..3600).flat_map(|i| [grey(i / 60, i % 60); 3]).collect();
        let alpha = vec![255; 3600];
        let (h, w) = (60, 60);
        Image { h, w, rgb, alpha }
    }

    fn ring(y: usize, x: usize) -> usize {
        y.min(x).min(59 - y).min(59 - x)
    }

    fn profile(image: &Image) -> Profile {
        Profile::of(&Levels::of(image, None), RISE)
    }

    /// What is dark all at once has a firm outline at every tolerance below it, what becomes dark
    /// slowly has none.
    #[test]
    fn firm() {
        let sharp = profile(&picture(|y, x| if ring(y, x) < 20 { 200 } else { 100 }));
        let at = |tolerance: f64| sharp.all[sharp.level(tolerance).unwrap()];
        assert_eq!((at(0.0).firm, at(0.0).left), (1.0, 400));
        assert_eq!((at(0.2).firm, at(0.2).left, at(0.2).close), (1.0, 400, 236));
        assert_eq!((at(0.4).firm, at(0.4).left), (0.0, 0));
        assert_eq!(sharp.entries, 236);
        let soft = profile(&picture(|y, x| 200 - ring(y, x) as u8));
        assert!(soft.all.iter().all(|at| at.firm == 0.0));
    }

    /// Noise of 40 of 255, which rises by more than [`RISE`] itself, is no outline.
    #[test]
    fn noise() {
        let mut state = 1u64;
        let noise: Vec<u8> = (0..3600)
            .map(|_| {
                state = state.wrapping_mul(6364136223846793005).wrapping_add(99);
                (state >> 33) as u8 % 40
            })
            .collect();
        let card = |y: usize, x: usize| 200 - noise[60 * y + x];
        let image = picture(|y, x| if ring(y, x) < 20 { card(y, x) } else { 20 });
        let profile = profile(&image);
        let best = profile.all[profile.best(5).unwrap()];
        assert_eq!((best.close, best.left), (236, 400), "{best:?}");
    }

    /// A shadow of 25 around an object of 150: the best tolerance lies between.
    #[test]
    fn best() {
        let shadow = |y, x| 200 - 2 * ring(y, x).clamp(2, 14) as u8;
        let image = picture(|y, x| if ring(y, x) < 20 { shadow(y, x) } else { 50 });
        let profile = profile(&image);
        let best = profile.all[profile.best(9).unwrap()];
        assert_eq!((best.firm, best.left), (1.0, 400));
        assert!((0.09..0.2).contains(&best.tolerance), "{best:?}");
        assert_eq!(profile.level(-0.1), None);
        assert_eq!(profile.all[profile.least()].tolerance, 0.0);
    }
}
