//! Two pictures that agree on the border and near the first one's ground are cut alike: 20,000
//! random pairs, and as many with one colour given for both; and pairs that show that one pixel less of
//! agreement is not enough, and that the border has to agree.
//!
//! The pictures have one size and equal alpha; the settings are equal, a negative number of passes
//! read as 0, and −0 as 0; each buffer is as long in one call as in the other. Where sides, lengths
//! and settings are accepted, the colours agree as numbers on the border and on every pixel within
//! p + 4 rows and columns of the first picture's ground, found or not, sought or not; elsewhere they
//! are any numbers from 0 to 1. Where a colour is given, the ground is the one by that colour, and the
//! two texts give the same three bytes, each in its own case.

#[path = "../support/lent.rs"]
mod lent;
#[path = "../support/masks.rs"]
mod masks;
#[path = "../support/pictures.rs"]
mod pictures;

use lent::CutLent;
use masks::Random;
use pictures::{Drawn, Rings};
use stand::raw::{self, StandCut, Work};
use stand::{Crop, Cut, Picture, Refusal, Settings};
use std::io::Write;

/// p, with a negative number as 0.
fn passes(settings: &Settings) -> u64 {
    u64::try_from(settings.key_bg_fringe).unwrap_or(0)
}

/// The first picture's ground, by the median of the border or by a colour that is given.
fn ground(drawn: &Drawn, given: Option<&str>) -> Vec<u8> {
    let (colours, h, w) = (&drawn.colours, drawn.h, drawn.w);
    let reference = pictures::reference_by(given, colours, h, w);
    pictures::ground_by(reference, colours, h, w, drawn.settings.key_bg_tolerance)
}

/// Where the pictures have to agree: the border, and within p + 4 of the ground.
fn bound(drawn: &Drawn, ground: &[u8]) -> Vec<bool> {
    let (h, w) = (drawn.h, drawn.w);
    let near = stand::squares(ground, h, w, passes(&drawn.settings).saturating_add(4)).unwrap();
    let border = pictures::onto_border(h, w);
    (0..h * w).map(|i| border[i] || near[i] == 1).collect()
}

/// A picture that agrees with `drawn` where `bound` says so, with zeros of any sign there.
fn partner(random: &mut Random, drawn: &Drawn, bound: &[bool]) -> Vec<f64> {
    let other = pictures::draw(random, drawn.h, drawn.w).colours;
    let any = random.below(3) > 0;
    (0..3 * bound.len())
        .map(|c| match (bound[c / 3], drawn.colours[c]) {
            (true, 0.0) if random.below(2) == 0 => -0.0,
            (true, 0.0) => 0.0,
            (true, own) => own,
            (false, _) if any => (random.next() >> 11) as f64 / (1u64 << 53) as f64,
            (false, _) => other[c],
        })
        .collect()
}

/// Equal settings that need not be the same.
fn equal_settings(random: &mut Random, settings: &Settings) -> Settings {
    let mut other = *settings;
    if other.key_bg_fringe <= 0 {
        other.key_bg_fringe = [0, -1, -7, i64::MIN][random.below(4)];
    }
    if other.key_bg_tolerance == 0.0 {
        other.key_bg_tolerance = [0.0, -0.0][random.below(2)];
    }
    other
}

fn bits(weights: &[f64]) -> Vec<u64> {
    weights.iter().map(|weight| weight.to_bits()).collect()
}

/// The cut in buffers that hold what earlier calls left in them.
fn cut_in(
    lent: &mut CutLent,
    picture: &Picture,
    given: Option<&str>,
    settings: &Settings,
) -> Result<Cut, Refusal> {
    let Picture {
        colours,
        alpha,
        h,
        w,
    } = *picture;
    let (answer, mask, weights) = match given {
        Some(text) => lent.cut_with_colour(colours, alpha, h, w, text, *settings),
        None => lent.cut(colours, alpha, h, w, *settings),
    };
    Refusal::check(answer.refusal)?;
    Ok(Cut {
        mask: mask.to_vec(),
        weights: weights.to_vec(),
        keyed: answer.keyed,
        crop: Crop {
            rows: answer.y0..answer.y1,
            cols: answer.x0..answer.x1,
        },
    })
}

/// Holds two answers of the cut to be the same.
fn alike(first: &Result<Cut, Refusal>, second: &Result<Cut, Refusal>, shown: impl Fn() -> String) {
    match (first, second) {
        (Ok(a), Ok(b)) => {
            assert_eq!(a.mask, b.mask, "mask, {}", shown());
            assert_eq!(bits(&a.weights), bits(&b.weights), "weights, {}", shown());
            assert_eq!((a.keyed, &a.crop), (b.keyed, &b.crop), "{}", shown());
        }
        (a, b) => assert_eq!(a, b, "{}", shown()),
    }
}

#[derive(Default)]
struct Covered {
    pairs: u64,
    differing: u64,
    keyed: u64,
    keyed_differing: u64,
    grown_differing: u64,
    not_found: u64,
    not_sought: u64,
    refused: u64,
}

impl Covered {
    fn count(&mut self, drawn: &Drawn, ground: &[u8], cut: Result<Cut, Refusal>, differs: bool) {
        self.pairs += 1;
        self.differing += differs as u64;
        match cut {
            Ok(cut) if cut.keyed => {
                let grown = cut.mask.iter().zip(ground).any(|(&m, &g)| m + g == 0);
                self.keyed += 1;
                self.keyed_differing += differs as u64;
                self.grown_differing += (differs && grown) as u64;
            }
            Ok(_) => {
                let least = *drawn.alpha.iter().min().expect("a pixel");
                let full = least as i64 >= drawn.settings.alpha_threshold;
                match drawn.settings.key_bg && full {
                    true => self.not_found += 1,
                    false => self.not_sought += 1,
                }
            }
            Err(_) => self.refused += 1,
        }
    }

    fn say(&self, what: &str) {
        let line = format!(
            "two pictures that agree within p + 4 of the ground{what}: {} pairs alike; {} differ \
             elsewhere; keyed {}, of which {} differ elsewhere and {} of these grow; not found {}, not \
             sought {}, refused for alpha {}\n",
            self.pairs,
            self.differing,
            self.keyed,
            self.keyed_differing,
            self.grown_differing,
            self.not_found,
            self.not_sought,
            self.refused
        );
        std::io::stderr().write_all(line.as_bytes()).unwrap();
        assert!(self.differing >= 5_000 && self.grown_differing >= 500);
        assert!(self.not_found >= 500 && self.not_sought >= 500 && self.refused >= 200);
    }
}

/// Half of the pictures have an object with room inside it. With each comes the card's colour, where
/// one is given.
fn first_picture(random: &mut Random, given: bool) -> (Drawn, Option<String>) {
    let roomy = random.below(2) == 0;
    let (h, w) = match roomy {
        true => (16 + random.below(33), 16 + random.below(33)),
        false => pictures::sides(random, 40),
    };
    let (mut drawn, text) = match given {
        true => {
            let (drawn, text) = pictures::draw_given(random, h, w);
            (drawn, Some(text))
        }
        false => (pictures::draw(random, h, w), None),
    };
    if roomy {
        drawn.alpha = vec![255; h * w];
        drawn.settings.key_bg_fringe = random.below(5) as i64 - 1;
    }
    (drawn, text)
}

/// 20,000 pairs of a seed, by the median or by a colour.
fn pairs(seed: u64, given: bool) -> Covered {
    let mut random = Random(seed);
    let mut covered = Covered::default();
    let mut lent = CutLent::new(48, 48);
    for _ in 0..20_000 {
        let (drawn, text) = first_picture(&mut random, given);
        let ground = ground(&drawn, text.as_deref());
        let bound = bound(&drawn, &ground);
        let colours = partner(&mut random, &drawn, &bound);
        let settings = equal_settings(&mut random, &drawn.settings);
        let same = text.as_ref().map(|t| pictures::other_case(&mut random, t));
        let other = Picture {
            colours: &colours,
            ..drawn.picture()
        };
        let own = drawn.picture();
        let first = cut_in(&mut lent, &own, text.as_deref(), &drawn.settings);
        let second = cut_in(&mut lent, &other, same.as_deref(), &settings);
        alike(&first, &second, || {
            format!("{}\nand {colours:?}, {text:?}", drawn.show())
        });
        covered.count(&drawn, &ground, first, colours != drawn.colours);
    }
    covered
}

#[test]
fn twenty_thousand_pairs() {
    pairs(41, false).say("");
}

#[test]
fn twenty_thousand_pairs_with_a_colour() {
    pairs(43, true).say(" by a given colour");
}

/// The sides of a call, and the lengths of its work buffers and outputs.
struct Lengths {
    h: usize,
    w: usize,
    work: [usize; 4],
    outputs: [usize; 2],
}

/// The answer of the cut in buffers of these lengths that hold `fill`.
fn answer(
    lengths: &Lengths,
    colours: &[f64],
    alpha: &[u8],
    given: Option<&str>,
    settings: Settings,
    fill: u8,
) -> StandCut {
    let mut nearest = vec![fill as u32; lengths.work[0]];
    let [mut shallow, mut deep, mut marks] = [1, 2, 3].map(|i| vec![fill; lengths.work[i]]);
    let mut work = Work {
        nearest: &mut nearest,
        shallow: &mut shallow,
        deep: &mut deep,
        marks: &mut marks,
    };
    let (h, w) = (lengths.h, lengths.w);
    let mask = &mut vec![fill; lengths.outputs[0]][..];
    let weights = &mut vec![0.5; lengths.outputs[1]][..];
    match given {
        None => raw::cut(colours, alpha, h, w, settings, &mut work, mask, weights),
        Some(text) => {
            let (text, work) = (text.as_bytes(), &mut work);
            raw::cut_with_colour(colours, alpha, h, w, text, settings, work, mask, weights)
        }
    }
}

/// Texts that are no colour.
const NO_COLOUR: [&str; 7] = [
    "", "fffff", "fffffff", "#fffff", "fffffg", " fffff", "ffffff\0",
];

/// Where sides, lengths, settings or texts are declined the pictures need not agree anywhere.
#[test]
fn pairs_that_are_declined() {
    let mut random = Random(42);
    let any = |random: &mut Random| Some(NO_COLOUR[random.below(7)]);
    for round in 0..3_000 {
        let (h, w) = pictures::sides(&mut random, 12);
        let drawn = pictures::draw(&mut random, h, w);
        let colours: Vec<f64> = (0..3 * h * w)
            .map(|_| random.below(5) as f64 / 4.0)
            .collect();
        let mut settings = drawn.settings;
        let mut lengths = Lengths {
            h,
            w,
            work: [stand::work_len(h, w).unwrap(); 4],
            outputs: [h * w; 2],
        };
        let mut texts = match round % 2 {
            0 => (None, None),
            _ => (Some("c0ffee"), Some("C0FFEE")),
        };
        match round % 5 {
            0 => {
                let of = [f64::NAN, -f64::NAN, f64::INFINITY, f64::NEG_INFINITY];
                settings.key_bg_tolerance = of[random.below(4)];
            }
            1 => lengths.work[random.below(4)] -= 1,
            2 => lengths.outputs[random.below(2)] += 1,
            3 => lengths.h = [0, 4097, h + 1][random.below(3)],
            _ => texts = (any(&mut random), any(&mut random)),
        }
        let alpha = &drawn.alpha;
        let first = answer(&lengths, &drawn.colours, alpha, texts.0, settings, 3);
        if settings.key_bg_tolerance.is_nan() {
            // No number of other bits.
            settings.key_bg_tolerance = f64::from_bits(0x7ff8_0000_0000_0123);
        }
        let settings = equal_settings(&mut random, &settings);
        let second = answer(&lengths, &colours, alpha, texts.1, settings, 200);
        assert_eq!(first, second);
        assert_ne!(first.refusal, 0);
        assert_eq!(first.refusal == 11, round % 5 == 4);
    }
}

/// The radius p + 4 cannot be p + 3, for these p: on a card of side 2 (p + 4) + 1 whose ground is the
/// border only, the middle pixel is p + 4 away. Its colour decides whether pixels join in pass p.
fn one_pixel_less(rings: &Rings) {
    for p in [1, 2, 3, 4, 8, 12] {
        let settings = Settings {
            key_bg_fringe: p as i64,
            key_bg_tolerance: rings.tolerance,
            ..Settings::default()
        };
        let cut = |side: usize, middle: f64| {
            let drawn = Drawn {
                colours: rings.card(p, side, middle),
                alpha: vec![255; side * side],
                h: side,
                w: side,
                settings,
            };
            let ground = ground(&drawn, rings.given);
            let border = pictures::onto_border(side, side);
            assert!((0..side * side).all(|i| border[i] == (ground[i] == 1)));
            let mut lent = CutLent::new(side, side);
            cut_in(&mut lent, &drawn.picture(), rings.given, &settings).unwrap()
        };
        let (joins, stays) = rings.middles(p);
        let side = 2 * (p + 4) + 1;
        let (first, second) = (cut(side, joins), cut(side, stays));
        assert!(first.keyed && second.keyed);
        assert_ne!(first.mask, second.mask, "p {p}");
        // One ring more, and the middle pixel is out of reach.
        let side = side + 2;
        for middle in [stays, 0.5, 1.0] {
            alike(&Ok(cut(side, joins)), &Ok(cut(side, middle)), || {
                format!("p {p}")
            });
        }
    }
}

#[test]
fn one_pixel_less_is_not_enough() {
    one_pixel_less(&pictures::BY_MEDIAN);
}

/// By the median these cards have no ground.
#[test]
fn one_pixel_less_is_not_enough_with_a_colour() {
    one_pixel_less(&pictures::BY_COLOUR);
    let tolerance = pictures::BY_COLOUR.tolerance;
    let card = pictures::BY_COLOUR.card(1, 11, 0.0);
    assert_eq!(stand::ground(&card, 11, 11, tolerance), Ok(None));
}

/// Although no median is taken, the border has to agree: 6 by 1, with white given. All black has no
/// ground, so nothing is near it; of the other, with five white pixels, nine of ten entries are close.
#[test]
fn the_border_has_to_agree_with_a_colour() {
    let card = |greys: [f64; 6]| Drawn {
        colours: greys.iter().flat_map(|&grey| [grey; 3]).collect(),
        alpha: vec![255; 6],
        h: 6,
        w: 1,
        settings: Settings::default(),
    };
    let white = Some("ffffff");
    let (black, other) = (card([0.0; 6]), card([1.0, 1.0, 1.0, 1.0, 1.0, 0.0]));
    assert_eq!(ground(&black, white), [0; 6]);
    let mut lent = CutLent::new(6, 1);
    let mut cut = |drawn: &Drawn| cut_in(&mut lent, &drawn.picture(), white, &drawn.settings);
    let (first, second) = (cut(&black).unwrap(), cut(&other).unwrap());
    assert!(!first.keyed && first.mask == [1; 6]);
    assert!(second.keyed && second.mask == [0, 0, 0, 0, 0, 1]);
}
