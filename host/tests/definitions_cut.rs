//! The rules on ground, growth and cut (R15 to R36) and on the look at the coming pass (R89 to R92),
//! computed pixel by pixel without any algorithm, and its cases; ground and cut also by a colour that
//! is given. These need no mask.rs.

#[path = "../support/masks.rs"]
mod masks;
#[path = "../support/pictures.rs"]
mod pictures;

use masks::Random;
use pictures::Drawn;
use stand::{Crop, Cut, Picture, Refusal, Rgb, Settings};

/// Some pixel of which this holds is within k of pixel i.
fn within(on: impl Fn(usize) -> bool, n: usize, w: usize, k: usize, i: usize) -> bool {
    let near = |j: usize| (i / w).abs_diff(j / w) <= k && (i % w).abs_diff(j % w) <= k;
    (0..n).any(|j| on(j) && near(j))
}

/// The nearest pixel of which this holds, with dy² + dx²: the least column, and in it the least row.
fn nearest(on: impl Fn(usize) -> bool, n: usize, w: usize, i: usize) -> Option<(usize, usize)> {
    let square = |j: usize| (i / w).abs_diff(j / w).pow(2) + (i % w).abs_diff(j % w).pow(2);
    let all = (0..n).filter(|&j| on(j));
    all.map(|j| (square(j), j % w, j / w))
        .min()
        .map(|(d, x, y)| (d, y * w + x))
}

fn difference(colours: &[f64], i: usize, r: Rgb) -> f64 {
    let channels = [
        colours[3 * i] - r.r,
        colours[3 * i + 1] - r.g,
        colours[3 * i + 2] - r.b,
    ];
    channels.into_iter().map(f64::abs).fold(0.0, f64::max)
}

/// One pass; `None` where growth ends.
fn pass(colours: &[f64], back: &[u8], w: usize, r: Rgb) -> Option<Vec<u8>> {
    let n = back.len();
    let on = |i: usize| back[i] != 0;
    let near: Vec<bool> = (0..n).map(|i| within(on, n, w, 1, i)).collect();
    let edge = |i: usize| !on(i) && near[i];
    let shallow = |i: usize| !on(i) && !near[i];
    if !(0..n).any(edge) || !(0..n).any(shallow) {
        return None;
    }
    let deep: Vec<bool> = (0..n).map(|i| !within(on, n, w, 4, i)).collect();
    let joins = |i: usize| {
        let body = match nearest(|j| deep[j], n, w, i) {
            Some((d, j)) if d <= 36 => j,
            _ => nearest(shallow, n, w, i).expect("a shallow pixel").1,
        };
        let (full, mixed) = (difference(colours, body, r), difference(colours, i, r));
        edge(i) && full > 1e-6 && 2.0 * mixed < full
    };
    let joined: Vec<usize> = (0..n).filter(|&i| edge(i) && joins(i)).collect();
    let mut next = back.to_vec();
    for &i in &joined {
        next[i] = 1;
    }
    (!joined.is_empty()).then_some(next)
}

fn growth(colours: &[f64], back: &[u8], w: usize, r: Rgb, p: i64) -> Vec<u8> {
    let mut back: Vec<u8> = back.iter().map(|&b| (b != 0) as u8).collect();
    for _ in 0..p {
        match pass(colours, &back, w, r) {
            Some(next) => back = next,
            None => break,
        }
    }
    back
}

/// The ground where it is found.
fn found(reference: Rgb, colours: &[f64], h: usize, w: usize, tolerance: f64) -> Option<Vec<u8>> {
    let (close, all) = pictures::close_entries_by(reference, colours, h, w, tolerance);
    let ground = pictures::ground_by(reference, colours, h, w, tolerance);
    (10 * close >= 9 * all && ground.contains(&0)).then_some(ground)
}

/// The least box that holds the mask, one row or column larger on each side, within the picture.
fn crop(mask: &[u8], h: usize, w: usize) -> Crop {
    let on = || (0..h * w).filter(|&i| mask[i] == 1);
    let rows = (on().map(|i| i / w).min(), on().map(|i| i / w).max());
    let cols = (on().map(|i| i % w).min(), on().map(|i| i % w).max());
    let clamped = |(least, most): (Option<usize>, Option<usize>), side: usize| {
        least.unwrap().saturating_sub(1)..(most.unwrap() + 2).min(side)
    };
    Crop {
        rows: clamped(rows, h),
        cols: clamped(cols, w),
    }
}

/// The cut by the median of the border, or by the card's colour where that is given.
fn cut(drawn: &Drawn, given: Option<&str>) -> Result<Cut, Refusal> {
    let Drawn {
        colours,
        alpha,
        h,
        w,
        settings,
    } = drawn;
    let (h, w) = (*h, *w);
    let mut mask: Vec<u8> = alpha
        .iter()
        .map(|&a| (a as i64 >= settings.alpha_threshold) as u8)
        .collect();
    if !mask.contains(&1) {
        return Err(Refusal::Alpha);
    }
    let mut keyed = false;
    if settings.key_bg && !mask.contains(&0) {
        let reference = pictures::reference_by(given, colours, h, w);
        if let Some(ground) = found(reference, colours, h, w, settings.key_bg_tolerance) {
            let grown = growth(colours, &ground, w, reference, settings.key_bg_fringe);
            mask = grown.iter().map(|&g| 1 - g).collect();
            keyed = true;
        }
    }
    let weight = |i: usize| match mask[i] {
        0 => 0.0,
        _ => alpha[i].max(1) as f64 / 255.0,
    };
    let weights = (0..h * w).map(weight).collect();
    let crop = match settings.crop_to_alpha && mask.contains(&0) {
        true => crop(&mask, h, w),
        false => Crop {
            rows: 0..h,
            cols: 0..w,
        },
    };
    Ok(Cut {
        mask,
        weights,
        keyed,
        crop,
    })
}

/// How many pictures were keyed, and how many of these had pixels joined.
#[derive(Default)]
struct Seen {
    keyed: u32,
    grown: u32,
}

/// Ground and cut of a picture against the rules; whether a ground was found.
fn hold(drawn: &Drawn, given: Option<&str>, seen: &mut Seen) -> bool {
    let (colours, h, w, s) = (&drawn.colours, drawn.h, drawn.w, &drawn.settings);
    let tolerance = s.key_bg_tolerance;
    let (ours, ground) = match given {
        None => (
            stand::cut(&drawn.picture(), s),
            stand::ground(colours, h, w, tolerance),
        ),
        Some(text) => (
            stand::cut_with_colour(&drawn.picture(), text, s),
            stand::ground_with_colour(colours, h, w, text, tolerance),
        ),
    };
    let shown = || format!("colour {given:?}, {}", drawn.show());
    assert_eq!(ours, cut(drawn, given), "{}", shown());
    let reference = pictures::reference_by(given, colours, h, w);
    let expected = found(reference, colours, h, w, tolerance);
    let ground = ground
        .unwrap()
        .map(|ground| (ground.plane, ground.reference));
    let both = expected.clone().map(|plane| (plane, reference));
    assert_eq!(ground, both, "{}", shown());
    if let (Ok(cut), Some(ground)) = (ours, &expected) {
        let joined = cut.mask.iter().zip(ground).any(|(m, g)| m + g == 0);
        seen.keyed += cut.keyed as u32;
        seen.grown += (joined && cut.keyed) as u32;
    }
    expected.is_some()
}

#[test]
fn random_pictures() {
    let mut random = Random(71);
    let mut seen = Seen::default();
    for _ in 0..3_000 {
        let (h, w) = pictures::sides(&mut random, 20);
        let drawn = pictures::draw(&mut random, h, w);
        hold(&drawn, None, &mut seen);
    }
    let Seen { keyed, grown } = seen;
    assert!(keyed >= 500 && grown >= 100, "keyed {keyed}, grown {grown}");
}

/// With the card's colour given, and where the median finds a ground and the colour does not, or
/// the other way round.
#[test]
fn random_pictures_with_a_colour() {
    let mut random = Random(73);
    let mut seen = Seen::default();
    let (mut gained, mut lost) = (0, 0);
    for _ in 0..4_500 {
        let (h, w) = pictures::sides(&mut random, 20);
        let (drawn, text) = pictures::draw_given(&mut random, h, w);
        let by_colour = hold(&drawn, Some(&text), &mut seen);
        let tolerance = drawn.settings.key_bg_tolerance;
        let median = pictures::reference(&drawn.colours, h, w);
        let by_median = found(median, &drawn.colours, h, w, tolerance).is_some();
        gained += (by_colour && !by_median) as u32;
        lost += (by_median && !by_colour) as u32;
    }
    let Seen { keyed, grown } = seen;
    assert!(keyed >= 500 && grown >= 100, "keyed {keyed}, grown {grown}");
    assert!(gained >= 100 && lost >= 100, "only {gained} and {lost}");
}

/// A picture, a background that is no ground, in any bytes, and the median of the border.
fn any_background(random: &mut Random) -> (Drawn, Vec<u8>, Rgb) {
    let (h, w) = pictures::sides(random, 18);
    let drawn = pictures::draw(random, h, w);
    let density = [0, 20, 300, 900, 1000][random.below(5)];
    let back = random.mask(h * w, density);
    let back = random.any_bytes(&back);
    let reference = pictures::reference(&drawn.colours, h, w);
    (drawn, back, reference)
}

#[test]
fn random_growths() {
    let mut random = Random(72);
    for _ in 0..1_500 {
        let (drawn, back, reference) = any_background(&mut random);
        let (h, w, p) = (drawn.h, drawn.w, drawn.settings.key_bg_fringe);
        let ours = stand::growth(&drawn.colours, &back, h, w, reference, p).unwrap();
        let expected = growth(&drawn.colours, &back, w, reference, p);
        assert_eq!(ours, expected, "{}\nbackground {back:?}", drawn.show());
    }
}

/// How many pixels are on in the second plane and off in the first.
fn newly_on(before: &[u8], after: &[u8]) -> u64 {
    let both = before.iter().zip(after);
    both.filter(|(&b, &a)| b == 0 && a != 0).count() as u64
}

/// A look at any background, in any bytes: one pass on a copy of it, and its joins counted; 0 joins
/// exactly where the pass ends growth.
#[test]
fn random_looks() {
    let mut random = Random(74);
    let (mut joined, mut ended) = (0, 0);
    for _ in 0..3_000 {
        let (drawn, back, reference) = any_background(&mut random);
        let (h, w) = (drawn.h, drawn.w);
        let look = stand::next_pass(&drawn.colours, &back, h, w, reference).unwrap();
        let shown = || format!("{}\nbackground {back:?}", drawn.show());
        let expected = growth(&drawn.colours, &back, w, reference, 1);
        assert_eq!(look.joins, newly_on(&back, &expected), "{}", shown());
        assert_eq!(look.background, expected, "{}", shown());
        let ends = pass(&drawn.colours, &back, w, reference).is_none();
        assert_eq!(look.joins == 0, ends, "{}", shown());
        joined += (look.joins > 0) as u32;
        ended += ends as u32;
    }
    assert!(joined >= 100 && ended >= 100, "{joined} and {ended}");
}

/// After n passes the look shows the pass after them; and what it leaves of a keyed cut is the mask
/// of the cut with one pass more.
#[test]
fn looks_after_passes() {
    let mut random = Random(75);
    let (mut joined, mut keyed) = (0, 0);
    for _ in 0..1_500 {
        let (h, w) = pictures::sides(&mut random, 20);
        let drawn = pictures::draw(&mut random, h, w);
        let (colours, settings) = (&drawn.colours, drawn.settings);
        let reference = pictures::reference(colours, h, w);
        let cut = |p: i64| {
            let settings = Settings {
                key_bg_fringe: p,
                ..settings
            };
            stand::cut(&drawn.picture(), &settings)
        };
        for p in -1..4 {
            let Ok(filed) = cut(p) else { continue };
            if !filed.keyed {
                continue;
            }
            let back: Vec<u8> = filed.mask.iter().map(|&on| 1 - on).collect();
            let look = stand::next_pass(colours, &back, h, w, reference).unwrap();
            let left: Vec<u8> = look.background.iter().map(|&on| 1 - on).collect();
            let more = cut(p.max(0) + 1).unwrap();
            assert_eq!(left, more.mask, "p {p}, {}", drawn.show());
            assert_eq!(look.joins, newly_on(&more.mask, &filed.mask));
            keyed += 1;
            joined += (look.joins > 0) as u32;
        }
    }
    assert!(
        keyed >= 500 && joined >= 100,
        "keyed {keyed}, joined {joined}"
    );
}

/// The proved cases of the look (R93).
#[test]
fn cases_of_the_look() {
    let white = Rgb {
        r: 1.0,
        g: 1.0,
        b: 1.0,
    };
    let holds = |greys: &[f64], back: &[u8], next: &[u8], joins: u64| {
        let colours: Vec<f64> = greys.iter().flat_map(|&grey| [grey; 3]).collect();
        let look = stand::next_pass(&colours, back, 1, greys.len(), white).unwrap();
        assert_eq!(
            (&look.background[..], look.joins),
            (next, joins),
            "{back:?}"
        );
    };
    let rim = [1.0, 0.875, 0.75, 0.0, 0.0, 0.0, 0.0];
    holds(&rim, &[7, 0, 0, 0, 0, 0, 0], &[1, 1, 0, 0, 0, 0, 0], 1);
    holds(&rim, &[1, 1, 0, 0, 0, 0, 0], &[1, 1, 1, 0, 0, 0, 0], 1);
    holds(&rim, &[9, 1, 255, 0, 0, 0, 0], &[1, 1, 1, 0, 0, 0, 0], 0);
    let two = [1.0, 0.75];
    holds(&two, &[2, 0], &[1, 0], 0);
    holds(&two, &[0, 0], &[0, 0], 0);
    holds(&two, &[3, 4], &[1, 1], 0);
}

/// A picture of greys, opaque, with tolerance 0, by the median or by a colour that is given.
fn greys_by(
    given: Option<&str>,
    h: usize,
    w: usize,
    greys: &[f64],
    p: i64,
) -> Result<Cut, Refusal> {
    let colours: Vec<f64> = greys.iter().flat_map(|&grey| [grey; 3]).collect();
    let picture = Picture {
        colours: &colours,
        alpha: &vec![255; h * w],
        h,
        w,
    };
    let settings = Settings {
        key_bg_fringe: p,
        key_bg_tolerance: 0.0,
        ..Settings::default()
    };
    match given {
        Some(text) => stand::cut_with_colour(&picture, text, &settings),
        None => stand::cut(&picture, &settings),
    }
}

fn greys(h: usize, w: usize, greys: &[f64], p: i64) -> Cut {
    greys_by(None, h, w, greys, p).unwrap()
}

/// The proved cases on ground, growth and cut (R77 to R79).
#[test]
fn document_cases() {
    assert_eq!(stand::ground(&[1.0; 3], 1, 1, 0.0), Ok(None));
    let mut card = [1.0; 12];
    card[0] = 0.0;
    let cut = greys(3, 4, &card, 0);
    assert!(cut.keyed);
    assert_eq!((cut.crop.rows, cut.crop.cols), (0..2, 0..2));
    card[1] = 0.0;
    let cut = greys(3, 4, &card, 0);
    assert!(!cut.keyed && cut.mask == [1; 12]);

    let mut line = [1.0; 30];
    line[28..].fill(0.0);
    for (grey, joins) in [(0.75, true), (0.5, false)] {
        line[27] = grey;
        let cut = greys(1, 30, &line, 1);
        assert!(cut.keyed);
        assert_eq!(cut.mask[26..], [0, !joins as u8, 1, 1]);
    }

    // For 3 by 1 the border list is rows 0, 2, 1, 1: the middle row counts twice.
    let reference = pictures::reference(&[0.0, 0.0, 0.0, 1.0, 1.0, 1.0, 0.5, 0.5, 0.5], 3, 1);
    assert_eq!(reference.r, 0.75);

    // 5 by 5 white with a black middle.
    let mut card = [1.0; 25];
    card[12] = 0.0;
    let cut = greys(5, 5, &card, 1);
    let mut mask = [0; 25];
    mask[12] = 1;
    assert!(cut.keyed && cut.mask == mask);
    assert_eq!((cut.crop.rows, cut.crop.cols), (1..4, 1..4));
}

/// A white card of 3 by 3 with a black pixel, by colours that are given and texts that are none.
#[test]
fn cases_of_a_colour() {
    let mut card = [1.0; 9];
    card[4] = 0.0;
    let by = |text: &str| greys_by(Some(text), 3, 3, &card, 0);
    for text in ["ffffff", "FFFFFF", "fFFffF"] {
        let cut = by(text).unwrap();
        assert!(cut.keyed && cut.mask == [0, 0, 0, 0, 1, 0, 0, 0, 0]);
    }
    // No fall-back on the median: nothing of the border is close to black.
    for text in ["000000", "fefefe", "ffff00"] {
        let cut = by(text).unwrap();
        assert!(!cut.keyed && cut.mask == [1; 9]);
        assert_eq!((cut.crop.rows, cut.crop.cols), (0..3, 0..3));
    }
    for text in [
        "", "fffff", "fffffff", "#ffffff", "#fffff", "fffffg", " fffff", "ffffff\0",
    ] {
        let refused = by(text).map_err(|refusal| refusal.number());
        assert_eq!(refused, Err(11), "{text:?}");
    }
    // Nine of ten entries of the border list are white, and then eight.
    let mut card = [1.0; 12];
    card[0] = 0.0;
    assert!(greys_by(Some("ffffff"), 3, 4, &card, 0).unwrap().keyed);
    card[1] = 0.0;
    assert!(!greys_by(Some("ffffff"), 3, 4, &card, 0).unwrap().keyed);
}

/// Weights of every alpha, on the mask and off it.
#[test]
fn weights_of_every_alpha() {
    let alpha: Vec<u8> = (0..=255).collect();
    for threshold in [-5, 0, 1, 128, 255] {
        let picture = Picture {
            colours: &[0.5; 768],
            alpha: &alpha,
            h: 16,
            w: 16,
        };
        let settings = Settings {
            alpha_threshold: threshold,
            ..Settings::default()
        };
        let cut = stand::cut(&picture, &settings).unwrap();
        for (i, &weight) in cut.weights.iter().enumerate() {
            let on = i as i64 >= threshold;
            let expected = if on { i.max(1) as f64 / 255.0 } else { 0.0 };
            assert_eq!(weight.to_bits(), expected.to_bits());
        }
    }
}
