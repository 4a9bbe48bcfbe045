//! The diagnosis on drawn photographs: advice that is followed leads to the true outline, a good
//! picture gets none, and what else can go wrong has its sentence.

#[path = "../support/masks.rs"]
mod masks;
#[path = "../support/photographs.rs"]
mod photographs;

use masks::Random;
use photographs::{jpeg, objects, Photograph, Scene, SCENES};
use stand::diagnosis::{read_back, Diagnosis, State};
use stand::netpbm::Image;
use stand::{CardColour, Chosen, Cut, Refusal, Settings};

/// The sides of the photographs.
const H: usize = 750;
const W: usize = 1000;

fn with_tolerance(tolerance: f64) -> Settings {
    Settings {
        key_bg_tolerance: tolerance,
        ..Settings::default()
    }
}

/// A cut with its diagnosis.
fn diagnosed(image: &Image, settings: &Settings) -> (Cut, Diagnosis) {
    diagnosed_by(image, &Chosen::from(*settings))
}

/// A cut with its diagnosis, whose text holds what it says.
fn diagnosed_by(image: &Image, chosen: &Chosen) -> (Cut, Diagnosis) {
    let cut = image.cut_by(chosen).expect("a cut");
    let diagnosis = Diagnosis::of(image, chosen, &cut).expect("a diagnosis");
    let text = diagnosis.to_string();
    let advice = diagnosis.advice().map(str::to_string);
    assert!(text.starts_with("state: ") && text.is_ascii(), "{text}");
    assert_eq!(read_back(&text), Some((diagnosis.state, advice)));
    (cut, diagnosis)
}

/// The tolerance that a sentence names, as it is read at the stand: the word after --tolerance.
fn named(advice: Option<&str>) -> Option<f64> {
    let (_, after) = advice?.split_once("--tolerance ")?;
    let word = after.split(' ').next()?.trim_end_matches([',', ';']);
    Some(word.parse().expect("a number after --tolerance"))
}

/// The colour that a sentence names, as it is read at the stand: the word after --card-colour.
fn named_colour(advice: Option<&str>) -> Option<CardColour> {
    let (_, after) = advice?.split_once("use --card-colour ")?;
    let colour = CardColour::new(after.split(' ').next()?);
    assert!(colour.bytes().is_some(), "{after}");
    Some(colour)
}

/// How much two masks have in common: pixels in both over pixels in either.
fn overlap(mask: &[u8], truth: &[u8]) -> f64 {
    let count = |on: fn(u8, u8) -> bool| {
        let both = mask.iter().zip(truth);
        both.filter(|&(&a, &b)| on(a, b)).count() as f64
    };
    count(|a, b| a != 0 && b != 0) / count(|a, b| a != 0 || b != 0)
}

/// What came of a photograph whose advice was followed.
struct Followed {
    first: Diagnosis,
    before: f64,
    after: f64,
    rounds: usize,
}

/// Cuts, reads the advice, gives the tolerance that it names, and cuts again, three times at most.
fn follow(photograph: &Photograph) -> Followed {
    let Photograph { image, truth, .. } = photograph;
    let (cut, first) = diagnosed(image, &Settings::default());
    let before = overlap(&cut.mask, truth);
    let mut followed = Followed {
        before,
        after: before,
        rounds: 0,
        first: first.clone(),
    };
    let mut last = first;
    while let (Some(tolerance), true) = (named(last.advice()), followed.rounds < 3) {
        let (cut, next) = diagnosed(image, &with_tolerance(tolerance));
        followed.after = overlap(&cut.mask, truth);
        followed.rounds += 1;
        last = next;
    }
    followed
}

/// About half of the photographs find no card as they are, the others leave specks by the thousand
/// and no crop box. The advice leads most of them to the true outline, in one step.
#[test]
fn advice_is_worth_following() {
    let (mut not_found, mut right) = (0, 0);
    println!("scene, state, overlap before and after, advice");
    for scene in &SCENES {
        let photograph = scene.photograph(H, W);
        if photograph.jpeg.is_none() {
            eprintln!("skipped: no program that writes JPEG; its blocks are drawn here");
        }
        let followed = follow(&photograph);
        let Diagnosis { state, specks, .. } = followed.first;
        let advice = followed.first.advice().expect("advice");
        let (before, after) = (followed.before, followed.after);
        println!("{}, {state}, {before:.3}, {after:.3}, {advice}", scene.name);
        match state {
            State::NotFound => not_found += 1,
            _ => assert!(state == State::Found && specks > 1000 && followed.first.whole),
        }
        right += usize::from(after > 0.95);
        assert_eq!(followed.rounds, 1, "{}", scene.name);
        assert!(before < 0.96 && after > before + 0.02, "{}", scene.name);
    }
    assert!((3..=6).contains(&not_found), "{not_found} without card");
    assert!(right >= 6, "{right} of 8");
}

/// The same with the blocks that are drawn where no program for JPEG is installed.
#[test]
fn blocks_of_our_own() {
    let (seen, truth) = SCENES[0].seen(H / 2, W / 2);
    let image = jpeg::rounded(seen.clone(), 80);
    let differ = |(a, b): (&u8, &u8)| a.abs_diff(*b);
    let differences = seen.rgb.iter().zip(&image.rgb).map(differ);
    assert!(differences.clone().max() > Some(3), "no noise");
    let sum: u64 = differences.map(u64::from).sum();
    assert!(sum < 4 * seen.rgb.len() as u64, "too much noise");
    let followed = follow(&Photograph {
        image,
        jpeg: None,
        truth,
    });
    assert!(followed.after > 0.95, "{}", followed.after);
}

/// The same objects on clean card in good light are cut right, and there is nothing to say.
#[test]
fn a_good_picture_gets_no_advice() {
    for scene in SCENES {
        let photograph = scene.in_good_light().photograph(H, W);
        let (cut, diagnosis) = diagnosed(&photograph.image, &Settings::default());
        let overlap = overlap(&cut.mask, &photograph.truth);
        assert_eq!(diagnosis.advice(), None, "{}", scene.name);
        assert_eq!(diagnosis.state, State::Found, "{}", scene.name);
        assert!(overlap > 0.98, "{} {overlap}", scene.name);
        assert!(!diagnosis.whole && diagnosis.touches == [false; 4]);
    }
}

/// A grey picture of some noise.
fn grey(h: usize, w: usize, shade: impl Fn(usize, usize) -> u8) -> Image {
    let mut random = Random(11);
    let pixels = (0..h * w).map(|i| shade(i / w, i % w) + random.below(4) as u8);
    Image {
        h,
        w,
        rgb: pixels.flat_map(|v| [v; 3]).collect(),
        alpha: vec![255; h * w],
    }
}

/// A rectangle of one shade on card of another.
fn rectangle(
    rows: std::ops::Range<usize>,
    cols: std::ops::Range<usize>,
    object: u8,
) -> impl Fn(usize, usize) -> u8 {
    move |y, x| {
        let inside = rows.contains(&y) && cols.contains(&x);
        if inside {
            object
        } else {
            200
        }
    }
}

/// The state and the sentence are these.
fn says(image: &Image, tolerance: f64, state: State, words: &[&str]) -> Diagnosis {
    says_with(image, None, tolerance, state, words)
}

/// The same with the card's colour.
fn says_with(
    image: &Image,
    card_colour: Option<CardColour>,
    tolerance: f64,
    state: State,
    words: &[&str],
) -> Diagnosis {
    let chosen = Chosen {
        settings: with_tolerance(tolerance),
        card_colour,
    };
    let (_, diagnosis) = diagnosed_by(image, &chosen);
    let advice = diagnosis.advice().unwrap_or("none");
    assert_eq!(diagnosis.state, state, "{advice}");
    for word in words {
        assert!(advice.contains(word), "\"{word}\" is not in \"{advice}\"");
    }
    diagnosis
}

#[test]
fn bare_card() {
    let start = "all of the picture is card within the tolerance, and nothing is left";
    let card = grey(90, 120, |_, _| 200);
    let none = says(&card, 0.03125, State::Bare, &[start, "another colour"]);
    assert_eq!(named(none.advice()), None);
    // An object that is there, and is lost to a tolerance that is too high by far.
    let image = grey(90, 120, rectangle(30..60, 40..80, 100));
    let lost = says(&image, 0.6, State::Bare, &[start, "--tolerance"]);
    let tolerance = named(lost.advice()).unwrap();
    let found = says(&image, tolerance, State::Found, &["none"]);
    assert_eq!((found.object, found.parts), (1200, 1));
    // One that hardly differs from the card.
    let image = grey(90, 120, rectangle(30..60, 40..80, 195));
    let lost = says(&image, 0.03125, State::Bare, &[start, "--tolerance"]);
    let settings = with_tolerance(named(lost.advice()).unwrap());
    let object = diagnosed(&image, &settings).1.object;
    assert!((1000..=1200).contains(&object), "{object}");
}

/// A photograph of dusty card in uneven light without an object: no tolerance is named.
#[test]
fn nothing_on_the_card() {
    let scene = Scene {
        object: objects::nothing,
        ..SCENES[0]
    };
    let image = scene.photograph(H, W).image;
    let words = ["no tolerance sets an object apart", "photograph it again"];
    let none = says(&image, 0.03125, State::NotFound, &words);
    assert_eq!(named(none.advice()), None);
    let words = ["mostly specks are left, and no object"];
    says(&image, 0.2, State::Found, &words);
}

/// The pale paper of a season ticket counts as card; with the tolerance that is named it does not.
#[test]
fn tolerance_too_high() {
    let scene = SCENES.iter().find(|scene| scene.name == "pass").unwrap();
    let photograph = scene.in_good_light().photograph(H, W);
    let words = ["may be too high", "% of the object", "unless"];
    let high = says(&photograph.image, 0.3, State::Found, &words);
    let tolerance = named(high.advice()).unwrap();
    let (cut, lower) = diagnosed(&photograph.image, &with_tolerance(tolerance));
    assert_eq!(lower.advice(), None);
    assert!(overlap(&cut.mask, &photograph.truth) > 0.98);
}

#[test]
fn object_at_the_edge() {
    let image = grey(300, 400, rectangle(100..160, 0..200, 20));
    let words = ["runs out of the picture (left)", "photograph it again"];
    let partly = says(&image, 0.03125, State::Found, &words);
    assert_eq!(partly.touches, [false, false, true, false]);
    let image = grey(300, 400, rectangle(20..280, 0..200, 20));
    let words = [
        "takes up 18.6 % of the picture's edge",
        "photograph it again",
    ];
    says(&image, 0.03125, State::NotFound, &words);
    let object = rectangle(100..200, 1..399, 20);
    let words = ["runs out of the picture (left, right)"];
    says(&grey(300, 400, object), 0.03125, State::Found, &words);
}

/// Card that is darker towards a corner, and an object with a shadow without noise.
#[test]
fn shadows() {
    let object = rectangle(100..200, 150..250, 20);
    let corner = |y: usize, x: usize| {
        let dark = (y + x).saturating_sub(600) / 6;
        object(y, x) - dark.min(100) as u8
    };
    let words = ["a shadow reaches the edge", "--tolerance"];
    let dark = says(&grey(300, 400, corner), 0.03125, State::Found, &words);
    let tolerance = named(dark.advice()).unwrap();
    says(&grey(300, 400, corner), tolerance, State::Found, &["none"]);

    let away = |y: usize, x: usize| {
        let rows = 100usize.saturating_sub(y).max((y + 1).saturating_sub(200));
        rows.max(150usize.saturating_sub(x).max((x + 1).saturating_sub(250)))
    };
    let soft = |y: usize, x: usize| object(y, x) - (20usize.saturating_sub(away(y, x) / 2)) as u8;
    let words = ["a shadow count", "as object", "--tolerance"];
    let soft_light = says(&grey(300, 400, soft), 0.03125, State::Found, &words);
    let tolerance = named(soft_light.advice()).unwrap();
    let clean = says(&grey(300, 400, soft), tolerance, State::Found, &["none"]);
    assert_eq!(clean.object, 10_000);
}

/// Grains on the card that no tolerance takes for card.
#[test]
fn dust() {
    let object = rectangle(100..200, 150..250, 20);
    let grain = |y: usize, x: usize| (y, x) == (20, 30) || (y, x) == (280, 390);
    let image = grey(300, 400, |y, x| if grain(y, x) { 10 } else { object(y, x) });
    let words = ["2 specks lie apart from the object", "clean the card"];
    let dusty = says(&image, 0.03125, State::Found, &words);
    assert_eq!((dusty.parts, dusty.specks), (3, 2));
}

/// A given colour that the card has not: the sentence names the edge's, and who gives that one, or
/// none, finds card.
#[test]
fn another_colour() {
    let image = grey(90, 120, rectangle(30..60, 40..80, 100));
    let usual = 0.03125;
    let says = |colour: &str, state: State, words: &[&str]| {
        says_with(&image, Some(CardColour::new(colour)), usual, state, words)
    };
    // The card is from 200 to 203.
    says("C9C9C9", State::Found, &["none"]);
    for given in ["000000", "ffffff", "d4d4d4", "64c9c9"] {
        let and_not = format!(", and not the given {given}; use --card-colour ");
        let words = [
            "the picture's edge has the colour c",
            &and_not,
            " or leave --card-colour out",
        ];
        let wrong = says(&given.to_uppercase(), State::NotFound, &words);
        let colour = named_colour(wrong.advice());
        let right = says_with(&image, colour, usual, State::Found, &["none"]);
        assert_eq!((right.object, right.parts), (1200, 1));
    }
    let right = says_with(&image, None, usual, State::Found, &["none"]);
    assert_eq!(right.object, 1200);
}

/// An edge whose colour lies half way between two bytes, both of which are too far from some of it:
/// only without a colour card is found. Where the given colour is the nearest, a tolerance is named.
#[test]
fn colour_between_bytes() {
    let stripes = |y: usize, x: usize| match (30..60).contains(&y) && (40..80).contains(&x) {
        true => 60,
        false => 200 + ((y + x) % 2) as u8,
    };
    let rgb = (0..90 * 120).flat_map(|i| [stripes(i / 120, i % 120); 3]);
    let image = Image {
        h: 90,
        w: 120,
        rgb: rgb.collect(),
        alpha: vec![255; 90 * 120],
    };
    let half = 0.5001 / 255.0;
    let says = |given: [u8; 3], tolerance: f64, state: State, words: &[&str]| {
        let colour = Some(CardColour::from(given));
        says_with(&image, colour, tolerance, state, words)
    };
    let words = [
        "the picture's edge has the colour c9c9c9, and not the given c8c8c8; leave --card-colour out",
    ];
    let wrong = says([200; 3], half, State::NotFound, &words);
    assert_eq!(named_colour(wrong.advice()), None);
    says_with(&image, None, half, State::Found, &["none"]);
    let nearest = says(
        [201; 3],
        half,
        State::NotFound,
        &["50.0 % of", "use --tolerance"],
    );
    let tolerance = named(nearest.advice()).unwrap();
    says([201; 3], tolerance, State::Found, &["none"]);
}

/// Photographs that find no card as they are, with a colour that their card has not: the sentence
/// leaves the colour out and names the tolerance that helps without it.
#[test]
fn another_colour_in_poor_light() {
    let mut followed = 0;
    for scene in &SCENES {
        let image = scene.photograph(H, W).image;
        let given = |colour: &str, tolerance: f64| Chosen {
            settings: with_tolerance(tolerance),
            card_colour: Some(CardColour::new(colour)),
        };
        let (_, plain) = diagnosed(&image, &Settings::default());
        let (_, black) = diagnosed_by(&image, &given("000000", 0.03125));
        let advice = black.advice().expect("advice");
        println!("{}: {}; {advice}", scene.name, plain.state);
        assert_eq!(black.state, State::NotFound);
        assert!(advice.contains("leave --card-colour out"), "{advice}");
        let tolerance = named(black.advice());
        assert_eq!(tolerance.is_some(), plain.state == State::NotFound);
        if let Some(tolerance) = tolerance {
            assert_eq!(tolerance, named(plain.advice()).unwrap());
            followed += 1;
        }
    }
    assert!(followed >= 3, "{followed}");
}

#[test]
fn card_not_sought() {
    let mut image = grey(60, 80, rectangle(20..40, 20..60, 20));
    let settings = Settings {
        key_bg: false,
        ..Settings::default()
    };
    let (_, diagnosis) = diagnosed(&image, &settings);
    assert_eq!((diagnosis.state, diagnosis.edge), (State::NotSought, None));
    assert_eq!(diagnosis.advice(), None);
    image.alpha[7] = 0;
    let (_, diagnosis) = diagnosed(&image, &Settings::default());
    assert_eq!((diagnosis.state, diagnosis.edge), (State::Alpha, None));
    assert_eq!((diagnosis.object, diagnosis.parts), (4799, 1));
    assert_eq!(diagnosis.advice(), None);
}

/// Pictures of any kind and any small side: a diagnosis or a refusal, and what it says of the edge is
/// what the cut went by.
#[test]
fn any_picture() {
    let mut random = Random(5);
    for at in 0..3000 {
        let (h, w) = (1 + random.below(40), 1 + random.below(40));
        let few = 1 + random.below(40);
        let steep = random.below(4) * 30;
        let byte = |_| (random.below(few) * (1 + steep)) as u8;
        let image = Image {
            h,
            w,
            rgb: (0..3 * h * w).map(byte).collect(),
            alpha: vec![255; h * w],
        };
        let tolerances = [0.03125, 0.0, -1.0, 0.2, 1.0, 1e300];
        let settings = Settings {
            crop_to_alpha: random.below(2) == 0,
            ..with_tolerance(tolerances[random.below(6)])
        };
        let near = image.rgb[random.below(3 * h * w)];
        let colour = || [0; 3].map(|_: u8| near.saturating_add(random.below(20) as u8));
        let card_colour = (at % 2 == 1).then(colour).map(CardColour::from);
        let with = |settings: Settings| {
            let card_colour = card_colour.clone();
            let chosen = Chosen {
                settings,
                card_colour,
            };
            diagnosed_by(&image, &chosen)
        };
        let (cut, diagnosis) = with(settings);
        let edge = diagnosis.edge.expect("card was sought");
        let enough = 10 * edge.close >= 9 * edge.entries;
        assert_eq!(edge.entries, if h > 1 { 2 * (w + h - 2) } else { 2 * w });
        assert_eq!(cut.keyed, diagnosis.state == State::Found);
        assert_eq!(enough, diagnosis.state != State::NotFound);
        let least = with_tolerance(edge.least_tolerance);
        assert_ne!(with(least).1.state, State::NotFound);
    }
}

/// What does not belong together is refused.
#[test]
fn lengths_that_do_not_fit() {
    let mut chosen = Chosen::default();
    let image = grey(6, 8, rectangle(2..4, 2..6, 20));
    let cut = image.cut_by(&chosen).unwrap();
    let of = |image: &Image, cut: &Cut| Diagnosis::of(image, &chosen, cut).map(|_| ());
    assert_eq!(of(&image, &cut), Ok(()));
    let mut short = image.clone();
    short.rgb.pop();
    assert_eq!(of(&short, &cut), Err(Refusal::InputLength));
    let mut short = cut.clone();
    short.mask.pop();
    assert_eq!(of(&image, &short), Err(Refusal::InputLength));
    let mut none = image.clone();
    none.h = 0;
    assert_eq!(of(&none, &cut), Err(Refusal::Side));
    chosen.card_colour = Some(CardColour::new("white"));
    let refused = Diagnosis::of(&image, &chosen, &cut);
    assert_eq!(refused, Err(Refusal::CardColour));
}
