//! Ground and cut with the card's colour given, held to a second reading that is put together from
//! functions of mask.rs (support/reading.rs): 30,000 pictures of fixed seeds and some large ones. Mask,
//! weights by bits, keyed flag and crop box, ground and reference. And the text of the colour: the rule
//! itself, and `rgb` of editor/log.rs.

include!(concat!(env!("OUT_DIR"), "/the_rust.rs"));

#[cfg(mask_rs)]
#[path = "../support/comparing.rs"]
mod comparing;
#[path = "../support/lent.rs"]
mod lent;
#[cfg(log_rs)]
#[path = "../support/log.rs"]
mod log;
#[path = "../support/masks.rs"]
mod masks;
#[path = "../support/pictures.rs"]
mod pictures;
#[cfg(mask_rs)]
#[path = "../support/reading.rs"]
mod reading;

#[cfg(not(mask_rs))]
#[test]
#[ignore = "mask.rs is not there: PIXELFORGE_MASK_RS names its place"]
fn compared_with_the_rust() {}

#[cfg(mask_rs)]
mod with {
    use crate::comparing::Comparison;
    use crate::mask;
    use crate::masks::Random;
    use crate::pictures::{self, Drawn};
    use crate::reading;
    use stand::{Rgb, Settings};

    /// The comparison, and how the colours that are given stand to the medians.
    struct Given {
        comparison: Comparison,
        /// The colour is the median; it is close to it by the tolerance; it is not.
        on: u64,
        near: u64,
        off: u64,
        /// The ground is found by both, by the colour only, by the median only, by neither.
        both: u64,
        only_given: u64,
        only_median: u64,
        neither: u64,
        not_keying: u64,
    }

    /// The second reading by the median is mask.rs; whether mask.rs finds a ground.
    fn reading_is_mask_rs(drawn: &Drawn, median: Rgb) -> bool {
        let Drawn { colours, h, w, .. } = drawn;
        let (h, w, s) = (*h, *w, &drawn.settings);
        let tolerance = s.key_bg_tolerance;
        let theirs = mask::flat_background(colours, h, w, tolerance, 0);
        let read = reading::ground(median, colours, h, w, tolerance);
        assert_eq!(read, theirs, "{}", drawn.show());
        let cut = mask::subject(colours, &drawn.alpha, h, w, &reading::config(s)).ok();
        let read = reading::subject(median, &drawn.picture(), s);
        assert_eq!(read, cut, "{}", drawn.show());
        theirs.is_some()
    }

    impl Given {
        fn new(h: usize, w: usize) -> Given {
            Given {
                comparison: Comparison::new(h, w),
                on: 0,
                near: 0,
                off: 0,
                both: 0,
                only_given: 0,
                only_median: 0,
                neither: 0,
                not_keying: 0,
            }
        }

        fn picture(&mut self, drawn: &Drawn, text: &str) {
            let median = pictures::reference(&drawn.colours, drawn.h, drawn.w);
            let by_median = reading_is_mask_rs(drawn, median);
            let before = self.comparison.covered.ground_found;
            self.comparison.both(drawn, Some(text));
            let by_given = self.comparison.covered.ground_found > before;

            let reference = pictures::colour_of(text);
            let tolerance = drawn.settings.key_bg_tolerance;
            let of = [median.r, median.g, median.b];
            match pictures::is_close(&of, 0, reference, tolerance) {
                _ if reference == median => self.on += 1,
                true => self.near += 1,
                false => self.off += 1,
            }
            match (by_given, by_median) {
                (true, true) => self.both += 1,
                (true, false) => self.only_given += 1,
                (false, true) => self.only_median += 1,
                (false, false) => self.neither += 1,
            }
            self.not_keying += !drawn.settings.key_bg as u64;
        }

        fn say(&self, what: &str) {
            let last = format!(
                "colour on the border's median {}, close to it {}, off it {}; ground found by both {}, \
                 by the colour only {}, by the median only {}, by neither {}; keying off {}",
                self.on,
                self.near,
                self.off,
                self.both,
                self.only_given,
                self.only_median,
                self.neither,
                self.not_keying
            );
            let covered = &self.comparison.covered;
            covered.say(&format!("colour given, {what}"), &last);
        }
    }

    /// 15,000 pictures of a seed.
    fn held(seed: u64) {
        let mut random = Random(seed);
        let mut all = Given::new(48, 48);
        for _ in 0..15_000 {
            let (h, w) = pictures::sides(&mut random, 48);
            let (drawn, text) = pictures::draw_given(&mut random, h, w);
            all.picture(&drawn, &text);
        }
        all.say(&format!("seed {seed}, sides 1 to 48"));
        let covered = &all.comparison.covered;
        covered.enough(60);
        assert!(covered.keyed >= 3_000 && covered.pictures == 15_000);
        for (count, what) in [
            (all.on, "colour on the median"),
            (all.near, "colour close to the median"),
            (all.off, "colour off the median"),
            (all.both, "found by both"),
            (all.only_given, "found by the colour only"),
            (all.only_median, "found by the median only"),
            (all.neither, "found by neither"),
            (all.not_keying, "keying off"),
        ] {
            assert!(count >= 500, "{what}: only {count}");
        }
    }

    #[test]
    fn pictures_of_seed_51() {
        held(51);
    }

    #[test]
    fn pictures_of_seed_52() {
        held(52);
    }

    /// Badges on white card of which few pixels are edge, and some larger pictures.
    #[test]
    fn large_pictures() {
        let mut random = Random(53);
        let mut all = Given::new(1024, 1024);
        let badges = [(200, 311, 6), (256, 256, 12), (640, 480, 3), (1024, 777, 2)];
        let lines = [(1, 4096), (4096, 1), (9, 4096), (4096, 9)];
        for (h, w, count) in badges {
            for turn in 0..count {
                let settings = Settings {
                    key_bg_fringe: pictures::PASSES[random.below(pictures::PASSES.len())],
                    ..Settings::default()
                };
                let drawn = Drawn {
                    colours: pictures::badge(&mut random, h, w, turn % 2 == 0),
                    alpha: vec![255; h * w],
                    h,
                    w,
                    settings,
                };
                for text in ["fcfcfc", "F8F8F8", "ffffff"] {
                    all.picture(&drawn, text);
                }
            }
        }
        for (h, w) in lines {
            for _ in 0..8 {
                let (mut drawn, text) = pictures::draw_given(&mut random, h, w);
                drawn.settings.key_bg = true;
                all.picture(&drawn, &text);
            }
        }
        all.say("sides to 4096");
        let covered = &all.comparison.covered;
        assert!(covered.keyed >= 40 && covered.few_edges >= 15);
    }
}

/// The text of the card's colour.
mod texts {
    use crate::masks::Random;
    use crate::pictures;
    use stand::{Picture, Refusal, Settings};
    use std::io::Write;

    /// Good texts, in both cases.
    const GOOD: [&str; 8] = [
        "c0ffee", "C0FFEE", "c0FFeE", "000000", "ffffff", "FFFFFF", "123456", "9aBfA0",
    ];

    /// What stands in for a digit, or beside the digits: signs, blanks, a NUL, and characters that are
    /// several bytes, some of them digits, letters or blanks of other scripts.
    const OTHER: [&str; 24] = [
        "#", "##", " ", "\t", "\n", "\r", "\x0b", "\x0c", "+", "-", "_", ".", "0x", "\0", "g", "G",
        "é", "\u{a0}", "\u{85}", "٣", "１", "ａ", "\u{2003}", "𝟘",
    ];

    /// The rule: six bytes, each a hexadecimal digit in either case.
    fn rule(text: &[u8]) -> Option<[u8; 3]> {
        let value = |b: &u8| {
            let lower = b.to_ascii_lowercase();
            b"0123456789abcdef".iter().position(|&d| d == lower)
        };
        let digits: Option<Vec<usize>> = text.iter().map(value).collect();
        match digits?[..] {
            [a, b, c, d, e, f] => Some([(a, b), (c, d), (e, f)].map(|(a, b)| (16 * a + b) as u8)),
            _ => None,
        }
    }

    /// Every byte in every place of good texts, and all pairs of digits in each channel.
    fn one_place(all: &mut Vec<Vec<u8>>) {
        for good in GOOD {
            for place in 0..6 {
                for byte in 0..=255 {
                    let mut text = good.as_bytes().to_vec();
                    text[place] = byte;
                    all.push(text);
                }
            }
        }
        let digits = b"0123456789abcdefABCDEF";
        for place in [0, 2, 4] {
            for (a, b) in digits
                .iter()
                .flat_map(|a| digits.iter().map(move |b| (a, b)))
            {
                let mut text = b"7fE019".to_vec();
                text[place..place + 2].copy_from_slice(&[*a, *b]);
                all.push(text);
            }
        }
    }

    /// Digits of every length to 12, and other characters before, between and behind them.
    fn lengths(all: &mut Vec<Vec<u8>>) {
        for good in GOOD {
            for length in 0..=12 {
                let digits: Vec<u8> = good.bytes().cycle().take(length).collect();
                for other in OTHER {
                    for place in 0..=length {
                        let mut text = digits.clone();
                        text.splice(place..place, other.bytes());
                        all.push(text);
                    }
                }
                all.push(digits);
            }
        }
        // Six characters, or six bytes, that are not six digits.
        for other in OTHER {
            all.push(other.repeat(6).into_bytes());
            all.push(other.repeat(6 / other.len()).into_bytes());
        }
    }

    /// Texts of a fixed seed, most of them digits.
    fn random(all: &mut Vec<Vec<u8>>) {
        let mut random = Random(54);
        for _ in 0..20_000 {
            let length = [5, 6, 6, 6, 7, random.below(13)][random.below(6)];
            let strange = random.below(4) == 0;
            let text = (0..length).map(|_| match random.below(8) {
                0 if strange => random.next() as u8,
                _ => b"0123456789abcdefABCDEF"[random.below(22)],
            });
            all.push(text.collect());
        }
    }

    fn all() -> Vec<Vec<u8>> {
        let mut all = Vec::new();
        one_place(&mut all);
        lengths(&mut all);
        random(&mut all);
        all
    }

    /// What the library reads: the bits of the reference of a picture that has a ground by any
    /// colour, or nothing where ground and cut both answer 11.
    ///
    /// The border is grey 0.5, no farther than 0.5 from any colour; inside stand black and white, of
    /// which one is farther.
    fn read(text: &[u8]) -> Option<[u64; 3]> {
        let mut colours = [0.5; 36];
        colours[15..18].fill(0.0);
        colours[18..21].fill(1.0);
        let picture = Picture {
            colours: &colours,
            alpha: &[255; 12],
            h: 3,
            w: 4,
        };
        let settings = Settings {
            key_bg_tolerance: 0.5,
            ..Settings::default()
        };
        let ground = stand::ground_with_colour(&colours, 3, 4, text, 0.5);
        let cut = stand::cut_with_colour(&picture, text, &settings);
        match ground {
            Ok(ground) => {
                assert!(cut.expect("a cut").keyed, "{text:?}");
                let found = ground.expect("a ground").reference;
                Some([found.r, found.g, found.b].map(f64::to_bits))
            }
            Err(refusal) => {
                assert_eq!(refusal.number(), 11, "{text:?}");
                assert_eq!(cut.map_err(Refusal::number), Err(11), "{text:?}");
                None
            }
        }
    }

    fn bits(bytes: [u8; 3]) -> [u64; 3] {
        bytes.map(|v| (v as f64 / 255.0).to_bits())
    }

    fn say(what: &str, texts: usize, good: usize) {
        let line =
            format!("texts of a colour, held to {what}: {texts}, of which {good} are good\n");
        std::io::stderr().write_all(line.as_bytes()).unwrap();
    }

    #[test]
    fn texts_by_the_rule() {
        let texts = all();
        let mut good = 0;
        for text in &texts {
            let expected = rule(text);
            assert_eq!(read(text), expected.map(bits), "{text:?}");
            good += expected.is_some() as usize;
        }
        say("the rule", texts.len(), good);
        assert!(texts.len() >= 40_000 && good >= 10_000);
        // The tests read colours in one way.
        for text in GOOD {
            let stand::Rgb { r, g, b } = pictures::colour_of(text);
            let bytes = rule(text.as_bytes()).expect("a colour");
            assert_eq!([r, g, b].map(f64::to_bits), bits(bytes));
        }
    }

    #[cfg(not(log_rs))]
    #[test]
    #[ignore = "editor/log.rs and color.rs are not beside mask.rs: PIXELFORGE_MASK_RS names its place"]
    fn texts_by_the_rusts_rgb() {}

    /// Texts that are not UTF-8 cannot be lent to `rgb`.
    #[cfg(log_rs)]
    #[test]
    fn texts_by_the_rusts_rgb() {
        let (mut texts, mut good) = (0, 0);
        for text in all() {
            let Ok(utf8) = std::str::from_utf8(&text) else {
                continue;
            };
            let theirs = crate::log::read(utf8);
            assert_eq!(read(&text), theirs.map(bits), "{utf8:?}");
            texts += 1;
            good += theirs.is_some() as usize;
        }
        say("rgb of editor/log.rs", texts, good);
        assert!(texts >= 30_000 && good >= 10_000);
    }
}
