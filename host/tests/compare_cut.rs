//! Ground, growth and cut compared with mask.rs, which is built unchanged: 100,000 pictures of a
//! fixed seed and some large ones. Mask, weights by bits, keyed flag and crop box; and the look at
//! the coming pass with growth of one pass more.

include!(concat!(env!("OUT_DIR"), "/the_rust.rs"));

#[cfg(mask_rs)]
#[path = "../support/comparing.rs"]
mod comparing;
#[path = "../support/lent.rs"]
mod lent;
#[path = "../support/masks.rs"]
mod masks;
#[path = "../support/pictures.rs"]
mod pictures;
#[cfg(mask_rs)]
#[path = "../support/reading.rs"]
mod reading;

#[cfg(not(mask_rs))]
#[test]
#[ignore = "mask.rs is not there: PIXELFORGE_MASK_RS names its place"]
fn compared_with_the_rust() {}

#[cfg(mask_rs)]
mod with {
    use crate::comparing::{same, Comparison};
    use crate::mask;
    use crate::masks::{bools, Random};
    use crate::pictures::{self, Drawn};
    use stand::{Rgb, Settings};

    /// The comparison of ground and cut, and growths of any background.
    struct All {
        comparison: Comparison,
        growths: u64,
        growths_joined: u64,
    }

    impl All {
        fn new(h: usize, w: usize) -> All {
            All {
                comparison: Comparison::new(h, w),
                growths: 0,
                growths_joined: 0,
            }
        }

        fn say(&self, what: &str) {
            let (all, joined) = (self.growths, self.growths_joined);
            let last = format!("growths of any background {all}, with a join {joined}");
            self.comparison.covered.say(what, &last);
        }

        /// Growth of a background, and the look at its first pass, against `unmix_fringe`.
        fn growth(&mut self, drawn: &Drawn, background: &[u8], reference: Rgb, p: i64) {
            let Drawn { colours, h, w, .. } = drawn;
            let given = bools(background);
            let passes = usize::try_from(p).unwrap_or(0);
            let r = [reference.r, reference.g, reference.b];
            let theirs = mask::unmix_fringe(colours, &given, *h, *w, &r, passes);
            let lent = &mut self.comparison.lent;
            let ours = lent.growth(colours, background, *h, *w, reference, p);
            same(ours, &theirs, *w, "growth", || drawn.show());
            let one = mask::unmix_fringe(colours, &given, *h, *w, &r, 1);
            let (answer, ours) = lent.next_pass(colours, background, *h, *w, reference);
            same(ours, &one, *w, "next pass", || drawn.show());
            let new = one.iter().zip(&given).filter(|(n, g)| n != g).count();
            assert_eq!(answer.joins, new as u64, "joins, {}", drawn.show());
            self.growths += 1;
            self.growths_joined += (theirs != given) as u64;
            self.comparison.covered.values += 2 * (h * w) as u64 + 1;
        }

        /// All of it on one picture.
        fn whole(&mut self, random: &mut Random, drawn: &Drawn) {
            let Drawn { colours, h, w, .. } = drawn;
            let settings = &drawn.settings;
            self.comparison.both(drawn, None);
            let p = pictures::PASSES[random.below(pictures::PASSES.len())];
            match random.below(4) {
                // A background that is no ground, in any bytes, with any reference.
                0 => {
                    let density = [0, 20, 300, 700, 980, 1000][random.below(6)];
                    let background = random.mask(h * w, density);
                    let background = random.any_bytes(&background);
                    let mut of = |_| match random.below(4) {
                        0 => -0.0,
                        1 => 1.0,
                        _ => colours[random.below(colours.len())],
                    };
                    let [r, g, b] = [0, 1, 2].map(&mut of);
                    self.growth(drawn, &background, Rgb { r, g, b }, p);
                }
                // The picture's own ground, found or not, with holes.
                1 => {
                    let density = [0, 0, 30, 300][random.below(4)];
                    let holes = random.mask(h * w, density);
                    let tolerance = settings.key_bg_tolerance;
                    let mut background = pictures::ground(colours, *h, *w, tolerance);
                    for i in 0..h * w {
                        background[i] &= 1 - holes[i];
                    }
                    let background = random.any_bytes(&background);
                    let reference = pictures::reference(colours, *h, *w);
                    self.growth(drawn, &background, reference, p);
                }
                _ => {}
            }
        }
    }

    /// 25,000 pictures of a seed.
    fn held(seed: u64) {
        let mut random = Random(seed);
        let mut all = All::new(48, 48);
        for _ in 0..25_000 {
            let (h, w) = pictures::sides(&mut random, 48);
            let drawn = pictures::draw(&mut random, h, w);
            all.whole(&mut random, &drawn);
        }
        all.say(&format!("seed {seed}, sides 1 to 48"));
        let covered = all.comparison.covered;
        covered.enough(100);
        assert!(covered.keyed >= 5_000);
        assert_eq!(covered.pictures, 25_000);
    }

    #[test]
    fn pictures_of_seed_31() {
        held(31);
    }

    #[test]
    fn pictures_of_seed_32() {
        held(32);
    }

    #[test]
    fn pictures_of_seed_33() {
        held(33);
    }

    #[test]
    fn pictures_of_seed_34() {
        held(34);
    }

    #[test]
    fn large_pictures() {
        let mut random = Random(35);
        let mut all = All::new(2048, 2048);
        let shapes = [
            (1, 4096, 12),
            (4096, 1, 12),
            (2, 4095, 6),
            (4096, 9, 6),
            (9, 4096, 6),
            (200, 311, 12),
            (640, 480, 6),
        ];
        for (h, w, count) in shapes {
            for _ in 0..count {
                let mut drawn = pictures::draw(&mut random, h, w);
                drawn.settings.key_bg = true;
                all.whole(&mut random, &drawn);
            }
        }
        for (h, w, p) in [(777, 1024, 7), (1024, 1024, i64::MAX), (2048, 1500, 3)] {
            for dust in [false, true] {
                let drawn = badge(&mut random, h, w, dust, p);
                all.whole(&mut random, &drawn);
            }
            let colours = pictures::noise(&mut random, h, w, 500);
            let drawn = opaque(colours, h, w, p);
            all.whole(&mut random, &drawn);
        }
        all.say("sides to 4096");
        assert!(all.comparison.covered.keyed >= 20);
    }

    /// Badges, of which few pixels are edge.
    #[test]
    fn badges() {
        let mut random = Random(37);
        let mut all = All::new(256, 256);
        for turn in 0..300 {
            let (h, w) = (128 + random.below(129), 128 + random.below(129));
            let p = pictures::PASSES[random.below(pictures::PASSES.len())];
            let drawn = badge(&mut random, h, w, turn % 2 == 0, p);
            all.whole(&mut random, &drawn);
        }
        all.say("badges, sides 128 to 256");
        let few = all.comparison.covered.few_edges;
        assert!(few >= 100, "{few}");
    }

    /// Opaque, by the stand's own settings with p passes.
    fn opaque(colours: Vec<f64>, h: usize, w: usize, p: i64) -> Drawn {
        Drawn {
            colours,
            alpha: vec![255; h * w],
            h,
            w,
            settings: Settings {
                key_bg_fringe: p,
                ..Settings::default()
            },
        }
    }

    fn badge(random: &mut Random, h: usize, w: usize, dust: bool, p: i64) -> Drawn {
        opaque(pictures::badge(random, h, w, dust), h, w, p)
    }

    /// The largest picture there is.
    #[test]
    fn picture_of_4096_by_4096() {
        let mut random = Random(36);
        let mut all = All::new(4096, 4096);
        let drawn = badge(&mut random, 4096, 4096, true, 2);
        all.comparison.ground(&drawn, None);
        assert!(all.comparison.cut(&drawn, None));
        all.say("4096 × 4096");
    }
}
