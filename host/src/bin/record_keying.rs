//! Writes the lists of mask.rs's answers of ground, cut and the pass that follows that the programs
//! replay_ground, replay_cut and replay_pair are run on. Where the card's colour is given, its second
//! reading answers (support/reading.rs); of each kind these cases come last.
//!
//! ```text
//! cargo run --release --manifest-path host/Cargo.toml --bin record_keying [-- FOLDER]
//! ```
//!
//! FOLDER (by default `crates` of the repository) gets `stdin` and `stdout` for each of the three, in
//! the format that crates/replay/src/lib.rt describes.

include!(concat!(env!("OUT_DIR"), "/the_rust.rs"));

#[cfg(not(mask_rs))]
fn main() {
    eprintln!("mask.rs is not at hand: set PIXELFORGE_MASK_RS to its path and build again");
    std::process::exit(1);
}

#[cfg(mask_rs)]
#[path = "../../support/cases.rs"]
mod cases;
#[cfg(mask_rs)]
#[path = "../../support/drawings.rs"]
mod drawings;
#[cfg(mask_rs)]
#[path = "../../support/masks.rs"]
mod masks;
#[cfg(mask_rs)]
#[path = "../../support/pictures.rs"]
mod pictures;
#[cfg(mask_rs)]
#[path = "../../support/reading.rs"]
mod reading;

#[cfg(mask_rs)]
fn main() {
    with::main()
}

#[cfg(mask_rs)]
mod with {
    use crate::cases::{Answers, Case, Look, Outline};
    use crate::drawings::{self, Disc};
    use crate::mask;
    use crate::masks::{bools, Random};
    use crate::pictures::{self, mix, Colour, Rings, PASSES, THRESHOLDS, TOLERANCES};
    use crate::reading;
    use stand::{Picture, Rgb, Settings};
    use std::path::PathBuf;

    /// The most bytes of a `stdin`: what replay reads.
    const MOST_BYTES: usize = 262_144;

    struct MaskRs;

    fn bytes(mask: &[bool]) -> Vec<u8> {
        mask.iter().map(|&m| m as u8).collect()
    }

    /// The colour of a text, or refusal 11.
    fn colour_of(text: &str) -> Result<Rgb, u32> {
        let good = text.len() == 6 && text.bytes().all(|b| b.is_ascii_hexdigit());
        good.then(|| pictures::colour_of(text)).ok_or(11)
    }

    impl Answers for MaskRs {
        fn ground(
            &self,
            given: Option<&str>,
            colours: &[f64],
            h: usize,
            w: usize,
            tolerance: f64,
        ) -> Result<Option<Vec<u8>>, u32> {
            let plane = match given {
                Some(text) => reading::ground(colour_of(text)?, colours, h, w, tolerance),
                None => mask::flat_background(colours, h, w, tolerance, 0),
            };
            Ok(plane.map(|plane| bytes(&plane)))
        }

        fn squares(&self, mask: &[u8], h: usize, w: usize, k: u64) -> Vec<u8> {
            bytes(&mask::binary_dilation8(&bools(mask), h, w, k as usize))
        }

        /// Growth of one pass more; the joins are those pixels that growth of p passes has not.
        fn following(
            &self,
            given: Option<&str>,
            picture: &Picture,
            ground: &[u8],
            p: i64,
        ) -> Result<Look, u32> {
            let Picture { colours, h, w, .. } = *picture;
            let Rgb { r, g, b } = pictures::reference_by(given, colours, h, w);
            let passes = usize::try_from(p).unwrap_or(0);
            let grown = |passes: usize| {
                mask::unmix_fringe(colours, &bools(ground), h, w, &[r, g, b], passes)
            };
            let (before, after) = (grown(passes), grown(passes.saturating_add(1)));
            let new = before.iter().zip(&after).filter(|(b, a)| b != a);
            Ok(Look {
                joins: new.count() as u64,
                background: bytes(&after),
            })
        }

        fn cut(
            &self,
            given: Option<&str>,
            picture: &Picture,
            s: &Settings,
        ) -> Result<Outline, u32> {
            let Picture {
                colours,
                alpha,
                h,
                w,
            } = *picture;
            let subject = match given {
                Some(text) => reading::subject(colour_of(text)?, picture, s),
                None => mask::subject(colours, alpha, h, w, &reading::config(s)).ok(),
            };
            // The only error: no alpha reaches the threshold.
            let subject = subject.ok_or(6u32)?;
            let (y0, y1, x0, x1) = subject.crop;
            Ok(Outline {
                mask: bytes(&subject.mask),
                weights: subject.weight,
                keyed: subject.background_keyed,
                crop: [y0, y1, x0, x1],
            })
        }
    }

    /// A list, and how many of its cases did what the name says.
    #[derive(Default)]
    struct List {
        stdin: String,
        stdout: String,
        cases: usize,
        found: usize,
        nine_tenths: usize,
        one_below: usize,
        keyed: usize,
        grown: usize,
        twice: usize,
        cropped: usize,
        refused: usize,
        /// Passes that follow, with a join and without.
        joined: usize,
        ended: usize,
        /// With the card's colour; and of these, those whose ground the median does not find, and those
        /// whose ground only the median finds.
        coloured: usize,
        gained: usize,
        lost: usize,
    }

    /// How many passes of growth join a pixel, to 2.
    fn passes_with_a_join(case: &Case, colours: &[f64]) -> usize {
        let mask = |p: i64| {
            let settings = Settings {
                key_bg_fringe: p.min(case.settings.key_bg_fringe),
                ..case.settings
            };
            let cut = MaskRs.cut(case.colour.as_deref(), &case.picture(colours), &settings);
            cut.map(|cut| cut.mask).ok()
        };
        let differ = |p: i64| mask(p) != mask(p + 1);
        differ(0) as usize + (differ(0) && differ(1)) as usize
    }

    impl List {
        /// Adds a case; whether it had few enough pixels and colours, and there was room.
        fn add(&mut self, case: &Case) -> bool {
            // What the library accepts; mask.rs does not test it.
            let mut colours = case.pictures.iter().flatten();
            assert!(colours.all(|c| (0.0..=1.0).contains(c)));
            let Some(text) = case.text() else {
                return false;
            };
            if self.stdin.len() + text.len() > MOST_BYTES {
                return false;
            }
            self.stdin += &text;
            self.stdout += &case.answer(&MaskRs);
            self.count(case);
            true
        }

        fn count(&mut self, case: &Case) {
            let given = case.colour.as_deref();
            self.cases += 1;
            self.coloured += given.is_some() as usize;
            for colours in &case.pictures {
                self.count_ground(case, colours);
                if case.op == 'F' {
                    let answer = case.answer(&MaskRs);
                    self.ended += answer.contains("joins 0\n") as usize;
                    self.joined +=
                        (answer.contains("joins ") && !answer.contains("joins 0\n")) as usize;
                }
                if case.op == 'G' || case.op == 'F' {
                    continue;
                }
                let (h, w, picture) = (case.h, case.w, case.picture(colours));
                let Ok(cut) = MaskRs.cut(given, &picture, &case.settings) else {
                    self.refused += 1;
                    continue;
                };
                let grown = passes_with_a_join(case, colours);
                self.keyed += cut.keyed as usize;
                self.grown += (grown >= 1) as usize;
                self.twice += (grown >= 2) as usize;
                self.cropped += (cut.crop != [0, h, 0, w]) as usize;
            }
        }

        fn count_ground(&mut self, case: &Case, colours: &[f64]) {
            let (given, h, w) = (case.colour.as_deref(), case.h, case.w);
            let tolerance = case.settings.key_bg_tolerance;
            let Ok(ground) = MaskRs.ground(given, colours, h, w, tolerance) else {
                self.refused += (case.op == 'G' || case.op == 'F') as usize;
                return;
            };
            let reference = pictures::reference_by(given, colours, h, w);
            let (close, all) = pictures::close_entries_by(reference, colours, h, w, tolerance);
            self.nine_tenths += (10 * close == 9 * all) as usize;
            self.one_below += (10 * close < 9 * all && 10 * (close + 1) >= 9 * all) as usize;
            self.found += ground.is_some() as usize;
            let median = mask::flat_background(colours, h, w, tolerance, 0);
            self.gained += (ground.is_some() && median.is_none()) as usize;
            self.lost += (ground.is_none() && median.is_some()) as usize;
        }

        fn write(&self, folder: &std::path::Path, name: &str) {
            let folder = folder.join(name);
            std::fs::create_dir_all(&folder).expect("the folder");
            std::fs::write(folder.join("stdin"), &self.stdin).expect("stdin");
            std::fs::write(folder.join("stdout"), &self.stdout).expect("stdout");
            println!(
                "{}: {} cases; {} and {} bytes\n  ground found {}, border exactly nine tenths close {}, \
                 one entry below {}; keyed {}, grown in a pass {}, in two or more {}, cropped {}, \
                 refused {}\n  passes that follow, with a join {}, without {}\n  with a colour {}, of \
                 which found by the colour only {}, by the median only {}",
                folder.display(),
                self.cases,
                self.stdin.len(),
                self.stdout.len(),
                self.found,
                self.nine_tenths,
                self.one_below,
                self.keyed,
                self.grown,
                self.twice,
                self.cropped,
                self.refused,
                self.joined,
                self.ended,
                self.coloured,
                self.gained,
                self.lost
            );
        }
    }

    const WHITE: Colour = [1.0; 3];
    const BLACK: Colour = [0.0; 3];

    fn below(x: f64) -> f64 {
        f64::from_bits(x.to_bits() - 1)
    }

    fn above(x: f64) -> f64 {
        f64::from_bits(x.to_bits() + 1)
    }

    fn ground(h: usize, w: usize, tolerance: f64, colour: impl Fn(usize, usize) -> Colour) -> Case {
        cut(
            h,
            w,
            Settings {
                key_bg_tolerance: tolerance,
                ..Settings::default()
            },
            'G',
            colour,
        )
    }

    /// An opaque picture.
    fn cut(
        h: usize,
        w: usize,
        settings: Settings,
        op: char,
        colour: impl Fn(usize, usize) -> Colour,
    ) -> Case {
        let colours = (0..h * w).flat_map(|i| colour(i / w, i % w)).collect();
        Case {
            op,
            colour: None,
            h,
            w,
            pictures: vec![colours],
            alpha: vec![255; h * w],
            settings,
        }
    }

    /// A picture and settings of a fixed seed.
    fn drawn(random: &mut Random, h: usize, w: usize, op: char) -> Case {
        let (colours, suiting) = drawings::colours(random, h, w);
        let mut one_in = |n: usize| random.below(n) == 0;
        let (threshold, key_bg, tolerance, crop_to_alpha) =
            (one_in(4), !one_in(10), one_in(4), !one_in(4));
        let mut any = |of: usize| random.below(of);
        let settings = Settings {
            alpha_threshold: if threshold { THRESHOLDS[any(8)] } else { 128 },
            key_bg,
            key_bg_fringe: PASSES[any(9)],
            key_bg_tolerance: if tolerance {
                TOLERANCES[any(11)]
            } else {
                suiting
            },
            crop_to_alpha,
        };
        let alpha = match op {
            'G' => vec![255; h * w],
            _ => drawings::alpha(random, h * w),
        };
        Case {
            op,
            colour: None,
            h,
            w,
            pictures: vec![colours],
            alpha,
            settings,
        }
    }

    fn passes(p: i64, tolerance: f64) -> Settings {
        Settings {
            key_bg_fringe: p,
            key_bg_tolerance: tolerance,
            ..Settings::default()
        }
    }

    /// The case with the card's colour.
    fn by_colour(case: Case, text: &str) -> Case {
        Case {
            colour: Some(text.into()),
            ..case
        }
    }

    mod grounds {
        use super::*;

        /// The proved cases (R77, R78), and grounds that only a corner joins.
        pub fn by_hand(list: &mut List) {
            list.add(&ground(1, 1, 0.0, |_, _| WHITE));
            for last in [0, 1] {
                let black = |y, x| y == 0 && x <= last;
                list.add(&ground(3, 4, 0.0, |y, x| [!black(y, x) as u8 as f64; 3]));
            }
            let some = [
                "00000/01110/01010/01110/00000",
                "00000/01100/01010/00110/00000",
                "00000/00100/01010/00100/00000",
                "0000000/0111110/0100010/0101010/0100010/0111110/0000000",
                "0000000/0111110/0100010/0101010/0100011/0111110/0000000",
                "0000/0100/0010/0000",
                "11/11",
                "10/11",
                "1",
                "0000000000000000000010/1111111111111111111111",
            ];
            for text in some {
                let rows: Vec<&[u8]> = text.split('/').map(str::as_bytes).collect();
                let colour = |y: usize, x: usize| [(rows[y][x] - b'0') as f64 * 0.75; 3];
                list.add(&ground(rows.len(), rows[0].len(), 0.0, colour));
            }
        }

        /// Sides with borders of many lengths, one row or column and more.
        const LINES: [(usize, usize); 9] = [
            (1, 9),
            (1, 10),
            (1, 20),
            (1, 30),
            (1, 200),
            (10, 1),
            (11, 1),
            (21, 1),
            (101, 1),
        ];
        const SIDES: [(usize, usize); 10] = [
            (2, 2),
            (2, 4),
            (2, 9),
            (3, 4),
            (4, 3),
            (6, 6),
            (5, 8),
            (12, 10),
            (7, 30),
            (32, 32),
        ];

        /// As many border entries off as nine tenths allow, and one pixel more.
        pub fn nine_tenths(list: &mut List) {
            let mut random = Random(31);
            for (h, w) in LINES.into_iter().chain(SIDES) {
                let border = pictures::border(h, w);
                let mut off = vec![false; h * w];
                // A pixel inside, so that not all is ground.
                off[(h / 2) * w + w / 2] = true;
                let close = |off: &[bool]| border.iter().filter(|&&i| !off[i]).count();
                let enough = |off: &[bool]| 10 * close(off) >= 9 * border.len();
                loop {
                    let case = ground(h, w, 0.0, |y, x| match off[y * w + x] {
                        true => [0.25, 1.0, 0.5],
                        false => [0.25, 0.5, 0.5],
                    });
                    let mut more = off.clone();
                    while more == off && off.contains(&false) {
                        more[border[random.below(border.len())]] = true;
                    }
                    if !enough(&off) || !enough(&more) {
                        list.add(&case);
                    }
                    if !enough(&off) {
                        break;
                    }
                    off = more;
                }
            }
        }

        /// Numbers next to each other: on the border, or inside a border of one colour but for a
        /// pixel. Then zeros of both signs.
        pub fn neighbours(list: &mut List) {
            let of = [0.5, 1.0, 0.1, 128.0 / 255.0, 5e-324, f64::MIN_POSITIVE];
            for base in of {
                let up = if base < 1.0 { above(base) } else { base };
                let down = below(base);
                let gap = base - down;
                let shades = [base, up, base, down];
                for tolerance in [0.0, 5e-324, gap / 2.0, gap, 2.0 * gap] {
                    for (h, w) in [(1, 12), (5, 6), (2, 2)] {
                        list.add(&ground(h, w, tolerance, |y, x| match (y, x) {
                            (2, 2) => [0.5 * base; 3],
                            (0, 7) => [base, 0.75 * base, up],
                            _ => [0, 1, 2].map(|c| shades[(y * y + 3 * x + c * (y + x)) % 4]),
                        }));
                    }
                    for (h, w) in [(6, 8), (9, 5)] {
                        list.add(&ground(h, w, tolerance, |y, x| match (y, x) {
                            (0, 3) => [0.5 * base; 3],
                            (2, 2) => [(2.0 * down - base).max(0.0), base, base],
                            _ if y == 0 || x == 0 || y + 1 == h || x + 1 == w => [base; 3],
                            _ => [shades[(5 * y + 3 * x) % 4], base, shades[(y + x) % 3]],
                        }));
                    }
                }
            }
            for tolerance in [0.0, -0.0, 5e-324, -5e-324] {
                for (h, w) in [(4, 5), (1, 7), (6, 1), (2, 2), (5, 5)] {
                    list.add(&ground(h, w, tolerance, |y, x| {
                        [0, 1, 2].map(|c| match (y * w + x + c) % 3 {
                            0 => 0.0,
                            1 => -0.0,
                            _ if (y, x) == (h / 2, w / 2) => 5e-324,
                            _ => -0.0,
                        })
                    }));
                }
            }
        }

        /// Each tolerance on a few pictures; differences that are exactly the tolerance.
        pub fn tolerances(list: &mut List) {
            for tolerance in TOLERANCES {
                for (h, w) in [(6, 7), (12, 5), (1, 30), (11, 1), (2, 2)] {
                    let border = pictures::onto_border(h, w);
                    list.add(&ground(h, w, tolerance, |y, x| match (y + 2 * x) % 9 {
                        4 if y + 1 == h && x == 2 => [1.0, 0.5, 0.5],
                        _ if h > 1 && w > 2 && border[y * w + x] => [0.5; 3],
                        5 => [0.5, 0.53125, 0.5],
                        7 => [0.46875, 0.5, 0.5],
                        2 if x % 4 == 1 => [0.5, 0.5, above(0.53125)],
                        _ => [0.5; 3],
                    }));
                }
                list.add(&ground(7, 7, tolerance, |y, x| {
                    let inside = (2..5).contains(&y) && (2..5).contains(&x);
                    [if inside { 0.0 } else { 1.0 }, 1.0, 0.5]
                }));
            }
        }

        /// Pictures of a fixed seed; in two of three there is a ground.
        pub fn random(list: &mut List) {
            let mut random = Random(32);
            let (mut added, mut absent) = (0, 0);
            while added < 120 {
                let (h, w) = pictures::sides(&mut random, if added % 8 == 0 { 24 } else { 9 });
                let case = drawn(&mut random, h, w, 'G');
                let there = case.answer(&MaskRs).contains("found");
                let kept = there || absent < 40;
                if kept && case.text().is_some_and(|text| text.len() < 1500) && list.add(&case) {
                    added += 1;
                    absent += !there as usize;
                }
            }
        }
    }

    mod cuts {
        use super::*;

        /// The proved cases (R77 to R79).
        pub fn document(list: &mut List) {
            for third in [0.75, 0.5] {
                let colour = |_, x| match x {
                    0..=26 => WHITE,
                    27 => [third; 3],
                    _ => BLACK,
                };
                list.add(&cut(1, 30, passes(1, 0.0), 'C', colour));
            }
            for last in [0, 1] {
                let black = |y, x| y == 0 && x <= last;
                let colour = |y, x| [!black(y, x) as u8 as f64; 3];
                list.add(&cut(3, 4, passes(1, 0.0), 'C', colour));
            }
            list.add(&cut(5, 5, Settings::default(), 'C', |y, x| {
                [((y, x) != (2, 2)) as u8 as f64; 3]
            }));
            list.add(&cut(1, 1, Settings::default(), 'C', |_, _| WHITE));
        }

        /// A body whose difference from the card is about 1e-6, with a rim of a tenth of it.
        pub fn faint(list: &mut List) {
            for body in [1e-7, below(1e-6), 1e-6, above(1e-6), 2e-6] {
                list.add(&cut(9, 9, passes(2, 0.0), 'C', |y, x| {
                    match y.min(x).min(8 - y).min(8 - x) {
                        0 | 1 => [0.0, -0.0, 0.0],
                        2 => [0.0, body / 10.0, 0.0],
                        _ => [0.0, body, body / 2.0],
                    }
                }));
            }
        }

        /// Discs and rings with a soft rim: each p, keying and cropping on and off.
        pub fn shapes(list: &mut List) {
            let bodies = [[0.55, 0.2, 0.15], [0.0; 3], [0.9, 0.9, 0.85]];
            let sides = [(22, 22, 1.5), (25, 23, 6.0), (16, 20, 3.0), (32, 32, 9.0)];
            let mut round = 0;
            for p in PASSES {
                for (h, w, soft) in sides {
                    let side = h.min(w) as f64;
                    let disc = Disc {
                        cy: h as f64 / 2.0,
                        cx: w as f64 / 2.0,
                        outer: side * 0.38,
                        inner: (round % 2 == 0).then_some(side * 0.15),
                        soft,
                    };
                    let body = bodies[round % 3];
                    let settings = Settings {
                        key_bg: round % 7 != 3,
                        crop_to_alpha: round % 4 != 1,
                        alpha_threshold: THRESHOLDS[round % 5],
                        ..passes(p, [0.03125, 0.0][round % 2])
                    };
                    list.add(&cut(h, w, settings, 'C', |y, x| {
                        mix(WHITE, body, disc.cover(y, x))
                    }));
                    round += 1;
                }
            }
        }

        /// Rings that rise evenly towards the middle, so that pass after pass joins.
        pub fn rising(list: &mut List) {
            for p in PASSES {
                for (side, step) in [(15, 1.0 / 16.0), (17, 0.125)] {
                    list.add(&cut(side, side, passes(p, 0.0), 'C', |y, x| {
                        let ring = y.min(x).min(side - 1 - y).min(side - 1 - x);
                        [(ring as f64 * step).min(1.0), 0.0, -0.0]
                    }));
                }
            }
        }

        /// Every alpha, in four pictures, at each threshold; alpha of few values; all transparent.
        pub fn alphas(list: &mut List) {
            let mut random = Random(33);
            for threshold in THRESHOLDS {
                let settings = Settings {
                    alpha_threshold: threshold,
                    ..Settings::default()
                };
                let with = |h: usize, w: usize, alpha: &mut dyn FnMut(usize) -> u8| Case {
                    alpha: (0..h * w).map(alpha).collect(),
                    ..cut(h, w, settings, 'C', |y, x| {
                        [((y, x) != (2, 2)) as u8 as f64; 3]
                    })
                };
                if [0, 1, 128].contains(&threshold) {
                    for part in 0..4 {
                        list.add(&with(8, 8, &mut |i| (64 * part + i) as u8));
                    }
                }
                for level in [0, 1, 127, 128, 254, 255] {
                    list.add(&with(5, 5, &mut |_| level));
                }
                let few = [0, 1, 127, 128, 254, 255];
                list.add(&with(6, 9, &mut |_| few[random.below(6)]));
                list.add(&with(9, 6, &mut |_| few[2 + random.below(4)]));
                list.add(&with(1, 8, &mut |i| if i == 5 { 200 } else { 3 }));
                list.add(&with(8, 1, &mut |i| if i == 5 { 200 } else { 3 }));
            }
        }

        /// Pictures of a fixed seed; in half of them a pass joins pixels.
        pub fn random(list: &mut List) {
            let mut random = Random(34);
            let (mut added, mut others) = (0, 0);
            while added < 110 {
                let most = if added % 6 == 0 { 26 } else { 12 };
                let (h, w) = pictures::sides(&mut random, most);
                let case = drawn(&mut random, h, w, 'C');
                let grown = passes_with_a_join(&case, &case.pictures[0]) > 0;
                let kept = grown || others < 55;
                if kept && case.text().is_some_and(|text| text.len() < 2600) && list.add(&case) {
                    added += 1;
                    others += !grown as usize;
                }
            }
        }
    }

    /// Cases with the card's colour.
    mod given {
        use super::*;

        /// Texts that are no colour.
        const NONE: [&str; 6] = ["", "fffff", "fffffff", "#fffff", "#ffffff", "fffffg"];

        /// A card of this grey with a black pixel in the middle.
        fn card(h: usize, w: usize, grey: f64, settings: Settings, op: char) -> Case {
            let middle = (h / 2, w / 2);
            cut(h, w, settings, op, |y, x| match (y, x) == middle {
                true => BLACK,
                false => [grey; 3],
            })
        }

        /// The card's own colour and others; differences that are exactly the tolerance; nine tenths
        /// and one entry less; two shades about the colour that is given; texts that are refused.
        fn by_hand(list: &mut List, op: char) {
            let mut add = |case: Case, text: &str| assert!(list.add(&by_colour(case, text)));
            for text in ["ffffff", "FFFFFF", "000000", "fefefe", "ffff00"] {
                add(card(3, 3, 1.0, passes(0, 0.0), op), text);
            }
            let (grey, one) = (128.0 / 255.0, 129.0 / 255.0 - 128.0 / 255.0);
            for tolerance in [one, below(one)] {
                add(card(4, 5, grey, passes(1, tolerance), op), "818181");
            }
            for (h, last) in [(3, 0), (3, 1), (4, 0), (4, 1)] {
                let black = |y, x| y == 0 && x <= last;
                let colour = |y, x| [!black(y, x) as u8 as f64; 3];
                add(cut(h, 4, passes(0, 0.0), op, colour), "FfFfFf");
            }
            for text in ["c8c8c8", "C6C6C6"] {
                let shades = [198.0 / 255.0, 202.0 / 255.0];
                let shade = |y: usize, x: usize| [shades[((y + x) % 3 == 0) as usize]; 3];
                let colour = |y, x| match (y, x) == (3, 3) {
                    true => BLACK,
                    false => shade(y, x),
                };
                add(cut(7, 6, passes(1, 0.01), op, colour), text);
            }
            for text in NONE {
                add(card(3, 3, 1.0, passes(1, 0.0), op), text);
            }
        }

        pub fn grounds(list: &mut List) {
            by_hand(list, 'G');
        }

        pub fn cuts(list: &mut List) {
            by_hand(list, 'C');
            soft(list);
            let keying = |key_bg: bool| Settings {
                key_bg,
                ..passes(1, 0.0)
            };
            let by = |alpha: Vec<u8>, key_bg: bool| Case {
                alpha,
                ..card(3, 3, 1.0, keying(key_bg), 'C')
            };
            // Keying off; a hole by alpha; all transparent, which is 6, or 11 where the text is none.
            let mut hole = vec![255; 9];
            hole[4] = 3;
            for text in ["ffffff", ""] {
                assert!(list.add(&by_colour(by(vec![255; 9], false), text)));
                assert!(list.add(&by_colour(by(hole.clone(), true), text)));
                assert!(list.add(&by_colour(by(vec![0; 9], true), text)));
            }
        }

        /// A disc with a soft rim on a card of 248, by its own colour and ones beside it.
        fn soft(list: &mut List) {
            let side = 15;
            let disc = Disc {
                cy: 7.0,
                cx: 7.0,
                outer: 5.0,
                inner: None,
                soft: 3.0,
            };
            let card = [248.0 / 255.0; 3];
            for (text, p) in [("f8f8f8", 1), ("F8F8F8", 3), ("fafafa", 2), ("e8f8f8", 1)] {
                let colour = |y, x| mix(card, [0.55, 0.2, 0.15], disc.cover(y, x));
                let case = cut(side, side, passes(p, 0.03125), 'C', colour);
                assert!(list.add(&by_colour(case, text)));
            }
            // A rim that joins by the darker colour and not by the median, and one the other way.
            for (rim, text) in [(0.48, "f1f1f1"), (0.49, "ffffff")] {
                let colour = |y: usize, x: usize| match y.min(x).min(8 - y).min(8 - x) {
                    0 | 1 => card,
                    2 => [rim; 3],
                    _ => BLACK,
                };
                let case = cut(9, 9, passes(1, 0.03125), 'C', colour);
                assert!(list.add(&by_colour(case, text)));
            }
        }

        /// Pictures of a fixed seed in the colours of a file; in two of three there is a ground.
        pub fn random(list: &mut List, op: char, seed: u64, count: usize) {
            let mut random = Random(seed);
            let (mut added, mut others) = (0, 0);
            while added < count {
                let (h, w) = pictures::sides(&mut random, 12);
                let mut case = drawn(&mut random, h, w, op);
                pictures::in_bytes(&mut case.pictures[0]);
                let bytes = pictures::card_colour(&mut random, &case.pictures[0], h, w);
                let case = by_colour(case, &pictures::text_of(&mut random, bytes));
                let answer = case.answer(&MaskRs);
                let there = answer.contains("found") || answer.contains("keyed 1");
                let kept = there || others < count / 3;
                if kept && case.text().is_some_and(|text| text.len() < 800) && list.add(&case) {
                    added += 1;
                    others += !there as usize;
                }
            }
        }
    }

    /// Passes that follow.
    mod following {
        use super::*;

        /// The rim of the proved cases (R93) at the end of a row of card: after no pass and after each,
        /// by the card's colour too. Then no ground, and texts that name none.
        fn rim(list: &mut List) {
            let greys = [0.875, 0.75, 0.0, 0.0, 0.0, 0.0];
            for p in -1..4 {
                let colour = |_, x: usize| [x.checked_sub(54).map_or(1.0, |x| greys[x]); 3];
                let case = cut(1, 60, passes(p, 0.0), 'F', colour);
                assert!(list.add(&case));
                assert!(list.add(&by_colour(case, "FFFFFF")));
            }
            let card = |_, _| WHITE;
            assert!(list.add(&cut(4, 4, passes(1, 0.0), 'F', card)));
            for text in ["000000", "", "fffffg"] {
                let case = cut(3, 3, passes(1, 0.0), 'F', |y, x| {
                    [((y, x) != (1, 1)) as u8 as f64; 3]
                });
                assert!(list.add(&by_colour(case, text)));
            }
        }

        /// Rings that rise evenly towards the middle, and discs with a soft rim.
        fn shapes(list: &mut List) {
            for p in [0, 1, 2, 3, 5, i64::MAX] {
                for (side, step) in [(15, 1.0 / 16.0), (13, 0.125)] {
                    assert!(list.add(&cut(side, side, passes(p, 0.0), 'F', |y, x| {
                        let ring = y.min(x).min(side - 1 - y).min(side - 1 - x);
                        [(ring as f64 * step).min(1.0), 0.0, -0.0]
                    })));
                }
                let disc = Disc {
                    cy: 7.0,
                    cx: 7.5,
                    outer: 5.5,
                    inner: (p % 2 == 0).then_some(2.0),
                    soft: 4.0,
                };
                assert!(list.add(&cut(15, 16, passes(p, 0.03125), 'F', |y, x| {
                    mix(WHITE, [0.55, 0.2, 0.15], disc.cover(y, x))
                })));
            }
        }

        /// Pictures of a fixed seed whose ground is found; in half of them the pass joins a pixel.
        fn random(list: &mut List) {
            let mut random = Random(38);
            let (mut added, mut others) = (0, 0);
            while added < 24 {
                let (h, w) = pictures::sides(&mut random, 14);
                let case = drawn(&mut random, h, w, 'F');
                let answer = case.answer(&MaskRs);
                let ends = answer.contains("joins 0\n");
                let kept = answer.contains("joins ") && (!ends || others < 12);
                if kept && case.text().is_some_and(|text| text.len() < 900) && list.add(&case) {
                    added += 1;
                    others += ends as usize;
                }
            }
        }

        pub fn all(list: &mut List) {
            shapes(list);
            random(list);
            rim(list);
        }
    }

    mod pairs {
        use super::*;

        /// Cards whose middle pixel decides whether pixels join in pass p, and cards of one ring more.
        pub fn tight(list: &mut List, rings: &Rings) {
            for p in [1, 2, 3, 4, 8, 12] {
                let (joins, stays) = rings.middles(p);
                let side = 2 * (p + 4) + 1;
                let pairs = [
                    (side, joins, stays),
                    (side + 2, joins, stays),
                    (side + 2, 0.0, 1.0),
                ];
                for (side, one, two) in pairs {
                    let case = Case {
                        op: 'P',
                        colour: rings.given.map(str::to_string),
                        h: side,
                        w: side,
                        pictures: vec![rings.card(p, side, one), rings.card(p, side, two)],
                        alpha: vec![255; side * side],
                        settings: passes(p as i64, rings.tolerance),
                    };
                    assert!(list.add(&case));
                }
            }
        }

        /// With white given, all black and five white pixels of six: their borders differ, and so do
        /// their cuts, although the first one has no ground.
        pub fn borders(list: &mut List) {
            let case = |last: f64| {
                cut(6, 1, passes(1, 0.0), 'P', |y, _| {
                    [if y < 5 { last } else { 0.0 }; 3]
                })
            };
            let [black, other] = [0.0, 1.0].map(|last| case(last).pictures.remove(0));
            assert!(list.add(&Case {
                pictures: vec![black, other],
                ..by_colour(case(0.0), "ffffff")
            }));
        }
    }

    pub fn main() {
        let folder = std::env::args_os()
            .nth(1)
            .map(PathBuf::from)
            .unwrap_or_else(|| PathBuf::from(env!("CARGO_MANIFEST_DIR")).join("../crates"));
        let mut list = List::default();
        grounds::by_hand(&mut list);
        grounds::nine_tenths(&mut list);
        grounds::neighbours(&mut list);
        grounds::tolerances(&mut list);
        grounds::random(&mut list);
        given::grounds(&mut list);
        given::random(&mut list, 'G', 36, 26);
        list.write(&folder, "replay_ground");

        let mut list = List::default();
        cuts::document(&mut list);
        cuts::faint(&mut list);
        cuts::shapes(&mut list);
        cuts::rising(&mut list);
        cuts::alphas(&mut list);
        cuts::random(&mut list);
        given::cuts(&mut list);
        given::random(&mut list, 'C', 37, 34);
        following::all(&mut list);
        list.write(&folder, "replay_cut");

        let mut list = List::default();
        pairs::tight(&mut list, &pictures::BY_MEDIAN);
        pairs::tight(&mut list, &pictures::BY_COLOUR);
        pairs::borders(&mut list);
        list.write(&folder, "replay_pair");
    }
}
