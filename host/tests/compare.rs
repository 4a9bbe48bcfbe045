//! Every value compared with mask.rs, which is built unchanged (build.rs says from where).

include!(concat!(env!("OUT_DIR"), "/the_rust.rs"));

#[path = "../support/lent.rs"]
mod lent;
#[path = "../support/masks.rs"]
mod masks;

#[cfg(not(mask_rs))]
#[test]
#[ignore = "mask.rs is not there: PIXELFORGE_MASK_RS names its place"]
fn compared_with_the_rust() {}

#[cfg(mask_rs)]
mod with {
    use crate::lent::Lent;
    use crate::mask;
    use crate::masks::{self, Random};
    use std::io::Write;

    /// What a test went through, written past the harness's capture at its end.
    #[derive(Default)]
    struct Covered {
        masks: u64,
        pixels: u64,
        nearest: u64,
        labels: u64,
        parts: u64,
        squares: u64,
        distance: u64,
        fill: u64,
        values: u64,
    }

    impl Covered {
        fn say(&self, what: &str) {
            let line = format!(
                "compared with mask.rs, {what}: {} masks, {} pixels; calls of nearest {}, labels \
                 {} ({} parts), squares {}, square distance {}, fill {}; {} values equal\n",
                self.masks,
                self.pixels,
                self.nearest,
                self.labels,
                self.parts,
                self.squares,
                self.distance,
                self.fill,
                self.values
            );
            std::io::stderr().write_all(line.as_bytes()).unwrap();
        }
    }

    /// Iterations for a plane: fixed ones and those about its larger side.
    fn iterations(h: usize, w: usize) -> Vec<u64> {
        let larger = h.max(w) as u64;
        let mut all = vec![0, 1, 2, 4, 63, 4096, (1 << 32) - 1, 1 << 32];
        all.extend([larger - 1, larger, larger + 1]);
        all.sort_unstable();
        all.dedup();
        all
    }

    struct Comparison {
        lent: Lent,
        covered: Covered,
    }

    impl Comparison {
        fn new(h: usize, w: usize) -> Comparison {
            Comparison {
                lent: Lent::new(h, w),
                covered: Covered::default(),
            }
        }

        fn mask(&mut self, pixels: usize) {
            self.covered.masks += 1;
            self.covered.pixels += pixels as u64;
        }

        fn labels(&mut self, m: &[u8], b: &[bool], h: usize, w: usize) {
            let (theirs, n) = mask::label4(b, h, w);
            let (ours, parts) = self.lent.labels(m, h, w);
            assert_eq!(parts as usize, n, "n, {h} × {w}\n{}", masks::show(m, w));
            for i in 0..h * w {
                if ours[i] as i64 != theirs[i] {
                    panic!(
                        "label of ({}, {}): {}, mask.rs {}; {h} × {w}\n{}",
                        i / w,
                        i % w,
                        ours[i],
                        theirs[i],
                        masks::show(m, w)
                    );
                }
            }
            self.covered.labels += 1;
            self.covered.parts += n as u64;
            self.covered.values += 1 + (h * w) as u64;
        }

        fn squares(&mut self, m: &[u8], b: &[bool], h: usize, w: usize, k: u64) {
            let theirs = mask::binary_dilation8(b, h, w, k as usize);
            let ours = self.lent.squares(m, h, w, k);
            for i in 0..h * w {
                if ours[i] != theirs[i] as u8 {
                    panic!(
                        "squares, {k} iterations, at ({}, {}): {}, mask.rs {}; {h} × {w}\n{}",
                        i / w,
                        i % w,
                        ours[i],
                        theirs[i],
                        masks::show(m, w)
                    );
                }
            }
            self.covered.squares += 1;
            self.covered.values += (h * w) as u64;
        }

        /// Nearest, and what follows from it: square distance and, with colours, fill.
        fn nearest(
            &mut self,
            m: &[u8],
            b: &[bool],
            h: usize,
            w: usize,
            more: bool,
            colours: Option<&[f64]>,
        ) {
            let (rows, cols) = mask::feature_transform(b, h, w);
            let ours = self.lent.nearest(m, h, w);
            for i in 0..h * w {
                if (ours.0[i], ours.1[i]) != (rows[i], cols[i]) {
                    panic!(
                        "nearest of ({}, {}): ({}, {}), mask.rs ({}, {}); {h} × {w}\n{}",
                        i / w,
                        i % w,
                        ours.0[i],
                        ours.1[i],
                        rows[i],
                        cols[i],
                        masks::show(m, w)
                    );
                }
            }
            self.covered.nearest += 1;
            self.covered.values += 2 * (h * w) as u64;
            if more {
                let roots = mask::feature_distances(&rows, &cols, h, w);
                let ours = self.lent.distance(m, h, w);
                for i in 0..h * w {
                    let dy = (rows[i] as i64 - (i / w) as i64).unsigned_abs();
                    let dx = (cols[i] as i64 - (i % w) as i64).unsigned_abs();
                    assert_eq!(
                        ours[i] as u64,
                        dy * dy + dx * dx,
                        "square distance, {h} × {w}"
                    );
                    assert_eq!((ours[i] as f64).sqrt(), roots[i], "distance, {h} × {w}");
                }
                self.covered.distance += 1;
                self.covered.values += (h * w) as u64;
            }
            if let Some(colours) = colours {
                let theirs = mask::fill_transparent(colours, b, h, w);
                let ours = self.lent.fill(colours, m, h, w);
                for i in 0..3 * h * w {
                    let (a, b) = (ours[i].to_bits(), theirs[i].to_bits());
                    assert_eq!(a, b, "fill, {h} × {w}, number {i}\n{}", masks::show(m, w));
                }
                self.covered.fill += 1;
                self.covered.values += 3 * (h * w) as u64;
            }
        }

        /// All of it on one mask.
        fn whole(&mut self, m: &[u8], h: usize, w: usize, colours: &[f64]) {
            let b = masks::bools(m);
            self.mask(h * w);
            self.labels(m, &b, h, w);
            for k in iterations(h, w) {
                self.squares(m, &b, h, w, k);
            }
            self.nearest(m, &b, h, w, true, Some(colours));
        }
    }

    /// Any bits, those of numbers that are none among them.
    fn colours(random: &mut Random, n: usize) -> Vec<f64> {
        let odd = [
            f64::NAN.to_bits(),
            0x7ff0_0000_0000_0001,
            0xfff8_dead_beef_0001,
            (-0.0f64).to_bits(),
            f64::INFINITY.to_bits(),
            1,
        ];
        (0..3 * n)
            .map(|_| match random.below(8) {
                0 => f64::from_bits(odd[random.below(odd.len())]),
                _ => f64::from_bits(random.next()),
            })
            .collect()
    }

    #[test]
    fn all_masks_of_at_most_twelve_pixels() {
        let mut random = Random(1);
        let mut all = Comparison::new(12, 12);
        for n in 1..=12usize {
            for h in (1..=n).filter(|h| n % h == 0) {
                let w = n / h;
                for bits in 0..1u32 << n {
                    let mask: Vec<u8> = (0..n).map(|i| (bits >> i & 1) as u8).collect();
                    let mask = random.any_bytes(&mask);
                    let colours = colours(&mut random, n);
                    all.whole(&mask, h, w, &colours);
                }
            }
        }
        assert_eq!(all.covered.masks, 35_978);
        all.covered.say("all masks with h × w ≤ 12");
    }

    #[test]
    fn random_masks_of_sides_to_64() {
        let mut random = Random(2);
        let mut all = Comparison::new(64, 64);
        let densities = [1, 10, 50, 150, 300, 500, 593, 700, 900, 990, 1000];
        for round in 0..6600 {
            let h = 1 + random.below(64);
            let w = 1 + random.below(64);
            let density = densities[round % densities.len()];
            let mask = random.mask(h * w, density);
            let mask = random.any_bytes(&mask);
            let colours = colours(&mut random, h * w);
            all.whole(&mask, h, w, &colours);
        }
        all.covered.say("random masks of sides 1 to 64");
    }

    #[test]
    fn built_masks() {
        let mut random = Random(3);
        let mut all = Comparison::new(128, 128);
        let kinds: [fn(usize, usize) -> Vec<u8>; 7] = [
            masks::empty,
            masks::full,
            masks::single,
            masks::object,
            masks::spiral,
            masks::checkerboard,
            masks::comb,
        ];
        for (h, w) in [
            (1, 1),
            (1, 2),
            (2, 1),
            (2, 2),
            (7, 64),
            (64, 7),
            (33, 31),
            (128, 128),
        ] {
            for kind in kinds {
                for mask in [kind(h, w), masks::complement(&kind(h, w))] {
                    let mask = random.any_bytes(&mask);
                    let colours = colours(&mut random, h * w);
                    all.whole(&mask, h, w, &colours);
                }
            }
        }
        all.covered.say("built masks of sides to 128");
    }

    #[test]
    fn lines_of_4096() {
        let mut random = Random(4);
        let mut all = Comparison::new(1, 4096);
        for (h, w) in [(1, 4096), (4096, 1)] {
            for density in [0, 1, 5, 20, 100, 500, 900, 999, 1000] {
                for _ in 0..8 {
                    let mask = random.mask(h * w, density);
                    let mask = random.any_bytes(&mask);
                    let colours = colours(&mut random, h * w);
                    all.whole(&mask, h, w, &colours);
                }
            }
            for end in [0, h * w - 1] {
                let mut mask = masks::empty(h, w);
                mask[end] = 255;
                let colours = colours(&mut random, h * w);
                all.whole(&mask, h, w, &colours);
            }
        }
        all.covered.say("1 × 4096 and 4096 × 1");
    }

    #[test]
    fn large_planes() {
        let mut random = Random(5);
        let mut all = Comparison::new(4096, 4096);
        for (h, w) in [(2048, 2048), (4096, 4096), (4096, 37), (37, 4096)] {
            let n = h * w;
            let object = masks::object(h, w);
            let kinds = [
                object.clone(),
                masks::complement(&object),
                random.mask(n, 500),
                random.mask(n, 1),
                masks::single(h, w),
                masks::spiral(h, w),
                masks::empty(h, w),
                masks::full(h, w),
            ];
            for (kind, mask) in kinds.into_iter().enumerate() {
                let mask = random.any_bytes(&mask);
                let b = masks::bools(&mask);
                all.mask(n);
                all.labels(&mask, &b, h, w);
                let colours =
                    (n <= 2048 * 2048 && (kind == 0 || kind == 2)).then(|| colours(&mut random, n));
                all.nearest(&mask, &b, h, w, true, colours.as_deref());
                for k in iterations(h, w) {
                    // The whole list on the object and on random half.
                    if kind == 0 || kind == 2 || k == 1 || k == 63 {
                        all.squares(&mask, &b, h, w, k);
                    }
                }
            }
        }
        // Far corners: the largest square distance there is.
        let (h, w) = (4096, 4096);
        for corner in [0, w - 1, h * w - 1] {
            let mut mask = masks::empty(h, w);
            mask[corner] = 2;
            let b = masks::bools(&mask);
            all.mask(h * w);
            all.nearest(&mask, &b, h, w, true, None);
            all.squares(&mask, &b, h, w, 4095);
        }
        all.covered.say("sides of 2048 and 4096");
    }
}
