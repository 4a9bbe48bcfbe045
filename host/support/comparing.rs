//! Ground, cut and the look at the pass after it held to mask.rs, picture by picture, and an account of what the pictures were. The
//! reference is the median of the border, or the card's colour where a text gives it.

use crate::lent::CutLent;
use crate::mask;
use crate::masks::bools;
use crate::pictures::{self, Drawn};
use crate::reading;
use stand::{Rgb, Settings};
use std::io::Write;

/// What was gone through: how many pictures did what the name says.
#[derive(Default)]
pub struct Covered {
    pub pictures: u64,
    pub pixels: u64,
    pub refused: u64,
    pub full: u64,
    pub partial: u64,
    pub sought: u64,
    pub keyed: u64,
    pub cropped: u64,
    pub whole_ground: u64,
    /// Keyed pictures by the number of passes with a join: 0, 1, 2, 3, more.
    pub passes: [u64; 5],
    pub deep_empty: u64,
    pub deep_beyond: u64,
    pub few_edges: u64,
    pub many_edges: u64,
    pub exactly: u64,
    pub one_below: u64,
    pub ground_found: u64,
    /// Keyed pictures of which one more pass would take off a pixel, and those where growth has ended.
    pub next_joined: u64,
    pub next_ended: u64,
    pub values: u64,
}

impl Covered {
    /// All of it, with a last line of the caller's own.
    pub fn say(&self, what: &str, last: &str) {
        let [none, one, two, three, more] = self.passes;
        let lines = format!(
            "compared with mask.rs, {what}: {} pictures, {} pixels, {} values equal\n\
             \x20 cuts: {} refused for alpha, {} of partial alpha, {} opaque; ground sought {}, \
             keyed {}, cropped {}\n\
             \x20 keyed, passes with a join: none {none}, 1: {one}, 2: {two}, 3: {three}, more: \
             {more}; deep empty in a pass {}, an edge pixel's deep beyond 36 {}; edge \
             pixels few {}, many {}\n\
             \x20 one pass more: with a join {}, without {}\n\
             \x20 border exactly nine tenths close {}, one entry below {}; ground found {}, all \
             ground {}\n\
             \x20 {last}\n",
            self.pictures,
            self.pixels,
            self.values,
            self.refused,
            self.partial,
            self.full,
            self.sought,
            self.keyed,
            self.cropped,
            self.deep_empty,
            self.deep_beyond,
            self.few_edges,
            self.many_edges,
            self.next_joined,
            self.next_ended,
            self.exactly,
            self.one_below,
            self.ground_found,
            self.whole_ground,
        );
        std::io::stderr().write_all(lines.as_bytes()).unwrap();
    }

    /// Holds each kind of picture to have come up often enough.
    pub fn enough(&self, least: u64) {
        let [none, one, two, three, more] = self.passes;
        for (count, what) in [
            (self.refused, "refused"),
            (self.partial, "partial alpha"),
            (self.cropped, "cropped"),
            (none, "no join"),
            (one, "joins in 1 pass"),
            (two, "joins in 2 passes"),
            (three, "joins in 3 passes"),
            (more, "joins in more passes"),
            (self.deep_empty, "deep empty"),
            (self.deep_beyond, "deep beyond 36"),
            (self.many_edges, "many edge pixels"),
            (self.next_joined, "joins in one pass more"),
            (self.next_ended, "no join in one pass more"),
            (self.exactly, "exactly nine tenths"),
            (self.one_below, "one below nine tenths"),
            (self.whole_ground, "all ground"),
        ] {
            assert!(count >= least, "{what}: only {count}");
        }
    }

    fn count_passes(&mut self, seen: &Passes) {
        self.passes[seen.joined.min(4)] += 1;
        self.deep_empty += seen.deep_empty as u64;
        self.deep_beyond += seen.deep_beyond as u64;
        self.few_edges += seen.few_edges as u64;
        self.many_edges += seen.many_edges as u64;
    }
}

/// Growth pass by pass, by mask.rs's own functions: in how many passes pixels join, whether deep
/// is empty in one, whether an edge pixel's nearest deep pixel is beyond 36 in one, and whether,
/// beside a deep pixel, at most one pixel in 32 is edge in one, or more are: ours has a way for
/// each.
#[derive(Default)]
struct Passes {
    joined: usize,
    deep_empty: bool,
    deep_beyond: bool,
    few_edges: bool,
    many_edges: bool,
}

fn passes(colours: &[f64], ground: &[bool], h: usize, w: usize, r: Rgb, most: i64) -> Passes {
    let mut seen = Passes::default();
    let mut back = ground.to_vec();
    for _ in 0..most {
        let near = mask::binary_dilation8(&back, h, w, 1);
        let edge: Vec<usize> = (0..h * w).filter(|&i| near[i] && !back[i]).collect();
        if edge.is_empty() || near.iter().all(|&n| n) {
            break;
        }
        let deep: Vec<bool> = mask::binary_dilation8(&back, h, w, 4)
            .iter()
            .map(|&d| !d)
            .collect();
        if deep.contains(&true) {
            seen.few_edges |= edge.len() <= h * w / 32;
            seen.many_edges |= edge.len() > h * w / 32;
            let (rows, cols) = mask::feature_transform(&deep, h, w);
            seen.deep_beyond |= edge.iter().any(|&i| {
                let dy = rows[i] as i64 - (i / w) as i64;
                let dx = cols[i] as i64 - (i % w) as i64;
                dy * dy + dx * dx > 36
            });
        } else {
            seen.deep_empty = true;
        }
        let next = mask::unmix_fringe(colours, &back, h, w, &[r.r, r.g, r.b], 1);
        if next == back {
            break;
        }
        seen.joined += 1;
        back = next;
    }
    seen
}

/// Holds a plane of w columns to be mask.rs's.
pub fn same(ours: &[u8], theirs: &[bool], w: usize, what: &str, shown: impl Fn() -> String) {
    for (i, (&a, &b)) in ours.iter().zip(theirs).enumerate() {
        if a != b as u8 {
            let (y, x) = (i / w, i % w);
            panic!("{what} at ({y}, {x}): {a}, mask.rs {b}; {}", shown());
        }
    }
}

pub struct Comparison {
    pub lent: CutLent,
    pub covered: Covered,
}

impl Comparison {
    pub fn new(h: usize, w: usize) -> Comparison {
        Comparison {
            lent: CutLent::new(h, w),
            covered: Covered::default(),
        }
    }

    /// Mask, weights, flag and crop against `subject`, or its second reading where the colour is
    /// given; whether it was keyed.
    pub fn cut(&mut self, drawn: &Drawn, given: Option<&str>) -> bool {
        let (h, w) = (drawn.h, drawn.w);
        let (colours, alpha, s) = (&drawn.colours, &drawn.alpha, &drawn.settings);
        let (theirs, (answer, mask, weights)) = match given {
            None => (
                mask::subject(colours, alpha, h, w, &reading::config(s)).ok(),
                self.lent.cut(colours, alpha, h, w, *s),
            ),
            Some(text) => (
                reading::subject(pictures::colour_of(text), &drawn.picture(), s),
                self.lent.cut_with_colour(colours, alpha, h, w, text, *s),
            ),
        };
        self.covered.pictures += 1;
        self.covered.pixels += (h * w) as u64;
        let shown = || format!("colour {given:?}, {}", drawn.show());
        let Some(theirs) = theirs else {
            assert_eq!(answer.refusal, 6, "{}", shown());
            self.covered.refused += 1;
            return false;
        };
        assert_eq!(answer.refusal, 0, "{}", shown());
        assert_eq!(answer.keyed, theirs.background_keyed, "{}", shown());
        let crop = (answer.y0, answer.y1, answer.x0, answer.x1);
        assert_eq!(crop, theirs.crop, "{}", shown());
        same(mask, &theirs.mask, w, "mask", shown);
        for (i, (a, b)) in weights.iter().zip(&theirs.weight).enumerate() {
            assert_eq!(a.to_bits(), b.to_bits(), "weight of {i}, {}", shown());
        }
        let whole = crop == (0, h, 0, w);
        self.count_cut(drawn, answer.keyed, !whole);
        answer.keyed
    }

    fn count_cut(&mut self, drawn: &Drawn, keyed: bool, cropped: bool) {
        let Settings {
            alpha_threshold,
            key_bg,
            ..
        } = drawn.settings;
        let opaque = drawn.alpha.iter().all(|&a| a as i64 >= alpha_threshold);
        self.covered.full += opaque as u64;
        self.covered.partial += !opaque as u64;
        self.covered.sought += (opaque && key_bg) as u64;
        self.covered.keyed += keyed as u64;
        self.covered.cropped += cropped as u64;
        self.covered.values += 2 * (drawn.h * drawn.w) as u64 + 5;
    }

    /// The ground against `flat_background` without growth, or its second reading where the colour
    /// is given, and its reference; whether it was found.
    pub fn ground(&mut self, drawn: &Drawn, given: Option<&str>) -> bool {
        let Drawn { colours, h, w, .. } = drawn;
        let (h, w) = (*h, *w);
        let tolerance = drawn.settings.key_bg_tolerance;
        let reference = pictures::reference_by(given, colours, h, w);
        let (theirs, (answer, plane)) = match given {
            None => (
                mask::flat_background(colours, h, w, tolerance, 0),
                self.lent.ground(colours, h, w, tolerance),
            ),
            Some(text) => (
                reading::ground(reference, colours, h, w, tolerance),
                self.lent.ground_with_colour(colours, h, w, text, tolerance),
            ),
        };
        let shown = || format!("colour {given:?}, {}", drawn.show());
        let bits = |c: Rgb| [c.r, c.g, c.b].map(f64::to_bits);
        assert_eq!(answer.refusal, 0, "{}", shown());
        assert_eq!(answer.found, theirs.is_some(), "found, {}", shown());
        match theirs {
            Some(theirs) => {
                same(plane, &theirs, w, "ground", shown);
                assert_eq!(bits(answer.reference), bits(reference), "{}", shown());
                self.covered.ground_found += 1;
            }
            None => {
                assert!(plane.iter().all(|&p| p == 0), "{}", shown());
                assert_eq!(bits(answer.reference), [0; 3], "{}", shown());
            }
        }
        let (close, all) = pictures::close_entries_by(reference, colours, h, w, tolerance);
        self.covered.exactly += (10 * close == 9 * all) as u64;
        self.covered.one_below += (10 * close < 9 * all && 10 * (close + 1) >= 9 * all) as u64;
        self.covered.whole_ground += (!answer.found && 10 * close >= 9 * all) as u64;
        self.covered.values += (h * w) as u64 + 4;
        answer.found
    }

    /// A look at the pass after a cut that is keyed, from what its mask leaves off, against
    /// `unmix_fringe` on the ground with one pass more.
    fn next_pass(&mut self, drawn: &Drawn, ground: &[bool], reference: Rgb) {
        let Drawn { colours, h, w, .. } = drawn;
        let (h, w) = (*h, *w);
        let passes = usize::try_from(drawn.settings.key_bg_fringe).unwrap_or(0);
        let r = [reference.r, reference.g, reference.b];
        let theirs = mask::unmix_fringe(colours, ground, h, w, &r, passes.saturating_add(1));
        let mask = &self.lent.mask[..h * w];
        let background: Vec<u8> = mask.iter().map(|&on| 1 - on).collect();
        let (answer, ours) = self.lent.next_pass(colours, &background, h, w, reference);
        same(ours, &theirs, w, "next pass", || drawn.show());
        let new = theirs
            .iter()
            .zip(&background)
            .filter(|(&n, &b)| n && b == 0);
        let new = new.count() as u64;
        assert_eq!(answer.joins, new, "joins, {}", drawn.show());
        self.covered.next_joined += (new > 0) as u64;
        self.covered.next_ended += (new == 0) as u64;
        self.covered.values += (h * w) as u64 + 1;
    }

    /// Ground and cut of one picture; of one that is keyed, the look at the pass after it, and its
    /// passes are counted.
    pub fn both(&mut self, drawn: &Drawn, given: Option<&str>) {
        let Drawn { colours, h, w, .. } = drawn;
        let (h, w, s) = (*h, *w, &drawn.settings);
        self.ground(drawn, given);
        if self.cut(drawn, given) {
            let reference = pictures::reference_by(given, colours, h, w);
            let ground = pictures::ground_by(reference, colours, h, w, s.key_bg_tolerance);
            let ground = bools(&ground);
            let seen = passes(colours, &ground, h, w, reference, s.key_bg_fringe);
            self.covered.count_passes(&seen);
            self.next_pass(drawn, &ground, reference);
        }
    }
}
