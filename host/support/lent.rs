//! Buffers lent to the library, kept from call to call: what an earlier call left in them must not
//! show in a later one.
#![allow(dead_code)]

use stand::raw::{self, StandCut, StandGround, StandNextPass, Work};
use stand::{Rgb, Settings};

/// Outputs and work buffers for planes of up to `n` pixels.
pub struct Lent {
    /// The work buffer of nearest, labels, square distance and fill.
    pub numbers: Vec<u32>,
    /// The work buffer of squares.
    pub bytes: Vec<u8>,
    pub rows: Vec<i32>,
    pub cols: Vec<i32>,
    pub labels: Vec<u32>,
    pub out: Vec<u8>,
    pub distance: Vec<u32>,
    pub filled: Vec<f64>,
}

impl Lent {
    /// Buffers for planes of sides `h` and `w` at most, filled with a pattern, so that their pages
    /// are there before a clock starts.
    pub fn new(h: usize, w: usize) -> Lent {
        let n = h * w;
        let work = stand::work_len(h, w).expect("sides from 1 to 4096");
        Lent {
            numbers: vec![7; work],
            bytes: vec![7; work],
            rows: vec![-7; n],
            cols: vec![-7; n],
            labels: vec![7; n],
            out: vec![7; n],
            distance: vec![7; n],
            filled: vec![7.5; 3 * n],
        }
    }

    pub fn nearest(&mut self, mask: &[u8], h: usize, w: usize) -> (&[i32], &[i32]) {
        let n = h * w;
        let (rows, cols) = (&mut self.rows[..n], &mut self.cols[..n]);
        let refusal = raw::nearest(mask, h, w, &mut self.numbers, rows, cols);
        assert_eq!(refusal, 0, "nearest {h} × {w}");
        (rows, cols)
    }

    pub fn labels(&mut self, mask: &[u8], h: usize, w: usize) -> (&[u32], u32) {
        let labels = &mut self.labels[..h * w];
        let answer = raw::labels(mask, h, w, &mut self.numbers, labels);
        assert_eq!(answer.refusal, 0, "labels {h} × {w}");
        (labels, answer.parts)
    }

    pub fn squares(&mut self, mask: &[u8], h: usize, w: usize, iterations: u64) -> &[u8] {
        let out = &mut self.out[..h * w];
        let refusal = raw::squares(mask, h, w, iterations, &mut self.bytes, out);
        assert_eq!(refusal, 0, "squares {h} × {w}, {iterations} iterations");
        out
    }

    pub fn distance(&mut self, mask: &[u8], h: usize, w: usize) -> &[u32] {
        let out = &mut self.distance[..h * w];
        let refusal = raw::distance(mask, h, w, &mut self.numbers, out);
        assert_eq!(refusal, 0, "distance {h} × {w}");
        out
    }

    pub fn fill(&mut self, colours: &[f64], mask: &[u8], h: usize, w: usize) -> &[f64] {
        let out = &mut self.filled[..3 * h * w];
        let refusal = raw::fill(colours, mask, h, w, &mut self.numbers, out);
        assert_eq!(refusal, 0, "fill {h} × {w}");
        out
    }
}

/// Outputs and work buffers of ground, growth, next pass and cut.
pub struct CutLent {
    pub nearest: Vec<u32>,
    pub shallow: Vec<u8>,
    pub deep: Vec<u8>,
    pub marks: Vec<u8>,
    pub mask: Vec<u8>,
    pub weights: Vec<f64>,
}

impl CutLent {
    /// Buffers for pictures of sides `h` and `w` at most, filled with a pattern.
    pub fn new(h: usize, w: usize) -> CutLent {
        let n = h * w;
        let work = stand::work_len(h, w).expect("sides from 1 to 4096");
        CutLent {
            nearest: vec![7; work],
            shallow: vec![7; work],
            deep: vec![7; work],
            marks: vec![7; work],
            mask: vec![7; n],
            weights: vec![7.5; n],
        }
    }

    pub fn ground(
        &mut self,
        colours: &[f64],
        h: usize,
        w: usize,
        tolerance: f64,
    ) -> (StandGround, &[u8]) {
        let out = &mut self.mask[..h * w];
        let answer = raw::ground(colours, h, w, tolerance, &mut self.nearest, out);
        assert_eq!(answer.refusal, 0, "ground {h} × {w}");
        (answer, out)
    }

    /// The same with the card's colour; the answer, refused or not.
    pub fn ground_with_colour(
        &mut self,
        colours: &[f64],
        h: usize,
        w: usize,
        text: impl AsRef<[u8]>,
        tolerance: f64,
    ) -> (StandGround, &[u8]) {
        let (text, out) = (text.as_ref(), &mut self.mask[..h * w]);
        let work = &mut self.nearest;
        let answer = raw::ground_with_colour(colours, h, w, text, tolerance, work, out);
        (answer, out)
    }

    /// The work buffers, and outputs of n pixels: the mask and the weights.
    fn lend(&mut self, n: usize) -> (Work<'_>, &mut [u8], &mut [f64]) {
        let work = Work {
            nearest: &mut self.nearest,
            shallow: &mut self.shallow,
            deep: &mut self.deep,
            marks: &mut self.marks,
        };
        (work, &mut self.mask[..n], &mut self.weights[..n])
    }

    pub fn growth(
        &mut self,
        colours: &[f64],
        background: &[u8],
        h: usize,
        w: usize,
        reference: Rgb,
        passes: i64,
    ) -> &[u8] {
        let (mut work, out, _) = self.lend(h * w);
        let refusal = raw::growth(colours, background, h, w, reference, passes, &mut work, out);
        assert_eq!(refusal, 0, "growth {h} × {w}");
        out
    }

    pub fn next_pass(
        &mut self,
        colours: &[f64],
        background: &[u8],
        h: usize,
        w: usize,
        reference: Rgb,
    ) -> (StandNextPass, &[u8]) {
        let (mut work, out, _) = self.lend(h * w);
        let answer = raw::next_pass(colours, background, h, w, reference, &mut work, out);
        assert_eq!(answer.refusal, 0, "next pass {h} × {w}");
        (answer, out)
    }

    /// What a call of the cut answers, refused or not, with mask and weights.
    fn cut_by(
        &mut self,
        n: usize,
        call: impl FnOnce(&mut Work, &mut [u8], &mut [f64]) -> StandCut,
    ) -> (StandCut, &[u8], &[f64]) {
        let (mut work, mask, weights) = self.lend(n);
        let answer = call(&mut work, mask, weights);
        (answer, mask, weights)
    }

    /// The answer of the cut.
    pub fn cut(
        &mut self,
        colours: &[f64],
        alpha: &[u8],
        h: usize,
        w: usize,
        settings: Settings,
    ) -> (StandCut, &[u8], &[f64]) {
        self.cut_by(h * w, |work, mask, weights| {
            raw::cut(colours, alpha, h, w, settings, work, mask, weights)
        })
    }

    /// The same with the card's colour.
    pub fn cut_with_colour(
        &mut self,
        colours: &[f64],
        alpha: &[u8],
        h: usize,
        w: usize,
        text: impl AsRef<[u8]>,
        settings: Settings,
    ) -> (StandCut, &[u8], &[f64]) {
        let text = text.as_ref();
        self.cut_by(h * w, |work, mask, weights| {
            raw::cut_with_colour(colours, alpha, h, w, text, settings, work, mask, weights)
        })
    }
}
