//! Every export in a thread of 64 KiB of stack, on planes with sides of 4096: what it answers and
//! writes is what it does with more. A call that needs more stack ends the process.

#[path = "../support/masks.rs"]
mod masks;
#[path = "../support/pictures.rs"]
mod pictures;

use masks::Random;
use stand::raw::{self, StandCut, Work};
use stand::{Rgb, Settings};
use std::io::Write;
use std::thread;

/// What a thread has, its own bookkeeping included.
const STACK: usize = 64 * 1024;

/// Runs this in a thread of `STACK` bytes, and in one that has plenty: the two are the same.
fn same_in_little<T: PartialEq + Send>(what: &str, run: impl Fn() -> T + Sync) -> T {
    let plenty = run();
    let little = thread::scope(|scope| {
        let builder = thread::Builder::new().stack_size(STACK);
        let thread = builder.spawn_scoped(scope, &run).expect("a thread");
        thread.join().expect("an answer")
    });
    assert!(plenty == little, "{what}");
    little
}

fn shapes() -> [(usize, usize); 4] {
    [(1, 4096), (4096, 1), (96, 4096), (4096, 96)]
}

/// Buffers are made on the heap, outside the call.
fn room<T: Clone>(h: usize, w: usize, filling: T) -> Vec<T> {
    vec![filling; stand::work_len(h, w).expect("sides that are accepted")]
}

#[test]
fn calls_on_masks() {
    let mut random = Random(71);
    for (h, w) in shapes() {
        let n = h * w;
        let all = [
            ("empty", masks::empty(h, w)),
            ("full", masks::full(h, w)),
            ("single", masks::single(h, w)),
            ("half", random.mask(n, 500)),
            ("few", random.mask(n, 2)),
            ("checkerboard", masks::checkerboard(h, w)),
            ("spiral", masks::spiral(h, w)),
            ("comb", masks::comb(h, w)),
        ];
        let colours: Vec<f64> = (0..3 * n).map(|i| i as f64).collect();
        for (kind, mask) in &all {
            let shown = |call: &str| format!("{call}, {h} × {w}, {kind}");
            let (refusal, ..) = same_in_little(&shown("nearest"), || {
                let (mut work, mut rows, mut cols) = (room(h, w, 7), vec![7; n], vec![7; n]);
                let refusal = raw::nearest(mask, h, w, &mut work, &mut rows, &mut cols);
                (refusal, rows, cols)
            });
            assert_eq!(refusal, 0);
            let (labels, _) = same_in_little(&shown("labels"), || {
                let (mut parents, mut labels) = (room(h, w, 7), vec![7; n]);
                let answer = raw::labels(mask, h, w, &mut parents, &mut labels);
                (answer, labels)
            });
            assert_eq!(labels.refusal, 0);
            for k in [0, 1, 40, u64::MAX] {
                let (refusal, _) = same_in_little(&shown("squares"), || {
                    let (mut work, mut out) = (room(h, w, 7), vec![7; n]);
                    let refusal = raw::squares(mask, h, w, k, &mut work, &mut out);
                    (refusal, out)
                });
                assert_eq!(refusal, 0);
            }
            let (refusal, _) = same_in_little(&shown("distance"), || {
                let (mut work, mut out) = (room(h, w, 7), vec![7; n]);
                let refusal = raw::distance(mask, h, w, &mut work, &mut out);
                (refusal, out)
            });
            assert_eq!(refusal, 0);
            let (refusal, _) = same_in_little(&shown("fill"), || {
                let (mut work, mut out) = (room(h, w, 7), vec![7.5; 3 * n]);
                let refusal = raw::fill(&colours, mask, h, w, &mut work, &mut out);
                (refusal, out)
            });
            assert_eq!(refusal, 0);
        }
    }
}

#[test]
fn calls_on_pictures() {
    let mut random = Random(72);
    let (mut keyed, mut coloured) = (0, 0);
    for (h, w) in shapes() {
        let n = h * w;
        let all = [
            ("badge", pictures::badge(&mut random, h, w, false)),
            ("dusty badge", pictures::badge(&mut random, h, w, true)),
            ("noise", pictures::noise(&mut random, h, w, 30)),
            ("dense noise", pictures::noise(&mut random, h, w, 300)),
        ];
        let alpha = vec![255; n];
        for (kind, colours) in &all {
            let shown = |call: &str| format!("{call}, {h} × {w}, {kind}");
            let settings = Settings {
                key_bg_fringe: 3,
                ..Settings::default()
            };
            let (ground, background) = same_in_little(&shown("ground"), || {
                let (mut work, mut out) = (room(h, w, 7), vec![7; n]);
                let tolerance = settings.key_bg_tolerance;
                let answer = raw::ground(colours, h, w, tolerance, &mut work, &mut out);
                (answer, out)
            });
            assert_eq!(ground.refusal, 0);
            let reference = match ground.found {
                true => ground.reference,
                false => Rgb::default(),
            };
            let back = &background[..];
            let refusal = passes_in_little(&shown("growth"), h, w, |work, out| {
                raw::growth(colours, back, h, w, reference, 3, work, out)
            });
            assert_eq!(refusal, 0);
            let next = passes_in_little(&shown("next pass"), h, w, |work, out| {
                raw::next_pass(colours, back, h, w, reference, work, out)
            });
            assert_eq!(next.refusal, 0);
            let cut = cut_in_little(&shown("cut"), h, w, |work, mask, weights| {
                raw::cut(colours, &alpha, h, w, settings, work, mask, weights)
            });
            assert_eq!(cut.refusal, 0);
            keyed += cut.keyed as u32;
            let cut = with_colour(&shown, colours, h, w, settings);
            coloured += cut.keyed as u32;
        }
    }
    let line = format!(
        "every export in {STACK} bytes of stack; {keyed} of 16 pictures keyed, {coloured} with a \
         given colour\n"
    );
    std::io::stderr().write_all(line.as_bytes()).unwrap();
    assert!(keyed.min(coloured) >= 4, "hardly a picture was keyed");
}

/// What a call with the work buffers of growth answers in little stack, with its output as in plenty.
fn passes_in_little<T: PartialEq + Send>(
    what: &str,
    h: usize,
    w: usize,
    call: impl Fn(&mut Work, &mut [u8]) -> T + Sync,
) -> T {
    let (answer, _) = same_in_little(what, || {
        let mut nearest = room(h, w, 7);
        let [mut shallow, mut deep, mut marks] = [1, 2, 3].map(|i| room(h, w, i));
        let mut work = Work {
            nearest: &mut nearest,
            shallow: &mut shallow,
            deep: &mut deep,
            marks: &mut marks,
        };
        let mut out = vec![7; h * w];
        let answer = call(&mut work, &mut out);
        (answer, out)
    });
    answer
}

/// What a call of the cut answers in little stack, with mask and weights as in plenty.
fn cut_in_little(
    what: &str,
    h: usize,
    w: usize,
    call: impl Fn(&mut Work, &mut [u8], &mut [f64]) -> StandCut + Sync,
) -> StandCut {
    let (answer, _) = passes_in_little(what, h, w, |work, mask| {
        let mut weights = vec![7.5; h * w];
        let answer = call(work, mask, &mut weights);
        (answer, weights)
    });
    answer
}

/// Ground and cut with the card's colour, which is the white of the pictures here.
fn with_colour(
    shown: &dyn Fn(&str) -> String,
    colours: &[f64],
    h: usize,
    w: usize,
    settings: Settings,
) -> StandCut {
    let n = h * w;
    let (text, alpha) = (b"FdfDfD", vec![255; n]);
    let (ground, _) = same_in_little(&shown("ground with colour"), || {
        let (mut work, mut out) = (room(h, w, 7), vec![7; n]);
        let tolerance = settings.key_bg_tolerance;
        let answer = raw::ground_with_colour(colours, h, w, text, tolerance, &mut work, &mut out);
        (answer, out)
    });
    assert_eq!(ground.refusal, 0);
    let cut = cut_in_little(&shown("cut with colour"), h, w, |work, mask, weights| {
        raw::cut_with_colour(colours, &alpha, h, w, text, settings, work, mask, weights)
    });
    assert_eq!(cut.refusal, 0);
    assert_eq!(cut.keyed, ground.found);
    cut
}
