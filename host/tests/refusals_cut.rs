//! Refusals of ground, growth, next pass and cut through the C interface: the number, and every lent buffer as
//! it was. The buffers are patterned, and compared by bits after the call.

#[path = "../support/buffer.rs"]
mod buffer;
#[path = "../support/masks.rs"]
mod masks;

use buffer::{Bits, Buffer};
use masks::Random;
use stand::raw::{self, StandCut, StandGround, StandNextPass, Work};
use stand::{Picture, Refusal, Rgb, Settings};
use std::io::Write;

/// What a slice is to its call, with the numbers a pixel of its plane.
#[derive(Clone, Copy, Debug, PartialEq)]
enum Kind {
    Input(usize),
    Output,
    Work,
}

#[derive(Clone, Copy, Debug, PartialEq)]
enum Call {
    Ground,
    GroundWithColour,
    Growth,
    NextPass,
    Cut,
    CutWithColour,
}

const CALLS: [Call; 6] = [
    Call::Ground,
    Call::GroundWithColour,
    Call::Growth,
    Call::NextPass,
    Call::Cut,
    Call::CutWithColour,
];

/// The numbers in the order in which they are tested.
const ORDER: [u32; 7] = [1, 2, 3, 11, 4, 5, 6];

impl Call {
    /// The slices of the call, in the order of the parameters; the colours are the first. The text
    /// of the card's colour is not among them.
    fn kinds(self) -> &'static [Kind] {
        use Kind::{Input, Output, Work};
        match self {
            Call::Ground | Call::GroundWithColour => &[Input(3), Work, Output],
            Call::Growth | Call::NextPass => &[Input(3), Input(1), Work, Work, Work, Work, Output],
            Call::Cut | Call::CutWithColour => {
                &[Input(3), Input(1), Work, Work, Work, Work, Output, Output]
            }
        }
    }

    /// Whether the call is given a reference, and no tolerance.
    fn has_reference(self) -> bool {
        matches!(self, Call::Growth | Call::NextPass)
    }

    /// Whether the call can answer this number.
    fn answers(self, number: u32) -> bool {
        match number {
            11 => matches!(self, Call::GroundWithColour | Call::CutWithColour),
            5 => !self.has_reference(),
            6 => matches!(self, Call::Cut | Call::CutWithColour),
            _ => true,
        }
    }

    /// The lengths that are accepted; for sides that are not, any.
    fn fitting(self, h: usize, w: usize) -> Vec<usize> {
        let n = h.wrapping_mul(w);
        let around = h.wrapping_add(w).wrapping_mul(2);
        let room = n.wrapping_mul(2).wrapping_add(around).wrapping_add(16);
        let length = |kind: &Kind| match *kind {
            Kind::Input(each) => n.wrapping_mul(each),
            Kind::Output => n,
            Kind::Work => room,
        };
        self.kinds().iter().map(length).collect()
    }
}

/// A call with what it is given.
#[derive(Clone, Debug)]
struct Given {
    call: Call,
    h: usize,
    w: usize,
    lengths: Vec<usize>,
    /// Numbers that replace colours, by place.
    colours: Vec<(usize, f64)>,
    reference: Rgb,
    /// The text of the card's colour.
    text: Vec<u8>,
    settings: Settings,
    /// The largest alpha, and whether every pixel has it.
    alpha: u8,
    even: bool,
}

impl Given {
    /// A call that is accepted.
    fn good(call: Call, h: usize, w: usize) -> Given {
        Given {
            call,
            h,
            w,
            lengths: call.fitting(h, w),
            colours: Vec::new(),
            reference: Rgb {
                r: 0.0,
                g: 0.5,
                b: 1.0,
            },
            text: b"40fF0a".to_vec(),
            settings: Settings::default(),
            alpha: 255,
            even: false,
        }
    }

    /// Whether what this number stands for is wrong. It is asked in the order of the numbers, so that
    /// the sides are right where the lengths are asked for.
    fn is_wrong(&self, number: u32) -> bool {
        let n = self.h.wrapping_mul(self.w);
        let fitting = self.call.fitting(self.h, self.w);
        let mut slices = self.call.kinds().iter().zip(&self.lengths).zip(&fitting);
        let out = |x: f64| !(0.0..=1.0).contains(&x);
        match number {
            1 => [self.h, self.w]
                .iter()
                .any(|side| !(1..=4096).contains(side)),
            2 => slices.any(|((kind, len), fits)| matches!(kind, Kind::Input(_)) && len != fits),
            3 => slices.any(|((kind, &len), &fits)| match kind {
                Kind::Input(_) => false,
                Kind::Output => len != n,
                Kind::Work => len < fits,
            }),
            11 => self.text.len() != 6 || !self.text.iter().all(u8::is_ascii_hexdigit),
            4 => {
                let Rgb { r, g, b } = self.reference;
                let reference = self.call.has_reference() && [r, g, b].into_iter().any(out);
                self.colours.iter().any(|&(_, x)| out(x)) || reference
            }
            5 => !self.settings.key_bg_tolerance.is_finite(),
            _ => i64::from(self.alpha) < self.settings.alpha_threshold,
        }
    }

    /// The number of RULES.
    fn number(&self) -> u32 {
        let wrong = |&number: &u32| self.call.answers(number) && self.is_wrong(number);
        ORDER.into_iter().find(wrong).unwrap_or(0)
    }

    /// The lengths of colours, background or alpha, the four work buffers, the first output and the
    /// weights; 0 for what the call has not.
    fn each(&self) -> [usize; 8] {
        match self.lengths[..] {
            [colours, work, out] => [colours, 0, work, 0, 0, 0, out, 0],
            [a, b, c, d, e, f, g] => [a, b, c, d, e, f, g, 0],
            [a, b, c, d, e, f, g, h] => [a, b, c, d, e, f, g, h],
            _ => panic!("{self:?}"),
        }
    }

    /// Patterned buffers with what the call is given.
    fn lend(&self, random: &mut Random) -> Lent {
        let [colours, input, nearest, shallow, deep, marks, out, weights] = self.each();
        let given = |at: Option<usize>| self.colours.iter().find(|(place, _)| Some(*place) == at);
        let few = [0.0, 0.25, 1.0, -0.0];
        let most = u64::from(self.alpha) + 1;
        // The alpha reaches its most at one pixel.
        let top = Some(random.below(input.max(1)));
        Lent {
            colours: filled(colours, |at| {
                given(at).map_or_else(|| few[random.below(4)], |&(_, x)| x)
            }),
            input: filled(input, |at| match at == top || self.even {
                true => self.alpha,
                false => (random.next() % most) as u8,
            }),
            // Beside the text there are digits too.
            text: filled(self.text.len(), |at| match at {
                Some(at) => self.text[at],
                None => b"0123456789abcdefABCDEF"[random.below(22)],
            }),
            nearest: filled(nearest, |_| random.next() as u32),
            bytes: [shallow, deep, marks, out].map(|len| filled(len, |_| random.next() as u8)),
            // Any bits, also of what is no number.
            weights: filled(weights, |_| f64::from_bits(random.next())),
        }
    }

    /// Runs the call on patterned buffers and holds it to its number.
    fn hold(&self, random: &mut Random) -> u32 {
        let mut lent = self.lend(random);
        let number = lent.answer(self);
        assert_eq!(number, self.number(), "{self:?}");
        let inputs = lent.colours.unchanged() && lent.input.unchanged() && lent.text.unchanged();
        assert!(inputs, "an input, {self:?}");
        if number == 0 {
            assert!(lent.bytes.iter().all(|b| b.unchanged_beside()), "{self:?}");
            let beside = lent.nearest.unchanged_beside() && lent.weights.unchanged_beside();
            assert!(beside, "{self:?}");
        } else {
            assert!(lent.bytes.iter().all(|b| b.unchanged()), "{self:?}");
            let all = lent.nearest.unchanged() && lent.weights.unchanged();
            assert!(all, "{self:?}");
        }
        number
    }
}

/// A buffer in which each place of the lent part, and `None` beside it, has its own pattern.
fn filled<T: Bits>(len: usize, mut pattern: impl FnMut(Option<usize>) -> T) -> Buffer<T> {
    let mut next = 0;
    Buffer::new(len, || {
        next += 1;
        let at = (next - 1usize).checked_sub(buffer::BESIDE);
        pattern(at.filter(|at| *at < len))
    })
}

/// All that a call is lent.
struct Lent {
    colours: Buffer<f64>,
    /// The background or the alpha.
    input: Buffer<u8>,
    text: Buffer<u8>,
    nearest: Buffer<u32>,
    /// Shallow, deep and marks, and the first output.
    bytes: [Buffer<u8>; 4],
    weights: Buffer<f64>,
}

impl Lent {
    /// The number that the call answers; what else it answers is as a refusal asks for.
    fn answer(&mut self, given: &Given) -> u32 {
        let Given {
            call,
            h,
            w,
            settings,
            ..
        } = *given;
        let [shallow, deep, marks, out] = &mut self.bytes;
        let (colours, input) = (&*self.colours.lent(), &*self.input.lent());
        let (text, out, weights) = (&*self.text.lent(), out.lent(), self.weights.lent());
        let mut work = Work {
            nearest: self.nearest.lent(),
            shallow: shallow.lent(),
            deep: deep.lent(),
            marks: marks.lent(),
        };
        let tolerance = settings.key_bg_tolerance;
        let (reference, passes) = (given.reference, settings.key_bg_fringe);
        let work = &mut work;
        match call {
            Call::Ground => ground_number(raw::ground(colours, h, w, tolerance, work.nearest, out)),
            Call::GroundWithColour => ground_number(raw::ground_with_colour(
                colours,
                h,
                w,
                text,
                tolerance,
                work.nearest,
                out,
            )),
            Call::Growth => raw::growth(colours, input, h, w, reference, passes, work, out),
            Call::NextPass => {
                next_number(raw::next_pass(colours, input, h, w, reference, work, out))
            }
            Call::Cut => cut_number(raw::cut(colours, input, h, w, settings, work, out, weights)),
            Call::CutWithColour => cut_number(raw::cut_with_colour(
                colours, input, h, w, text, settings, work, out, weights,
            )),
        }
    }
}

/// The number of an answer, in which nothing is found where it is refused, and whose reference is +0
/// where nothing is found.
fn ground_number(answer: StandGround) -> u32 {
    let Rgb { r, g, b } = answer.reference;
    if !answer.found {
        assert_eq!([r, g, b].map(f64::to_bits), [0; 3], "{answer:?}");
    }
    assert!(answer.refusal == 0 || !answer.found, "{answer:?}");
    answer.refusal
}

/// The number of an answer, in which nothing joins where it is refused.
fn next_number(answer: StandNextPass) -> u32 {
    assert!(answer.refusal == 0 || answer.joins == 0, "{answer:?}");
    answer.refusal
}

/// The number of an answer, which has nothing else in it where it is refused.
fn cut_number(answer: StandCut) -> u32 {
    let StandCut {
        keyed,
        y0,
        y1,
        x0,
        x1,
        ..
    } = answer;
    if answer.refusal != 0 {
        assert_eq!((keyed, [y0, y1, x0, x1]), (false, [0; 4]), "{answer:?}");
    }
    answer.refusal
}

/// How often each number was answered.
#[derive(Default)]
struct Count([u64; 12]);

impl Count {
    fn hold(&mut self, random: &mut Random, given: &Given) {
        self.0[given.hold(random) as usize] += 1;
    }

    fn say(&self, what: &str) {
        let accepted = self.0[0];
        let refused = ORDER.map(|number| self.0[number as usize]);
        let line = format!(
            "ground, growth, next pass and cut, {what}: {accepted} accepted, refused {ORDER:?}: {refused:?}\n"
        );
        std::io::stderr().write_all(line.as_bytes()).unwrap();
    }
}

/// Every slice one short, fitting or one too long, the text too, in every combination.
#[test]
fn every_length_by_one_either_way() {
    let mut random = Random(51);
    let mut count = Count::default();
    for call in CALLS {
        for (h, w) in [(1, 1), (1, 2), (2, 1), (3, 5), (7, 4), (1, 33), (33, 1)] {
            let good = Given::good(call, h, w);
            let slices = good.lengths.len() + usize::from(call.answers(11));
            for which in 0..3usize.pow(slices as u32) {
                let mut rest = which;
                let mut given = good.clone();
                for len in &mut given.lengths {
                    *len = *len + rest % 3 - 1;
                    rest /= 3;
                }
                if call.answers(11) {
                    given.text.resize(5 + rest % 3, b'0');
                }
                count.hold(&mut random, &given);
            }
        }
    }
    count.say("every combination of lengths one short, fitting, one too long");
    assert!([0, 2, 3, 11].iter().all(|&number| count.0[number] > 0));
}

/// Single lengths that are far off.
#[test]
fn lengths_that_are_far_off() {
    let mut random = Random(52);
    let mut count = Count::default();
    for call in CALLS {
        for (h, w) in [(1, 1), (4, 4), (2, 9), (31, 20)] {
            let good = Given::good(call, h, w);
            let n = h * w;
            for at in 0..good.lengths.len() {
                let fitting = good.lengths[at];
                for len in [0, 1, n / 2, n, 2 * n, 3 * n, fitting / 2, 2 * fitting] {
                    let mut given = good.clone();
                    given.lengths[at] = len;
                    count.hold(&mut random, &given);
                }
            }
        }
    }
    count.say("lengths far off");
}

/// Sides outside 1 to 4096, with lengths that fit a product which wraps among them.
#[test]
fn sides_outside_the_limit() {
    let mut random = Random(53);
    let mut count = Count::default();
    let sides = [
        0,
        1,
        3,
        4096,
        4097,
        65_536,
        1 << 32,
        1 << 63,
        (1 << 63) + 1,
        0x5555_5555_5555_5556, // three of them are 2
        usize::MAX - 1,
        usize::MAX,
    ];
    for call in CALLS {
        for h in sides {
            for w in sides {
                if (1..=4096).contains(&h) && (1..=4096).contains(&w) {
                    continue;
                }
                let slices = call.kinds().len();
                let mut all = vec![vec![0; slices], vec![1; slices], vec![100; slices]];
                let wrapped = call.fitting(h, w);
                if wrapped.iter().all(|&len| len < 100_000) {
                    all.push(wrapped);
                }
                for lengths in all {
                    let good = Given::good(call, 1, 1);
                    let given = Given {
                        h,
                        w,
                        lengths,
                        ..good
                    };
                    count.hold(&mut random, &given);
                }
            }
        }
        for (h, w) in [(1, 4096), (4096, 1), (4096, 16)] {
            count.hold(&mut random, &Given::good(call, h, w));
        }
        for (h, w) in [(1, 4097), (4097, 1)] {
            count.hold(&mut random, &Given::good(call, h, w));
        }
    }
    count.say("sides outside and at the limit");
    assert_eq!(count.0[0], 3 * CALLS.len() as u64);
}

/// Numbers that are no colour.
const NO_COLOURS: [f64; 10] = [
    f64::NAN,
    f64::INFINITY,
    f64::NEG_INFINITY,
    -5e-324,
    -1.0,
    -f64::MIN_POSITIVE,
    1.000_000_000_000_000_2,
    2.0,
    f64::MAX,
    f64::MIN,
];

/// Numbers that are.
const COLOURS: [f64; 8] = [
    0.0,
    -0.0,
    5e-324,
    f64::MIN_POSITIVE,
    1e-300,
    0.5,
    0.999_999_999_999_999_9,
    1.0,
];

/// One number of one pixel, at every place.
#[test]
fn colours_outside_their_range() {
    let mut random = Random(54);
    let mut count = Count::default();
    let quiet = f64::from_bits(0xfff8_0000_0000_0001);
    let signalling = f64::from_bits(0x7ff0_0000_0000_0001);
    let numbers: Vec<f64> = NO_COLOURS
        .into_iter()
        .chain(COLOURS)
        .chain([quiet, signalling])
        .collect();
    for call in CALLS {
        for (h, w) in [(1, 1), (3, 4), (5, 3), (9, 30)] {
            for at in 0..3 * h * w {
                for &x in &numbers {
                    if h * w > 20 && random.below(10) > 0 {
                        continue;
                    }
                    let mut given = Given::good(call, h, w);
                    given.colours = vec![(at, x)];
                    given.settings.key_bg = random.below(2) == 0;
                    given.settings.key_bg_fringe = random.below(4) as i64 - 1;
                    count.hold(&mut random, &given);
                }
            }
        }
    }
    for &x in &numbers {
        for channel in 0..3 {
            for p in [-1, 0, 1, i64::MAX] {
                for call in CALLS.into_iter().filter(|call| call.has_reference()) {
                    let mut given = Given::good(call, 4, 5);
                    match channel {
                        0 => given.reference.r = x,
                        1 => given.reference.g = x,
                        _ => given.reference.b = x,
                    }
                    given.settings.key_bg_fringe = p;
                    count.hold(&mut random, &given);
                }
            }
        }
    }
    count.say("numbers that are no colour, and that are");
    assert!(count.0[0] > 1000 && count.0[4] > 1000);
}

/// Tolerances that are infinite or no number, and finite ones; whatever the other settings.
#[test]
fn tolerances() {
    let mut random = Random(55);
    let mut count = Count::default();
    let tolerances = [
        f64::NAN,
        -f64::NAN,
        f64::from_bits(0x7ff0_0000_0000_0001),
        f64::INFINITY,
        f64::NEG_INFINITY,
        f64::MAX,
        f64::MIN,
        -1.0,
        -0.0,
        0.0,
        5e-324,
        0.03125,
    ];
    for call in CALLS.into_iter().filter(|call| call.answers(5)) {
        for tolerance in tolerances {
            for bits in 0..8 {
                for p in [-1, 0, 3] {
                    let mut given = Given::good(call, 6, 5);
                    given.settings = Settings {
                        alpha_threshold: [128, -5][bits & 1],
                        key_bg: bits & 2 != 0,
                        key_bg_fringe: p,
                        key_bg_tolerance: tolerance,
                        crop_to_alpha: bits & 4 != 0,
                    };
                    count.hold(&mut random, &given);
                }
            }
        }
    }
    count.say("tolerances");
    assert!(count.0[0] > 0 && count.0[5] > 0);
}

/// No alpha reaches the threshold; whatever the other settings.
#[test]
fn thresholds() {
    let mut random = Random(56);
    let mut count = Count::default();
    for alpha in [0, 1, 127, 128, 254, 255] {
        for threshold in [
            i64::MIN,
            -5,
            0,
            1,
            127,
            128,
            129,
            254,
            255,
            256,
            257,
            i64::MAX,
        ] {
            for bits in 0..8 {
                let call = [Call::Cut, Call::CutWithColour][bits & 1];
                let mut given = Given::good(call, 5, 7);
                given.alpha = alpha;
                given.settings.alpha_threshold = threshold;
                given.settings.key_bg = bits & 2 != 0;
                given.settings.crop_to_alpha = bits & 4 != 0;
                count.hold(&mut random, &given);
            }
        }
    }
    count.say("thresholds");
    assert!(count.0[0] > 0 && count.0[6] > 0);
}

/// Texts that are no colour of the card.
const NO_TEXTS: [&str; 14] = [
    "",
    "0",
    "fffff",
    "fffffff",
    "ffffff\0",
    "\0ffffff",
    "#ffffff",
    "#fffff",
    " fffff",
    "fffff ",
    "+fffff",
    "-00000",
    "0x1234",
    "\u{ff16}abc",
];

/// The text of the card's colour: every byte in the place of every digit, and texts of other lengths;
/// with keying on and off, on pictures that are opaque and that are not.
#[test]
fn texts() {
    let mut random = Random(58);
    let mut count = Count::default();
    let mut hold = |text: &[u8]| {
        for call in [Call::GroundWithColour, Call::CutWithColour] {
            for bits in 0..4 {
                let mut given = Given::good(call, 4, 3);
                given.text = text.to_vec();
                given.settings.key_bg = bits & 1 != 0;
                given.even = bits & 2 != 0;
                count.hold(&mut random, &given);
            }
        }
    };
    for byte in 0..=255 {
        for place in 0..6 {
            let mut text = *b"F4f1e8";
            text[place] = byte;
            hold(&text);
        }
    }
    for text in NO_TEXTS {
        hold(text.as_bytes());
    }
    for len in [0, 1, 2, 3, 4, 5, 7, 8, 12, 100] {
        hold(&vec![b'c'; len]);
    }
    count.say("texts of the card's colour");
    assert_eq!(count.0[0], 8 * 6 * 22);
}

/// Every combination of the faults: the first in the order of the numbers is answered.
#[test]
fn several_faults() {
    let mut random = Random(57);
    let mut count = Count::default();
    for call in CALLS {
        for faults in 0..128u32 {
            for round in 0..40 {
                let wrong = |number: u32| {
                    let at = ORDER.iter().position(|&own| own == number);
                    faults >> at.expect("a number") & 1 == 1
                };
                let mut given = faulty(&mut random, call, wrong);
                given.settings.key_bg = round % 2 == 0;
                given.settings.crop_to_alpha = round % 4 < 2;
                given.settings.key_bg_fringe = round as i64 % 3 - 1;
                given.even = round % 8 < 4;
                let first = |&number: &u32| call.answers(number) && wrong(number);
                let expected = ORDER.into_iter().find(first).unwrap_or(0);
                assert_eq!(given.number(), expected, "{given:?}");
                count.hold(&mut random, &given);
            }
        }
    }
    count.say("every combination of faults");
    let all = ORDER.iter().chain(&[0]);
    assert!(all.into_iter().all(|&number| count.0[number as usize] > 0));
}

/// A call in which all is wrong that these numbers stand for.
fn faulty(random: &mut Random, call: Call, wrong: impl Fn(u32) -> bool) -> Given {
    let (h, w) = (1 + random.below(6), 1 + random.below(6));
    let mut given = Given::good(call, h, w);
    if wrong(1) {
        let side = [0, 4097, usize::MAX][random.below(3)];
        match random.below(2) {
            0 => given.h = side,
            _ => given.w = side,
        }
    }
    for (at, kind) in call.kinds().iter().enumerate() {
        let input = matches!(kind, Kind::Input(_));
        if (input && wrong(2)) || (!input && wrong(3)) {
            given.lengths[at] -= 1;
        }
    }
    if wrong(11) {
        given.text = NO_TEXTS[random.below(NO_TEXTS.len())].into();
    }
    if wrong(4) {
        let at = random.below(given.lengths[0].max(1));
        given.colours = vec![(at, NO_COLOURS[random.below(NO_COLOURS.len())])];
        given.reference.g = f64::NAN;
    }
    if wrong(5) {
        let of = [f64::NAN, f64::INFINITY, f64::NEG_INFINITY];
        given.settings.key_bg_tolerance = of[random.below(3)];
    }
    if wrong(6) {
        given.settings.alpha_threshold = 256 + random.below(9) as i64;
    }
    given
}

/// What ground and cut with a card's colour refuse: the same as without one, and 11 after 3 where the
/// text is none.
fn with_colour(picture: &Picture, settings: &Settings, plain: [Option<Refusal>; 2]) {
    let &Picture { colours, h, w, .. } = picture;
    let of = |text: &str| {
        let tolerance = settings.key_bg_tolerance;
        [
            stand::ground_with_colour(colours, h, w, text, tolerance).err(),
            stand::cut_with_colour(picture, text, settings).err(),
        ]
    };
    for text in ["F4F1E8", "f4f1e8", "000000", "c0fFeE"] {
        assert_eq!(of(text), plain, "{text}");
    }
    let refused = plain.map(|number| match number {
        Some(Refusal::Side | Refusal::InputLength | Refusal::Room) => number,
        _ => Some(Refusal::CardColour),
    });
    for text in NO_TEXTS {
        assert_eq!(of(text), refused, "{text}");
    }
}

/// The safe functions answer the same as typed errors.
#[test]
fn refusals_of_the_safe_functions() {
    let all = |colours: &[f64], alpha: &[u8], h, w, reference, settings: Settings| {
        let picture = Picture {
            colours,
            alpha,
            h,
            w,
        };
        let [ground, growth, cut] = [
            stand::ground(colours, h, w, settings.key_bg_tolerance).err(),
            stand::growth(colours, alpha, h, w, reference, settings.key_bg_fringe).err(),
            stand::cut(&picture, &settings).err(),
        ];
        let next = stand::next_pass(colours, alpha, h, w, reference).err();
        assert_eq!(next, growth, "next pass");
        with_colour(&picture, &settings, [ground, cut]);
        [ground, growth, cut]
    };
    let (good, grey) = (
        Settings::default(),
        Rgb {
            r: 0.5,
            g: 0.5,
            b: 0.5,
        },
    );
    assert_eq!(all(&[0.5; 18], &[255; 6], 2, 3, grey, good), [None; 3]);
    for side in [0, 4097, 1 << 32, 1 << 63, usize::MAX] {
        for (h, w) in [(side, 1), (1, side), (side, side), (side, 4097)] {
            let refused = [Some(Refusal::Side); 3];
            assert_eq!(all(&[0.5; 18], &[255; 6], h, w, grey, good), refused);
            assert_eq!(all(&[], &[], h, w, grey, good), refused);
        }
    }
    for len in [0, 6, 17, 19] {
        let refused = [Some(Refusal::InputLength); 3];
        assert_eq!(all(&vec![0.5; len], &[255; 6], 2, 3, grey, good), refused);
    }
    for len in [0, 5, 7] {
        let refused = [None, Some(Refusal::InputLength), Some(Refusal::InputLength)];
        assert_eq!(all(&[0.5; 18], &vec![255; len], 2, 3, grey, good), refused);
    }
    for x in NO_COLOURS {
        let mut colours = [0.5; 18];
        colours[17] = x;
        let refused = [Some(Refusal::Colour); 3];
        assert_eq!(all(&colours, &[255; 6], 2, 3, grey, good), refused);
        let refused = [None, Some(Refusal::Colour), None];
        let reference = Rgb { b: x, ..grey };
        assert_eq!(all(&[0.5; 18], &[255; 6], 2, 3, reference, good), refused);
    }
    for key_bg_tolerance in [f64::NAN, f64::INFINITY, f64::NEG_INFINITY] {
        let settings = Settings {
            key_bg_tolerance,
            key_bg: false,
            ..good
        };
        let refused = [Some(Refusal::Tolerance), None, Some(Refusal::Tolerance)];
        assert_eq!(all(&[0.5; 18], &[0; 6], 2, 3, grey, settings), refused);
    }
    let refused = [None, None, Some(Refusal::Alpha)];
    assert_eq!(all(&[0.5; 18], &[127; 6], 2, 3, grey, good), refused);
    for refusal in [
        Refusal::Colour,
        Refusal::Tolerance,
        Refusal::Alpha,
        Refusal::CardColour,
    ] {
        assert_eq!(Refusal::check(refusal.number()), Err(refusal));
        let sentence = refusal.to_string();
        let start = format!("refused {}: ", refusal.number());
        assert!(sentence.starts_with(&start), "{sentence}");
    }
}
