//! Refusals through the C interface: the number, and every lent buffer as it was.
//!
//! Each buffer lies in the middle of a longer one. All of it is filled with a pattern before the
//! call and compared after it: after a refusal nothing has changed, after an accepted call no input
//! and nothing beside the lent part.

#[path = "../support/buffer.rs"]
mod buffer;
#[path = "../support/masks.rs"]
mod masks;

use buffer::Buffer;
use masks::Random;
use stand::raw;
use std::io::Write;

/// What a slice is to its call, with the numbers a pixel of its plane.
#[derive(Clone, Copy, Debug, PartialEq)]
enum Kind {
    Input(usize),
    Output(usize),
    Work,
}
use Kind::{Input, Output, Work};

#[derive(Clone, Copy, Debug, PartialEq)]
enum Call {
    Nearest,
    Labels,
    Squares,
    Distance,
    Fill,
}

const CALLS: [Call; 5] = [
    Call::Nearest,
    Call::Labels,
    Call::Squares,
    Call::Distance,
    Call::Fill,
];

impl Call {
    /// The slices of the call, in the order of the parameters.
    fn kinds(self) -> &'static [Kind] {
        match self {
            Call::Nearest => &[Input(1), Work, Output(1), Output(1)],
            Call::Labels => &[Input(1), Work, Output(1)],
            Call::Squares => &[Input(1), Work, Output(1)],
            Call::Distance => &[Input(1), Work, Output(1)],
            Call::Fill => &[Input(3), Input(1), Work, Output(3)],
        }
    }

    /// The lengths that are accepted; for sides that are not, any.
    fn fitting(self, h: usize, w: usize) -> Vec<usize> {
        let n = h.wrapping_mul(w);
        let work = n
            .wrapping_mul(2)
            .wrapping_add(h.wrapping_add(w).wrapping_mul(2));
        self.kinds()
            .iter()
            .map(|kind| match kind {
                Input(each) | Output(each) => n.wrapping_mul(*each),
                Work => work.wrapping_add(16),
            })
            .collect()
    }

    /// The number of RULES.
    fn number(self, h: usize, w: usize, lengths: &[usize]) -> u32 {
        if !(1..=4096).contains(&h) || !(1..=4096).contains(&w) {
            return 1;
        }
        let n = h * w;
        let wrong = |kind: &Kind, len: usize| match *kind {
            Input(each) | Output(each) => len != each * n,
            Work => len < 2 * n + 2 * (h + w) + 16,
        };
        let some = |input: bool| {
            let kinds = self.kinds().iter().zip(lengths);
            kinds
                .into_iter()
                .any(|(k, &len)| matches!(k, Input(_)) == input && wrong(k, len))
        };
        match (some(true), some(false)) {
            (true, _) => 2,
            (false, true) => 3,
            _ => 0,
        }
    }

    /// Runs the call on patterned buffers of these lengths and holds it to its number.
    fn hold(self, random: &mut Random, h: usize, w: usize, k: u64, lengths: &[usize]) -> u32 {
        let expected = self.number(h, w, lengths);
        let mut bytes = |len| Buffer::new(len, || random.next() as u8 & 3);
        let (number, refused_ok, accepted_ok) = match self {
            Call::Nearest => {
                let mut mask = bytes(lengths[0]);
                let mut work = Buffer::new(lengths[1], || random.next() as u32);
                let mut rows = Buffer::new(lengths[2], || random.next() as i32);
                let mut cols = Buffer::new(lengths[3], || random.next() as i32);
                let (lent, planes) = (work.lent(), (rows.lent(), cols.lent()));
                let number = raw::nearest(mask.lent(), h, w, lent, planes.0, planes.1);
                (
                    number,
                    mask.unchanged() && work.unchanged() && rows.unchanged() && cols.unchanged(),
                    mask.unchanged()
                        && work.unchanged_beside()
                        && rows.unchanged_beside()
                        && cols.unchanged_beside(),
                )
            }
            Call::Labels => {
                let mut mask = bytes(lengths[0]);
                let mut parents = Buffer::new(lengths[1], || random.next() as u32);
                let mut labels = Buffer::new(lengths[2], || random.next() as u32);
                let answer = raw::labels(mask.lent(), h, w, parents.lent(), labels.lent());
                if answer.refusal != 0 {
                    assert_eq!(answer.parts, 0, "parts of a refusal");
                }
                (
                    answer.refusal,
                    mask.unchanged() && parents.unchanged() && labels.unchanged(),
                    mask.unchanged() && parents.unchanged_beside() && labels.unchanged_beside(),
                )
            }
            Call::Squares => {
                let mut mask = bytes(lengths[0]);
                let mut work = bytes(lengths[1]);
                let mut out = bytes(lengths[2]);
                let number = raw::squares(mask.lent(), h, w, k, work.lent(), out.lent());
                (
                    number,
                    mask.unchanged() && work.unchanged() && out.unchanged(),
                    mask.unchanged() && work.unchanged_beside() && out.unchanged_beside(),
                )
            }
            Call::Distance => {
                let mut mask = bytes(lengths[0]);
                let mut work = Buffer::new(lengths[1], || random.next() as u32);
                let mut out = Buffer::new(lengths[2], || random.next() as u32);
                let number = raw::distance(mask.lent(), h, w, work.lent(), out.lent());
                (
                    number,
                    mask.unchanged() && work.unchanged() && out.unchanged(),
                    mask.unchanged() && work.unchanged_beside() && out.unchanged_beside(),
                )
            }
            Call::Fill => {
                let mut mask = bytes(lengths[1]);
                let mut colours = Buffer::new(lengths[0], || f64::from_bits(random.next()));
                let mut work = Buffer::new(lengths[2], || random.next() as u32);
                let mut out = Buffer::new(lengths[3], || f64::from_bits(random.next()));
                let (all, lent) = (colours.lent(), work.lent());
                let number = raw::fill(all, mask.lent(), h, w, lent, out.lent());
                let inputs = colours.unchanged() && mask.unchanged();
                (
                    number,
                    inputs && work.unchanged() && out.unchanged(),
                    inputs && work.unchanged_beside() && out.unchanged_beside(),
                )
            }
        };
        assert_eq!(number, expected, "{self:?}, {h} × {w}, lengths {lengths:?}");
        if number == 0 {
            assert!(
                accepted_ok,
                "{self:?}, {h} × {w}, accepted: an input or a neighbour changed"
            );
        } else {
            assert!(
                refused_ok,
                "{self:?}, {h} × {w}, lengths {lengths:?}: a refusal wrote"
            );
        }
        number
    }
}

/// How often each number was answered.
#[derive(Default)]
struct Count([u64; 4]);

impl Count {
    fn say(&self, what: &str) {
        let [accepted, one, two, three] = self.0;
        let line = format!(
            "through the C interface, {what}: {accepted} accepted, refused 1: {one}, 2: {two}, 3: \
             {three}\n"
        );
        std::io::stderr().write_all(line.as_bytes()).unwrap();
    }
}

/// Every slice one short, fitting or one too long, in every combination.
#[test]
fn every_length_by_one_either_way() {
    let mut random = Random(11);
    let mut count = Count::default();
    let shapes = [
        (1, 1),
        (1, 2),
        (2, 1),
        (3, 5),
        (5, 3),
        (16, 16),
        (1, 33),
        (33, 1),
        (40, 27),
    ];
    for call in CALLS {
        for (h, w) in shapes {
            let fitting = call.fitting(h, w);
            for which in 0..3usize.pow(fitting.len() as u32) {
                let mut rest = which;
                let mut lengths = fitting.clone();
                for len in &mut lengths {
                    *len = *len + rest % 3 - 1;
                    rest /= 3;
                }
                for k in [0, 1, u64::MAX] {
                    if k == 1 || call == Call::Squares {
                        let number = call.hold(&mut random, h, w, k, &lengths);
                        count.0[number as usize] += 1;
                    }
                }
            }
        }
    }
    count.say("every combination of lengths one short, fitting, one too long");
    assert!(count.0[0] > 0 && count.0[2] > 0 && count.0[3] > 0);
}

/// Single lengths that are far off: empty, half, double, and that of another slice.
#[test]
fn lengths_that_are_far_off() {
    let mut random = Random(12);
    let mut count = Count::default();
    for call in CALLS {
        for (h, w) in [(1, 1), (4, 4), (2, 9), (31, 20)] {
            let fitting = call.fitting(h, w);
            let n = h * w;
            for at in 0..fitting.len() {
                for len in [
                    0,
                    1,
                    n / 2,
                    n,
                    2 * n,
                    3 * n,
                    fitting[at] / 2,
                    2 * fitting[at],
                ] {
                    let mut lengths = fitting.clone();
                    lengths[at] = len;
                    let number = call.hold(&mut random, h, w, 2, &lengths);
                    count.0[number as usize] += 1;
                }
            }
        }
    }
    count.say("lengths far off");
}

/// Sides outside 1 to 4096, with lengths that fit, that do not, and that fit a product which wraps.
#[test]
fn sides_outside_the_limit() {
    let mut random = Random(13);
    let mut count = Count::default();
    let sides = [
        0,
        1,
        3,
        4096,
        4097,
        4098,
        8192,
        65_536,
        1 << 31,
        1 << 32,
        (1 << 32) + 1,
        1 << 63,
        (1 << 63) + 1,
        0x5555_5555_5555_5556, // three of them are 2
        usize::MAX / 2,
        usize::MAX - 1,
        usize::MAX,
    ];
    for call in CALLS {
        for h in sides {
            for w in sides {
                if (1..=4096).contains(&h) && (1..=4096).contains(&w) {
                    continue;
                }
                let slices = call.kinds().len();
                let mut all = vec![vec![0; slices], vec![1; slices], vec![100; slices]];
                // Lengths that a test on wrapped products would take, where they can be lent.
                let wrapped = call.fitting(h, w);
                if wrapped.iter().all(|&len| len < 100_000) {
                    for at in 0..slices {
                        let mut one_off = wrapped.clone();
                        one_off[at] += 1;
                        all.push(one_off);
                    }
                    all.push(wrapped);
                }
                for lengths in all {
                    let number = call.hold(&mut random, h, w, 3, &lengths);
                    assert_eq!(number, 1);
                    count.0[1] += 1;
                }
            }
        }
    }
    count.say("sides outside 1 to 4096");
}

/// The longest sides, accepted and one off.
#[test]
fn sides_at_the_limit() {
    let mut random = Random(14);
    let mut count = Count::default();
    for call in CALLS {
        for (h, w) in [(1, 4096), (4096, 1), (4096, 16), (4096, 4097), (4097, 4096)] {
            let fitting = match call.number(h, w, &call.fitting(h, w)) {
                1 => vec![4096; call.kinds().len()],
                _ => call.fitting(h, w),
            };
            for at in 0..fitting.len() {
                for less in [0, 1] {
                    let mut lengths = fitting.clone();
                    lengths[at] -= less;
                    let number = call.hold(&mut random, h, w, 1 << 32, &lengths);
                    count.0[number as usize] += 1;
                }
            }
        }
    }
    let (h, w) = (4096, 4096);
    let room = stand::work_len(h, w).expect("sides that are accepted");
    for lengths in [
        [h * w, room, h * w, h * w - 1],
        [h * w - 1, room, h * w, h * w - 1],
        [h * w, room - 1, h * w, h * w],
    ] {
        let number = Call::Nearest.hold(&mut random, h, w, 0, &lengths);
        count.0[number as usize] += 1;
    }
    count.say("sides at the limit");
}
