//! Squares on lent buffers: the plane that comes out (R8, R9), and what the work buffer holds
//! afterwards. Each of its bytes, also beyond h × w, is 0, 1 or what it was before; after a refusal
//! it is what it was.

#[path = "../support/buffer.rs"]
mod buffer;
#[path = "../support/masks.rs"]
mod masks;

use buffer::Buffer;
use masks::Random;
use stand::raw;
use std::io::Write;

/// The rule: some on-pixel is within k rows and k columns.
fn by_rule(mask: &[u8], h: usize, w: usize, iterations: u64) -> Vec<u8> {
    let k = match iterations {
        0 => h.max(w) as u64,
        _ => iterations,
    };
    let within = |a: usize, b: usize| a.abs_diff(b) as u64 <= k;
    let places = || (0..h).flat_map(|y| (0..w).map(move |x| (y, x)));
    let on: Vec<(usize, usize)> = places().filter(|(y, x)| mask[y * w + x] != 0).collect();
    let some = |(y, x)| on.iter().any(|&(r, c)| within(r, y) && within(c, x));
    places().map(|place| some(place) as u8).collect()
}

/// The same along one line, by the number of on-pixels before each of its places.
fn line_by_sums(line: &[u8], k: usize) -> impl Iterator<Item = u8> {
    let mut sums = vec![0];
    for &m in line {
        sums.push(sums[sums.len() - 1] + (m != 0) as usize);
    }
    let n = line.len();
    (0..n).map(move |x| (sums[x.saturating_sub(k)] < sums[n.min(x + k + 1)]) as u8)
}

/// Columns for rows.
fn turned(plane: &[u8], w: usize) -> Vec<u8> {
    let columns = (0..w).flat_map(|x| plane[x..].iter().step_by(w));
    columns.copied().collect()
}

/// The same along each row, and then along each column.
fn by_sums(mask: &[u8], h: usize, w: usize, iterations: u64) -> Vec<u8> {
    let side = h.max(w);
    let k = match iterations {
        0 => side,
        _ => iterations.min(side as u64) as usize,
    };
    let lines = |plane: &[u8], n: usize| -> Vec<u8> {
        let lines = plane.chunks(n);
        lines.flat_map(|line| line_by_sums(line, k)).collect()
    };
    turned(&lines(&turned(&lines(mask, w), w), h), h)
}

/// A mask with its sides.
struct Mask {
    kind: &'static str,
    bytes: Vec<u8>,
    h: usize,
    w: usize,
}

impl Mask {
    fn shown(&self, iterations: u64) -> String {
        let Mask { kind, bytes, h, w } = self;
        let begin = format!("{h} × {w}, {kind}, {iterations} iterations");
        match h * w {
            0..=1600 => format!("{begin}\n{}\n", masks::show(bytes, *w)),
            _ => begin,
        }
    }
}

/// How often squares were called, and what became of the bytes of their work buffers.
#[derive(Default)]
struct Count {
    accepted: u64,
    refused: u64,
    kept: u64,
    written: u64,
}

impl Count {
    fn say(&self, what: &str) {
        let line = format!(
            "squares on {what}: {} accepted, {} refused; of the work buffers {} bytes as they were, \
             {} now 0 or 1\n",
            self.accepted, self.refused, self.kept, self.written
        );
        std::io::stderr().write_all(line.as_bytes()).unwrap();
    }

    /// A call that is accepted, with a work buffer of any bytes that is longer than it need be.
    fn accepted(&mut self, random: &mut Random, mask: &Mask, iterations: u64, expected: &[u8]) {
        let (h, w, shown) = (mask.h, mask.w, || mask.shown(iterations));
        let room = stand::work_len(h, w).expect("sides that are accepted");
        let len = room + 1 + random.below(300);
        let mut work = Buffer::new(len, || random.next() as u8);
        let mut out = Buffer::new(h * w, || 7);
        let before = work.lent().to_vec();
        let answer = raw::squares(&mask.bytes, h, w, iterations, work.lent(), out.lent());
        assert_eq!(answer, 0, "{}", shown());
        let wrong = out.lent().iter().zip(expected).position(|(a, b)| a != b);
        assert_eq!(wrong, None, "the first wrong pixel of {}", shown());
        for (at, (now, old)) in work.lent().iter().zip(&before).enumerate() {
            let kept = now == old;
            assert!(kept || *now <= 1, "byte {at}: {now} for {old}, {}", shown());
            self.kept += kept as u64;
            self.written += !kept as u64;
        }
        assert!(work.unchanged_beside() && out.unchanged_beside());
        self.accepted += 1;
    }

    /// Calls with one wrong side or length each: nothing that is lent has changed.
    fn refused(&mut self, random: &mut Random, mask: &Mask) {
        let (h, w, n) = (mask.h, mask.w, mask.h * mask.w);
        let room = stand::work_len(h, w).expect("sides that are accepted");
        let wrong = [
            (1, (0, w), [n, room, n]),
            (1, (h, 4097), [n, room, n]),
            (2, (h, w), [n - 1, room, n]),
            (3, (h, w), [n, room - 1, n]),
            (3, (h, w), [n, room, n + 1]),
        ];
        for (number, (h, w), [pixels, room, places]) in wrong {
            let mut work = Buffer::new(room, || random.next() as u8);
            let mut out = Buffer::new(places, || random.next() as u8);
            let bytes = &mask.bytes[..pixels];
            let answer = raw::squares(bytes, h, w, 1, work.lent(), out.lent());
            assert_eq!(answer, number, "{}", mask.shown(1));
            let unchanged = work.unchanged() && out.unchanged();
            assert!(unchanged, "refused {number}, {}", mask.shown(1));
            self.kept += room as u64;
            self.refused += 1;
        }
    }
}

/// A mask of sides 1 to 40; half of them are lines.
fn small_mask(random: &mut Random, round: usize) -> Mask {
    let mut side = || 1 + random.below(40);
    let (h, w) = match round % 4 {
        0 => (1, side()),
        1 => (side(), 1),
        _ => (side(), side()),
    };
    let share = [5, 50, 200, 500, 900, 1000][random.below(6)];
    let mask = random.mask(h * w, share);
    Mask {
        kind: "random",
        bytes: random.any_bytes(&mask),
        h,
        w,
    }
}

#[test]
fn small_masks() {
    let mut random = Random(81);
    let mut count = Count::default();
    for round in 0..1200 {
        let mask = small_mask(&mut random, round);
        let (h, w) = (mask.h, mask.w);
        let side = h.max(w) as u64;
        let few = [0, 1, 2, 4, side - 1, side, side + 1];
        let many = [1 << 32, (1 << 32) + 1, u64::MAX];
        for iterations in few.into_iter().chain(many) {
            let expected = by_rule(&mask.bytes, h, w, iterations);
            let sums = by_sums(&mask.bytes, h, w, iterations);
            assert!(sums == expected, "by sums, {}", mask.shown(iterations));
            count.accepted(&mut random, &mask, iterations, &expected);
        }
        count.refused(&mut random, &mask);
    }
    count.say("small masks");
}

/// Masks whose windows hold no on-pixel, some, and as many as there is room for.
fn long_masks(random: &mut Random, h: usize, w: usize) -> Vec<Mask> {
    let stripes = |at: fn(usize, usize) -> usize| -> Vec<u8> {
        let places = (0..h * w).map(|i| at(i / w, i % w));
        places.map(|place| (place / 130 % 2) as u8).collect()
    };
    let single = masks::single(h, w);
    let all = [
        ("object", masks::object(h, w)),
        ("full", masks::full(h, w)),
        ("full but for one pixel", masks::complement(&single)),
        ("single pixel", single),
        ("stripes of 130 rows", stripes(|y, _| y)),
        ("stripes of 130 columns", stripes(|_, x| x)),
        ("random half", random.mask(h * w, 500)),
        ("random 1 %", random.mask(h * w, 10)),
        ("empty", masks::empty(h, w)),
    ];
    let mask = |(kind, mask): (_, Vec<u8>)| {
        let bytes = random.any_bytes(&mask);
        Mask { kind, bytes, h, w }
    };
    all.into_iter().map(mask).collect()
}

/// Iterations about the borders of 64, 128 and 256.
const ITERATIONS: [u64; 13] = [0, 1, 4, 63, 64, 65, 127, 128, 129, 255, 256, 257, 600];

/// Lines and planes whose windows hold more on-pixels than a byte can count.
#[test]
fn long_lines() {
    let mut random = Random(82);
    let mut count = Count::default();
    for (h, w) in [(1, 4096), (4096, 1), (300, 700), (700, 300)] {
        for mask in long_masks(&mut random, h, w) {
            for iterations in ITERATIONS {
                let expected = by_sums(&mask.bytes, h, w, iterations);
                count.accepted(&mut random, &mask, iterations, &expected);
            }
            count.refused(&mut random, &mask);
        }
    }
    count.say("long lines");
}

/// Lines of 4096 with one pixel on, at the borders of 64, 128 and 256 places and at the ends; and
/// one with gaps that the windows of some iterations just fill, or just do not.
fn lines() -> Vec<Vec<u8>> {
    let places = [
        0, 1, 62, 63, 64, 65, 127, 128, 129, 191, 192, 254, 255, 256, 257, 511, 512, 2048, 4032,
        4094, 4095,
    ];
    let mut gaps = Vec::new();
    for gap in [3, 9, 127, 129, 131, 255, 257, 259, 511, 513, 515] {
        gaps.extend([1; 100]);
        gaps.extend(vec![0; gap]);
    }
    gaps.resize(4096, 1);
    let single = |at| (0..4096).map(|i| (i == at) as u8).collect();
    places.into_iter().map(single).chain([gaps]).collect()
}

#[test]
fn single_pixels_and_gaps() {
    let mut random = Random(83);
    let mut count = Count::default();
    for bytes in lines() {
        for (h, w) in [(1, 4096), (4096, 1)] {
            let mask = Mask {
                kind: "single pixel or gaps",
                bytes: bytes.clone(),
                h,
                w,
            };
            for iterations in ITERATIONS {
                let expected = by_sums(&bytes, h, w, iterations);
                count.accepted(&mut random, &mask, iterations, &expected);
            }
        }
    }
    count.say("single pixels and gaps of a line");
}
