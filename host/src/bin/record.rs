//! Writes the list of mask.rs's answers that is replayed where mask.rs is not at hand.
//!
//! ```text
//! cargo run --release --manifest-path host/Cargo.toml --bin record [-- FOLDER]
//! ```
//!
//! FOLDER (by default crates/replay_rust of the repository) gets two files. `stdin` has for each case a
//! line `op h w k` and then h lines of w digits, 1 for on; op is L for labels, S for squares with k
//! iterations, N for nearest (k is 0 where it is not used). `stdout` has for each case the same
//! first line and then, for L, the count on a line and h lines of w labels; for S, h lines of w
//! digits; for N, h lines of w pairs `row,col`. Labels and pairs are separated by one space.

include!(concat!(env!("OUT_DIR"), "/the_rust.rs"));

#[cfg(not(mask_rs))]
fn main() {
    eprintln!("mask.rs is not at hand: set PIXELFORGE_MASK_RS to its path and build again");
    std::process::exit(1);
}

#[cfg(mask_rs)]
#[path = "../../support/masks.rs"]
mod masks;

#[cfg(mask_rs)]
fn main() {
    with::main()
}

#[cfg(mask_rs)]
mod with {
    use crate::mask;
    use crate::masks::{self, Random};
    use std::fmt::Write;
    use std::path::PathBuf;

    /// The most pixels of a case, and the most bytes of both files.
    const MOST_PIXELS: usize = 1024;
    const MOST_BYTES: usize = 400_000;

    #[derive(Default)]
    struct List {
        stdin: String,
        stdout: String,
        cases: [usize; 3],
    }

    fn line<T>(items: &[T], between: &str, show: impl Fn(&T) -> String) -> String {
        items.iter().map(show).collect::<Vec<_>>().join(between)
    }

    impl List {
        fn head(&mut self, op: char, m: &[u8], h: usize, w: usize, k: u64) -> Vec<bool> {
            assert!(h * w <= MOST_PIXELS && m.len() == h * w);
            writeln!(self.stdin, "{op} {h} {w} {k}\n{}", masks::show(m, w)).unwrap();
            writeln!(self.stdout, "{op} {h} {w} {k}").unwrap();
            masks::bools(m)
        }

        fn labels(&mut self, m: &[u8], h: usize, w: usize) {
            let b = self.head('L', m, h, w, 0);
            let (labels, n) = mask::label4(&b, h, w);
            writeln!(self.stdout, "{n}").unwrap();
            for row in labels.chunks(w) {
                writeln!(self.stdout, "{}", line(row, " ", |l| l.to_string())).unwrap();
            }
            self.cases[0] += 1;
        }

        fn squares(&mut self, m: &[u8], h: usize, w: usize, k: u64) {
            let b = self.head('S', m, h, w, k);
            let out = mask::binary_dilation8(&b, h, w, k as usize);
            for row in out.chunks(w) {
                writeln!(self.stdout, "{}", line(row, "", |&o| (o as u8).to_string())).unwrap();
            }
            self.cases[1] += 1;
        }

        fn nearest(&mut self, m: &[u8], h: usize, w: usize) {
            let b = self.head('N', m, h, w, 0);
            let (rows, cols) = mask::feature_transform(&b, h, w);
            let pairs: Vec<(i32, i32)> = rows.into_iter().zip(cols).collect();
            for row in pairs.chunks(w) {
                writeln!(
                    self.stdout,
                    "{}",
                    line(row, " ", |(r, c)| format!("{r},{c}"))
                )
                .unwrap();
            }
            self.cases[2] += 1;
        }
    }

    /// A mask drawn in lines of digits.
    fn drawn(text: &str) -> (Vec<u8>, usize, usize) {
        let rows: Vec<&str> = text.split('/').collect();
        let mask = rows.concat().bytes().map(|b| b - b'0').collect();
        (mask, rows.len(), rows[0].len())
    }

    /// The proved cases (R73 to R76).
    fn document(list: &mut List) {
        for text in ["101", "1/0/1", "01/10", "00/00"] {
            let (m, h, w) = drawn(text);
            list.nearest(&m, h, w);
        }
        for text in ["10/01", "101/111"] {
            let (m, h, w) = drawn(text);
            list.labels(&m, h, w);
        }
        for (text, k) in [("10000", 1), ("10000", 0), ("00000", 1), ("00000", 0)] {
            let (m, h, w) = drawn(text);
            list.squares(&m, h, w, k);
        }
    }

    /// Masks on which many on-pixels are equally near.
    fn ties(list: &mut List) {
        let some = [
            "101/000/101",
            "010/101/010",
            "10001/00000/00000/00000/10001",
            "00100/00000/10001/00000/00100",
            "0001000/0000000/0000000/1000001/0000000/0000000/0001000",
            "0111110/1000001/1000001/1000001/1000001/1000001/0111110",
            "11/00/00/11",
            "1001/1001",
            "0100010/0000000/0000000/0000000/0100010",
            // (4, 4) is 5 from eight of these: (0, 1), (0, 7), (1, 0), (1, 8) and below.
            "010000010/100000001/000000000/000000000/000000000/000000000/000000000/100000001/\
             010000010",
        ];
        for text in some {
            let (m, h, w) = drawn(text);
            list.nearest(&m, h, w);
        }
        for (h, w) in [(8, 8), (5, 12)] {
            list.nearest(&masks::checkerboard(h, w), h, w);
            list.nearest(&masks::complement(&masks::checkerboard(h, w)), h, w);
        }
    }

    /// Iterations for squares: fixed ones and those about the larger side.
    fn iterations(h: usize, w: usize) -> [u64; 11] {
        let larger = h.max(w) as u64;
        let fixed = [0, 1, 2, 4, 63, 4096, (1 << 32) - 1, 1 << 32];
        let mut all = [larger - 1, larger, larger + 1, 0, 0, 0, 0, 0, 0, 0, 0];
        all[3..].copy_from_slice(&fixed);
        all
    }

    /// Empty, full, one pixel, lines, spirals, combs: all three operations.
    fn built(list: &mut List) {
        for (h, w) in [(1, 1), (5, 7), (1, 9), (9, 1)] {
            for m in [masks::empty(h, w), masks::full(h, w), masks::single(h, w)] {
                list.labels(&m, h, w);
                list.squares(&m, h, w, 1);
                list.nearest(&m, h, w);
            }
        }
        for (h, w) in [(11, 11), (16, 23), (31, 31)] {
            let spiral = masks::spiral(h, w);
            list.labels(&spiral, h, w);
            list.labels(&masks::complement(&spiral), h, w);
        }
        list.nearest(&masks::spiral(16, 23), 16, 23);
        list.squares(&masks::spiral(31, 31), 31, 31, 1);
        list.labels(&masks::comb(12, 21), 12, 21);
        list.labels(&masks::checkerboard(16, 16), 16, 16);
        list.labels(&masks::object(30, 30), 30, 30);
        list.nearest(&masks::object(30, 30), 30, 30);
        list.nearest(&masks::complement(&masks::object(24, 26)), 24, 26);
        for k in iterations(20, 17) {
            let mut m = masks::empty(20, 17);
            m[3 * 17 + 5] = 1;
            m[18 * 17] = 1;
            list.squares(&m, 20, 17, k);
        }
    }

    /// Lines with more on-pixels in a window than a byte can count (R87): a run of 300 and one pixel
    /// far behind it, and stripes of 130.
    fn long_windows(list: &mut List) {
        let run = (0..700).map(|i| u8::from(i < 300 || i == 699)).collect();
        let stripes: Vec<u8> = (0..700).map(|i| u8::from(i / 130 % 2 == 0)).collect();
        for m in [run, stripes] {
            for k in [64, 128, 300] {
                list.squares(&m, 1, 700, k);
                list.squares(&m, 700, 1, k);
            }
        }
    }

    fn random(list: &mut List) {
        let mut random = Random(7);
        let densities = [5, 20, 60, 150, 300, 500, 590, 700, 900];
        for round in 0..36 {
            let density = densities[round % densities.len()];
            let (h, w) = match round % 6 {
                0 => (1, 2 + random.below(60)),
                1 => (2 + random.below(60), 1),
                _ => (2 + random.below(20), 2 + random.below(20)),
            };
            let m = random.mask(h * w, density);
            list.labels(&m, h, w);
            list.squares(&m, h, w, iterations(h, w)[round % 11]);
            list.nearest(&m, h, w);
        }
        for (h, w, density) in [(32, 32, 30), (32, 32, 500), (1, 1024, 20), (1024, 1, 20)] {
            let m = random.mask(h * w, density);
            list.labels(&m, h, w);
            list.squares(&m, h, w, 2);
            list.nearest(&m, h, w);
        }
    }

    pub fn main() {
        let folder = std::env::args_os()
            .nth(1)
            .map(PathBuf::from)
            .unwrap_or_else(|| {
                PathBuf::from(env!("CARGO_MANIFEST_DIR")).join("../crates/replay_rust")
            });
        let mut list = List::default();
        document(&mut list);
        ties(&mut list);
        built(&mut list);
        random(&mut list);
        long_windows(&mut list);
        let bytes = list.stdin.len() + list.stdout.len();
        assert!(bytes < MOST_BYTES, "{bytes} bytes");
        std::fs::create_dir_all(&folder).expect("the folder");
        std::fs::write(folder.join("stdin"), &list.stdin).expect("stdin");
        std::fs::write(folder.join("stdout"), &list.stdout).expect("stdout");
        let [labels, squares, nearest] = list.cases;
        println!(
            "{}: {labels} cases of labels, {squares} of squares, {nearest} of nearest; {} and {} \
             bytes",
            folder.display(),
            list.stdin.len(),
            list.stdout.len()
        );
    }
}
