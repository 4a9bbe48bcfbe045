//! Ours and mask.rs side by side, in one process, on the same masks and pictures; or ours and an
//! earlier version of ours.
//!
//! ```text
//! cargo run --release --manifest-path host/Cargo.toml --bin benchmark \
//!     [-- [before ARCHIVE] [wall] [planes | squares | cut] [RUNS] [SIDE..]]
//! ```
//!
//! The clock counts the processor time of this thread, the system's work for it included, where the
//! system tells it (/proc/thread-self/schedstat): on an idle machine that is the time that passes,
//! and on a busy one it leaves out the time of others. `wall` takes the time that passes.
//! RUNS is how often each is timed (at least 5, which is the default), in turn; the median counts.
//! `planes` leaves out ground, growth and cut, `cut` leaves out the rest, `squares` all but squares.
//! SIDE is the side of the square planes: 1024 2048 4096 by default. Squares are also timed on planes
//! of 64 × 4096 and 4096 × 64, whatever the sides are; the summary leaves these out. Ours writes into
//! buffers that were made and touched before the clock starts; mask.rs allocates its planes, as it
//! always does, and gives them back after the clock has stopped. Both are built for release.
//! `before` has the libstand.a of another version in the place of mask.rs (see `versions.rs`).
//!
//! Prints a Markdown page with ns per pixel, the ratio (mask.rs's time over ours), and the memory
//! that is lent.

include!(concat!(env!("OUT_DIR"), "/the_rust.rs"));

#[path = "../../../support/lent.rs"]
mod lent;
#[path = "../../../support/masks.rs"]
mod masks;
#[path = "../../../support/pictures.rs"]
mod pictures;

mod clock;
mod versions;

use clock::Clock;
use lent::{CutLent, Lent};
use masks::Random;
use stand::{Rgb, Settings};
use std::fs;
use std::hint::black_box;
use std::mem::size_of_val;
use std::path::Path;
use std::process::Command;
use versions::Version;

/// What is timed.
#[derive(Clone, Copy, PartialEq)]
enum Call {
    Nearest,
    Labels,
    Squares(u64),
    Distance,
    Fill,
    Ground,
    Growth(i64),
    NextPass,
    Cut(i64),
}

impl Call {
    fn name(self) -> String {
        match self {
            Call::Nearest => "nearest".into(),
            Call::Labels => "labels".into(),
            Call::Squares(k) => format!("squares, k {k}"),
            Call::Distance => "square distance".into(),
            Call::Fill => "fill".into(),
            Call::Ground => "ground".into(),
            Call::Growth(p) => format!("growth, p {p}"),
            Call::NextPass => "next pass".into(),
            Call::Cut(p) => format!("cut, p {p}"),
        }
    }

    /// Seconds that one call of ours takes.
    fn ours(self, clock: Clock, lents: &mut Lents, p: &Plane) -> f64 {
        let (h, w, mask) = (p.h, p.w, black_box(&p.mask[..]));
        let Lents { planes: lent, cut } = lents;
        match self {
            Call::Nearest => clock.time(|| _ = black_box(lent.nearest(mask, h, w))).1,
            Call::Labels => clock.time(|| _ = black_box(lent.labels(mask, h, w))).1,
            Call::Squares(k) => clock.time(|| _ = black_box(lent.squares(mask, h, w, k))).1,
            Call::Distance => clock.time(|| _ = black_box(lent.distance(mask, h, w))).1,
            Call::Fill => {
                clock
                    .time(|| _ = black_box(lent.fill(p.colours, mask, h, w)))
                    .1
            }
            Call::Ground => {
                let tolerance = Settings::default().key_bg_tolerance;
                clock
                    .time(|| _ = black_box(cut.ground(p.colours, h, w, tolerance)))
                    .1
            }
            Call::Growth(passes) => {
                clock
                    .time(|| _ = black_box(cut.growth(p.colours, mask, h, w, p.reference, passes)))
                    .1
            }
            Call::NextPass => {
                clock
                    .time(|| _ = black_box(cut.next_pass(p.colours, mask, h, w, p.reference)))
                    .1
            }
            Call::Cut(passes) => {
                let settings = settings(passes);
                clock
                    .time(|| _ = black_box(cut.cut(p.colours, p.alpha, h, w, settings)))
                    .1
            }
        }
    }

    /// Seconds that the same takes mask.rs; its planes are given back after the clock is read.
    #[cfg(mask_rs)]
    fn theirs(self, clock: Clock, p: &Plane) -> Option<f64> {
        let (h, w, mask) = (p.h, p.w, black_box(&p.bools[..]));
        Some(match self {
            Call::Nearest => clock.time(|| mask::feature_transform(mask, h, w)).1,
            Call::Labels => clock.time(|| mask::label4(mask, h, w)).1,
            Call::Squares(k) => {
                clock
                    .time(|| mask::binary_dilation8(mask, h, w, k as usize))
                    .1
            }
            Call::Distance => clock.time(|| mask::edt(mask, h, w)).1,
            Call::Fill => {
                clock
                    .time(|| mask::fill_transparent(p.colours, mask, h, w))
                    .1
            }
            Call::Ground => {
                let tolerance = Settings::default().key_bg_tolerance;
                clock
                    .time(|| mask::flat_background(p.colours, h, w, tolerance, 0))
                    .1
            }
            Call::Growth(passes) => {
                let Rgb { r, g, b } = p.reference;
                clock
                    .time(|| mask::unmix_fringe(p.colours, mask, h, w, &[r, g, b], passes as usize))
                    .1
            }
            Call::NextPass => return Call::Growth(1).theirs(clock, p),
            Call::Cut(passes) => {
                let settings = settings(passes);
                let config = config::Config {
                    alpha_threshold: settings.alpha_threshold,
                    key_bg: settings.key_bg,
                    key_bg_fringe: settings.key_bg_fringe,
                    key_bg_tolerance: settings.key_bg_tolerance,
                    crop_to_alpha: settings.crop_to_alpha,
                };
                clock
                    .time(|| mask::subject(p.colours, p.alpha, h, w, &config))
                    .1
            }
        })
    }

    #[cfg(not(mask_rs))]
    fn theirs(self, _: Clock, _: &Plane) -> Option<f64> {
        None
    }
}

/// The stand's own settings, with this number of passes.
fn settings(passes: i64) -> Settings {
    Settings {
        key_bg_fringe: passes,
        ..Settings::default()
    }
}

/// Buffers for a plane.
struct Lents {
    planes: Lent,
    cut: CutLent,
}

impl Lents {
    fn new(h: usize, w: usize) -> Lents {
        Lents {
            planes: Lent::new(h, w),
            cut: CutLent::new(h, w),
        }
    }
}

/// A mask with any colours; or a picture with its ground as the mask, its alpha and reference.
struct Plane<'a> {
    h: usize,
    w: usize,
    name: &'static str,
    mask: Vec<u8>,
    #[cfg_attr(not(mask_rs), allow(dead_code))]
    bools: Vec<bool>,
    colours: &'a [f64],
    alpha: &'a [u8],
    reference: Rgb,
}

impl<'a> Plane<'a> {
    fn mask(
        (h, w): (usize, usize),
        name: &'static str,
        mask: Vec<u8>,
        colours: &'a [f64],
    ) -> Plane<'a> {
        Plane {
            h,
            w,
            name,
            bools: masks::bools(&mask),
            mask,
            colours,
            alpha: &[],
            reference: Rgb::default(),
        }
    }

    fn picture(side: usize, name: &'static str, colours: &'a [f64], alpha: &'a [u8]) -> Plane<'a> {
        let tolerance = Settings::default().key_bg_tolerance;
        let ground = stand::ground(colours, side, side, tolerance);
        let ground = ground.expect("accepted").expect("a ground");
        Plane {
            alpha,
            reference: ground.reference,
            ..Plane::mask((side, side), name, ground.plane, colours)
        }
    }

    /// What the table has in the column of the side.
    fn sides(&self) -> String {
        match (self.h, self.w) {
            (h, w) if h == w => h.to_string(),
            (h, w) => format!("{h} × {w}"),
        }
    }
}

fn median(mut times: Vec<f64>) -> f64 {
    times.sort_by(f64::total_cmp);
    let n = times.len();
    (times[(n - 1) / 2] + times[n / 2]) / 2.0
}

struct How {
    clock: Clock,
    runs: usize,
    /// Whether all calls but squares are left out.
    squares: bool,
    /// The earlier version and this one, where they are compared.
    versions: Option<[Version; 2]>,
}

/// One line of the table, on a square plane: ns per pixel.
struct Line {
    call: Call,
    mask: &'static str,
    side: usize,
    theirs: Option<f64>,
    ours: f64,
}

impl Line {
    fn ratio(&self) -> Option<f64> {
        self.theirs.map(|theirs| theirs / self.ours)
    }
}

/// One line of the table, printed.
fn measure(call: Call, plane: &Plane, lents: &mut Lents, how: &How) -> Option<Line> {
    if how.squares && !matches!(call, Call::Squares(_)) {
        return None;
    }
    let scale = 1e9 / (plane.h * plane.w) as f64;
    let begin = format!("| {} | {} | {}", call.name(), plane.name, plane.sides());
    if let Some(versions) = &how.versions {
        let it = versions::compare(versions, call, (how.clock, how.runs), lents, plane)?;
        let (before, after) = (it.before * scale, it.after * scale);
        let change = 100.0 * (it.change - 1.0);
        println!("{begin} | {before:.2} | {after:.2} | {change:+.1} % |");
        return None;
    }
    let (mut ours, mut theirs) = (Vec::new(), Vec::new());
    call.ours(how.clock, lents, plane);
    call.theirs(how.clock, plane);
    for _ in 0..how.runs {
        theirs.extend(call.theirs(how.clock, plane));
        ours.push(call.ours(how.clock, lents, plane));
    }
    let line = Line {
        call,
        mask: plane.name,
        side: plane.h,
        theirs: (!theirs.is_empty()).then(|| median(theirs) * scale),
        ours: median(ours) * scale,
    };
    println!(
        "{begin} | {} | {:.2} | {} |",
        number(line.theirs, 2),
        line.ours,
        number(line.ratio(), 1)
    );
    Some(line)
}

fn number(value: Option<f64>, digits: usize) -> String {
    value.map_or("-".into(), |value| format!("{value:.digits$}"))
}

/// For each group of calls and masks the least ratio at 1024 and from 2048 on, and how the time per
/// pixel grows from 1024 to 4096 at most.
fn summary(lines: &[Line]) {
    type Group = (&'static str, fn(&Line) -> bool);
    const BADGES: [&str; 2] = ["badge", "badge with dust"];
    let groups: [Group; 14] = [
        ("nearest, object and complement", |l| {
            l.call == Call::Nearest && ["object", "complement"].contains(&l.mask)
        }),
        ("nearest, other masks", |l| {
            l.call == Call::Nearest && !["object", "complement"].contains(&l.mask)
        }),
        ("squares", |l| matches!(l.call, Call::Squares(_))),
        ("labels, object", |l| {
            l.call == Call::Labels && l.mask == "object"
        }),
        ("labels, random half", |l| {
            l.call == Call::Labels && l.mask == "random half"
        }),
        ("labels, other masks", |l| {
            l.call == Call::Labels && !["object", "random half"].contains(&l.mask)
        }),
        ("square distance and fill", |l| {
            [Call::Distance, Call::Fill].contains(&l.call)
        }),
        ("ground", |l| l.call == Call::Ground),
        ("growth, badge", |l| {
            matches!(l.call, Call::Growth(_)) && BADGES.contains(&l.mask)
        }),
        ("growth, noise", |l| {
            matches!(l.call, Call::Growth(_)) && !BADGES.contains(&l.mask)
        }),
        ("cut p 0, badge", |l| {
            l.call == Call::Cut(0) && BADGES.contains(&l.mask)
        }),
        ("cut p 1, badge", |l| {
            l.call == Call::Cut(1) && BADGES.contains(&l.mask)
        }),
        ("cut p 3, badge", |l| {
            l.call == Call::Cut(3) && BADGES.contains(&l.mask)
        }),
        ("cut, noise", |l| {
            matches!(l.call, Call::Cut(_)) && !BADGES.contains(&l.mask)
        }),
    ];
    println!(
        "\n| | least ratio at 1024 | from 2048 on | most growth of ns per pixel, 1024 to 4096 |"
    );
    println!("|---|---:|---:|---:|");
    for (name, of) in groups {
        let group: Vec<&Line> = lines.iter().filter(|l| of(l)).collect();
        if group.is_empty() {
            continue;
        }
        let least = |sides: fn(usize) -> bool| {
            let some = group.iter().filter(|l| sides(l.side));
            number(some.filter_map(|l| l.ratio()).reduce(f64::min), 1)
        };
        let growths = group.iter().filter(|l| l.side == 4096).filter_map(|l| {
            let small = |s: &&&Line| s.call == l.call && s.mask == l.mask && s.side == 1024;
            Some(l.ours / group.iter().find(small)?.ours)
        });
        println!(
            "| {name} | {} | {} | {} |",
            least(|side| side == 1024),
            least(|side| side >= 2048),
            number(growths.reduce(f64::max), 2)
        );
    }
}

/// The first line of a file of the system that has this key, after its colon.
fn looked_up(file: &str, key: &str) -> Option<String> {
    let text = fs::read_to_string(file).ok()?;
    let line = text.lines().find(|line| line.starts_with(key))?;
    Some(line.split_once(':')?.1.trim().to_string())
}

fn said(command: &str, words: &[&str]) -> String {
    let out = Command::new(command).args(words).output().ok();
    let text = out.map(|out| String::from_utf8_lossy(&out.stdout).trim().to_string());
    text.filter(|text| !text.is_empty())
        .unwrap_or_else(|| "not known".into())
}

fn head(how: &How) {
    let cpu = looked_up("/proc/cpuinfo", "model name").unwrap_or_else(|| "not known".into());
    let cores = std::thread::available_parallelism().map_or(0, |n| n.get());
    let load = fs::read_to_string("/proc/loadavg").unwrap_or_default();
    let load = load.split(' ').next().unwrap_or("not known").to_string();
    println!(
        "Machine: {cpu}, {cores} cores, load {load} at the start. {}.",
        said("rustc", &["-V"])
    );
    println!("Date: {}.", said("date", &["-u", "+%Y-%m-%d %H:%M UTC"]));
    println!(
        "Median of {} runs, in turn, by the {}; ns per pixel.",
        how.runs,
        how.clock.name()
    );
    if how.versions.is_some() {
        println!(
            "The mean over four places of the code; change: of calls that follow each other.\n"
        );
        println!("| call | on | side | before | after | change |\n|---|---|---:|---:|---:|---:|");
        return;
    }
    println!("Ratio: mask.rs's time over ours.");
    if !cfg!(mask_rs) {
        println!("mask.rs is not at hand (PIXELFORGE_MASK_RS names its place): ours alone.");
    }
    println!("\n| call | on | side | mask.rs | ours | ratio |\n|---|---|---:|---:|---:|---:|");
}

/// What a caller lends beside inputs: bytes per pixel, and the work buffers in MiB.
fn memory(side: usize, lents: &Lents) {
    let Lents { planes: lent, cut } = lents;
    let bytes = |n: usize| format!("{:.2}", n as f64 / (side * side) as f64);
    println!("\nMemory lent by the caller at {side} × {side}, bytes per pixel (nothing else is");
    println!("allocated, so this is the most at any time):\n");
    println!("| call | work buffers | in MiB | outputs |\n|---|---:|---:|---:|");
    let planes = size_of_val(&lent.rows[..]) + size_of_val(&lent.cols[..]);
    let numbers = size_of_val(&lent.numbers[..]);
    let nearest = size_of_val(&cut.nearest[..]);
    let three = cut.shallow.len() + cut.deep.len() + cut.marks.len();
    let of = |name, work, out| {
        let mib = work as f64 / (1 << 20) as f64;
        println!("| {name} | {} | {mib:.1} | {} |", bytes(work), bytes(out));
    };
    of("nearest", numbers, planes);
    of("labels", numbers, size_of_val(&lent.labels[..]));
    of("squares", lent.bytes.len(), lent.out.len());
    of("square distance", numbers, size_of_val(&lent.distance[..]));
    of("fill", numbers, size_of_val(&lent.filled[..]));
    of("ground", nearest, cut.mask.len());
    of("growth, next pass", nearest + three, cut.mask.len());
    of(
        "cut",
        nearest + three,
        cut.mask.len() + size_of_val(&cut.weights[..]),
    );
}

/// Nearest, squares, labels, square distance and fill.
fn planes(side: usize, random: &mut Random, lents: &mut Lents, how: &How, lines: &mut Vec<Line>) {
    let colours: Vec<f64> = (0..3 * side * side)
        .map(|_| (random.next() >> 11) as f64 / 9e15)
        .collect();
    let object = masks::object(side, side);
    let complement = masks::complement(&object);
    let planes = [
        ("object", object),
        ("complement", complement),
        ("random half", random.mask(side * side, 500)),
        ("single pixel", masks::single(side, side)),
        ("sparse 0.1 %", random.mask(side * side, 1)),
        ("full", masks::full(side, side)),
        ("empty", masks::empty(side, side)),
        ("spiral", masks::spiral(side, side)),
        ("checkerboard", masks::checkerboard(side, side)),
    ]
    .map(|(name, mask)| Plane::mask((side, side), name, mask, &colours));
    for plane in &planes[..7] {
        lines.extend(measure(Call::Nearest, plane, lents, how));
    }
    for plane in [&planes[0], &planes[2]] {
        lines.extend(squares(plane, lents, how));
    }
    for plane in &planes {
        lines.extend(measure(Call::Labels, plane, lents, how));
    }
    for call in [Call::Distance, Call::Fill] {
        for plane in [&planes[0], &planes[2]] {
            lines.extend(measure(call, plane, lents, how));
        }
    }
}

/// Squares of four sizes.
fn squares(plane: &Plane, lents: &mut Lents, how: &How) -> Vec<Line> {
    let of = |k| measure(Call::Squares(k), plane, lents, how);
    [1, 4, 64, 4096].into_iter().filter_map(of).collect()
}

/// Squares on a wide plane and on a high one. The summary is of square planes and leaves them out.
fn wide(how: &How) {
    let mut random = Random(64);
    for (h, w) in [(64, 4096), (4096, 64)] {
        let mut lents = Lents::new(h, w);
        for (name, mask) in [
            ("object", masks::object(h, w)),
            ("random half", random.mask(h * w, 500)),
        ] {
            squares(&Plane::mask((h, w), name, mask, &[]), &mut lents, how);
        }
    }
}

/// Ground, growth, next pass and cut, picture by picture; and growth and next pass on a background of
/// single pixels.
fn cuts(side: usize, random: &mut Random, lents: &mut Lents, how: &How, lines: &mut Vec<Line>) {
    let alpha = vec![255; side * side];
    for name in ["badge", "badge with dust", "half noise"] {
        let colours = match name {
            "badge" => pictures::badge(random, side, side, false),
            "badge with dust" => pictures::badge(random, side, side, true),
            _ => pictures::noise(random, side, side, 500),
        };
        let picture = Plane::picture(side, name, &colours, &alpha);
        for call in [
            Call::Ground,
            Call::Growth(1),
            Call::Growth(3),
            Call::NextPass,
            Call::Cut(0),
            Call::Cut(1),
            Call::Cut(3),
        ] {
            lines.extend(measure(call, &picture, lents, how));
        }
    }
    for (name, share) in [("3 % noise", 30), ("12 % noise", 120)] {
        let colours = pictures::noise(random, side, side, 1000 - share);
        let background = random.mask(side * side, share);
        let picture = Plane::mask((side, side), name, background, &colours);
        for call in [Call::Growth(1), Call::Growth(3), Call::NextPass] {
            lines.extend(measure(call, &picture, lents, how));
        }
    }
}

/// The words of the command line.
struct Asked {
    before: Option<String>,
    wall: bool,
    planes: bool,
    squares: bool,
    cut: bool,
    runs: usize,
    sides: Vec<usize>,
}

impl Asked {
    fn of(words: impl Iterator<Item = String>) -> Option<Asked> {
        let mut words = words.peekable();
        let mut taken = |word: &str| words.next_if(|next| next == word).is_some();
        let named = taken("before");
        let before = if named { Some(words.next()?) } else { None };
        let mut taken = |word: &str| words.next_if(|next| next == word).is_some();
        let (wall, squares) = (taken("wall"), taken("squares"));
        let planes = squares || taken("planes");
        let cut = !planes && taken("cut");
        let numbers: Option<Vec<usize>> = words.map(|word| word.parse().ok()).collect();
        let (runs, sides) = match numbers?[..] {
            [] => (5, vec![]),
            [runs, ref sides @ ..] => (runs, sides.to_vec()),
        };
        if runs < 5 || !sides.iter().all(|side| (32..=4096).contains(side)) {
            return None;
        }
        Some(Asked {
            before,
            wall,
            planes: !cut,
            squares,
            cut: !planes,
            runs,
            sides: if sides.is_empty() {
                vec![1024, 2048, 4096]
            } else {
                sides
            },
        })
    }
}

fn fail(sentence: &str) -> ! {
    eprintln!("{sentence}");
    std::process::exit(2)
}

fn main() {
    let usage =
        "usage: benchmark [before ARCHIVE] [wall] [planes | squares | cut] [RUNS] [SIDE..]\n\
         RUNS is at least 5, a SIDE 32 to 4096";
    let asked = Asked::of(std::env::args().skip(1)).unwrap_or_else(|| fail(usage));
    let versions = asked.before.as_deref().map(|before| {
        versions::load([Path::new(before), Path::new(env!("STAND_ARCHIVE"))])
            .unwrap_or_else(|why| fail(&format!("benchmark: {why}")))
    });
    let how = How {
        clock: Clock::of(asked.wall),
        runs: asked.runs,
        squares: asked.squares,
        versions,
    };
    head(&how);
    let mut lines = Vec::new();
    for (at, &side) in asked.sides.iter().enumerate() {
        let mut random = Random(side as u64);
        let mut lents = Lents::new(side, side);
        if asked.planes {
            planes(side, &mut random, &mut lents, &how, &mut lines);
        }
        if asked.cut {
            cuts(side, &mut random, &mut lents, &how, &mut lines);
        }
        if at + 1 < asked.sides.len() {
            continue;
        }
        if asked.planes {
            wide(&how);
        }
        if how.versions.is_none() {
            summary(&lines);
            memory(side, &lents);
        }
    }
}
