//! Two versions of the library, loaded from their archives into one process.
//!
//! Where a loop lies in memory changes what it takes, by a tenth and more for the shortest ones, and
//! each link puts it elsewhere. So each version is loaded at four places, a quarter of a line of the
//! processor's cache apart.

use crate::{median, settings, Call, Clock, Lents, Plane};
use stand::raw::{StandCut, StandGround, StandLabels, StandNextPass};
use stand::{Rgb, Settings};
use std::ffi::{c_char, c_int, c_void, CString};
use std::mem::transmute;
use std::os::unix::ffi::OsStrExt;
use std::path::Path;
use std::process::{self, Command};
use std::{env, fs};

extern "C" {
    fn dlopen(path: *const c_char, flags: c_int) -> *mut c_void;
    fn dlsym(library: *mut c_void, name: *const c_char) -> *mut c_void;
}

/// All symbols are looked up at once, and none of them is shown to other libraries.
const NOW_AND_LOCAL: c_int = 2;

/// Declares the exports that are timed, each with the type that it has in `stand::raw::exports`.
macro_rules! exports {
    ($($name:ident($($argument:ty),*) -> $answer:ty;)*) => {
        /// The exports of a version at one place; a call that it lacks is left out of the table.
        pub struct Loaded {
            $($name: Option<unsafe extern "C" fn($($argument),*) -> $answer>,)*
        }

        impl Loaded {
            /// An export that another version has under the same name has the same type: a changed
            /// signature gets a new name.
            unsafe fn of(library: *mut c_void) -> Loaded {
                let symbol = |name: &str| {
                    let name = CString::new(name).expect("a name");
                    unsafe { dlsym(library, name.as_ptr()) }
                };
                Loaded { $($name: unsafe {
                    transmute::<*mut c_void, Option<unsafe extern "C" fn($($argument),*) -> $answer>>(
                        symbol(stringify!($name)),
                    )
                },)* }
            }
        }

        $(const _: unsafe extern "C" fn($($argument),*) -> $answer = stand::raw::exports::$name;)*
    };
}

exports! {
    stand_nearest(*const u8, usize, usize, usize, *mut u32, usize, *mut i32, usize, *mut i32, usize) -> u32;
    stand_labels(*const u8, usize, usize, usize, *mut u32, usize, *mut u32, usize) -> StandLabels;
    stand_squares(*const u8, usize, usize, usize, u64, *mut u8, usize, *mut u8, usize) -> u32;
    stand_distance(*const u8, usize, usize, usize, *mut u32, usize, *mut u32, usize) -> u32;
    stand_fill(*const u64, usize, *const u8, usize, usize, usize, *mut u32, usize, *mut u64, usize) -> u32;
    stand_ground(*const f64, usize, usize, usize, f64, *mut u32, usize, *mut u8, usize) -> StandGround;
    stand_growth(
        *const f64, usize, *const u8, usize, usize, usize, Rgb, i64,
        *mut u32, usize, *mut u8, usize, *mut u8, usize, *mut u8, usize, *mut u8, usize
    ) -> u32;
    stand_next_pass(
        *const f64, usize, *const u8, usize, usize, usize, Rgb,
        *mut u32, usize, *mut u8, usize, *mut u8, usize, *mut u8, usize, *mut u8, usize
    ) -> StandNextPass;
    stand_cut(
        *const f64, usize, *const u8, usize, usize, usize, Settings,
        *mut u32, usize, *mut u8, usize, *mut u8, usize, *mut u8, usize, *mut u8, usize, *mut f64, usize
    ) -> StandCut;
}

/// One version at its four places.
pub struct Version(Vec<Loaded>);

/// Loads the versions from their archives; their shared libraries stand in the folder for temporary
/// files meanwhile, all at once, since the system knows a library by its file.
pub fn load(archives: [&Path; 2]) -> Result<[Version; 2], String> {
    let folder = env::temp_dir().join(format!("stand-benchmark-{}", process::id()));
    fs::create_dir_all(&folder).map_err(|why| format!("{}: {why}", folder.display()))?;
    let [before, after] = ["before", "after"].map(|name| folder.join(name));
    let loaded = [(archives[0], before), (archives[1], after)].map(|(archive, shared)| {
        let places = [64, 80, 96, 112].map(|skipped| place(archive, skipped, &shared));
        places.into_iter().collect::<Result<_, _>>().map(Version)
    });
    let _ = fs::remove_dir_all(&folder);
    let [before, after] = loaded;
    Ok([before?, after?])
}

/// Loads the archive so that its functions begin `skipped` bytes further on.
fn place(archive: &Path, skipped: usize, shared: &Path) -> Result<Loaded, String> {
    let first = shared.with_extension("s");
    let shared = shared.with_extension(format!("{skipped}.so"));
    let text =
        format!(".section .note.GNU-stack,\"\",%progbits\n.text\n.balign 64\n.skip {skipped}\n");
    fs::write(&first, text).map_err(|why| format!("{}: {why}", first.display()))?;
    let mut cc = Command::new("cc");
    cc.args(["-shared", "-Wl,-Bsymbolic", "-o"]).arg(&shared);
    cc.arg(&first).arg("-Wl,--whole-archive").arg(archive);
    cc.arg("-Wl,--no-whole-archive");
    let out = cc.output().map_err(|why| format!("cc: {why}"))?;
    if !out.status.success() {
        return Err(String::from_utf8_lossy(&out.stderr).trim().to_string());
    }
    let path = CString::new(shared.as_os_str().as_bytes()).expect("a path");
    let library = unsafe { dlopen(path.as_ptr(), NOW_AND_LOCAL) };
    if library.is_null() {
        return Err(format!("{} cannot be loaded", archive.display()));
    }
    Ok(unsafe { Loaded::of(library) })
}

/// What a call of each version takes, in seconds, and by what factor it changed.
pub struct Compared {
    pub before: f64,
    pub after: f64,
    pub change: f64,
}

/// Calls both versions in turn, `runs` times at each place; none where one has no such export.
///
/// The factor is taken from calls that follow each other, so that what disturbs the machine for some
/// time disturbs both: the median at each place, and of the places the geometric mean.
pub fn compare(
    versions: &[Version; 2],
    call: Call,
    (clock, runs): (Clock, usize),
    lents: &mut Lents,
    plane: &Plane,
) -> Option<Compared> {
    let [before, after] = versions;
    let mut sums = Compared {
        before: 0.0,
        after: 0.0,
        change: 0.0,
    };
    for (before, after) in before.0.iter().zip(&after.0) {
        let mut pair = || {
            let first = before.time(call, clock, lents, plane)?;
            Some((first, after.time(call, clock, lents, plane)?))
        };
        // The first calls only make the memory ready.
        pair()?;
        let pairs: Vec<(f64, f64)> = (0..runs).map_while(|_| pair()).collect();
        let of = |number: fn(&(f64, f64)) -> f64| median(pairs.iter().map(number).collect());
        sums.before += of(|pair| pair.0);
        sums.after += of(|pair| pair.1);
        sums.change += of(|pair| pair.1 / pair.0).ln();
    }
    let places = before.0.len() as f64;
    Some(Compared {
        before: sums.before / places,
        after: sums.after / places,
        change: (sums.change / places).exp(),
    })
}

impl Loaded {
    /// Seconds that one call takes; none where there is no such export.
    fn time(&self, call: Call, clock: Clock, lents: &mut Lents, p: &Plane) -> Option<f64> {
        // A slice is a pointer and a length; the inputs come first, then the numbers, then what is
        // written.
        macro_rules! timed {
            ($export:expr, [$($read:expr),*], ($($number:expr),*), [$($written:expr),*]) => {{
                let export = $export?;
                clock.time(|| unsafe {
                    export(
                        $($read.as_ptr().cast(), $read.len(),)*
                        $($number,)*
                        $($written.as_mut_ptr().cast(), $written.len(),)*
                    )
                })
            }};
        }
        let (h, w, mask, colours) = (p.h, p.w, &p.mask[..], p.colours);
        let Lents { planes: l, cut: c } = lents;
        let (refusal, seconds) = match call {
            Call::Nearest => timed!(
                self.stand_nearest,
                [mask],
                (h, w),
                [l.numbers, l.rows, l.cols]
            ),
            Call::Labels => {
                let given = timed!(self.stand_labels, [mask], (h, w), [l.numbers, l.labels]);
                (given.0.refusal, given.1)
            }
            Call::Squares(k) => timed!(self.stand_squares, [mask], (h, w, k), [l.bytes, l.out]),
            Call::Distance => timed!(self.stand_distance, [mask], (h, w), [l.numbers, l.distance]),
            Call::Fill => timed!(
                self.stand_fill,
                [colours, mask],
                (h, w),
                [l.numbers, l.filled]
            ),
            Call::Ground => {
                let tolerance = Settings::default().key_bg_tolerance;
                let given = timed!(
                    self.stand_ground,
                    [colours],
                    (h, w, tolerance),
                    [c.nearest, c.mask]
                );
                (given.0.refusal, given.1)
            }
            Call::Growth(passes) => timed!(
                self.stand_growth,
                [colours, mask],
                (h, w, p.reference, passes),
                [c.nearest, c.shallow, c.deep, c.marks, c.mask]
            ),
            Call::NextPass => {
                let given = timed!(
                    self.stand_next_pass,
                    [colours, mask],
                    (h, w, p.reference),
                    [c.nearest, c.shallow, c.deep, c.marks, c.mask]
                );
                (given.0.refusal, given.1)
            }
            Call::Cut(passes) => {
                let given = timed!(
                    self.stand_cut,
                    [colours, p.alpha],
                    (h, w, settings(passes)),
                    [c.nearest, c.shallow, c.deep, c.marks, c.mask, c.weights]
                );
                (given.0.refusal, given.1)
            }
        };
        assert_eq!(refusal, 0, "{}", call.name());
        Some(seconds)
    }
}
