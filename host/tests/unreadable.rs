//! A refusal reads nothing that it need not (R61): every export is lent memory that cannot be read,
//! with wrong sides or wrong lengths, and answers its number. A read would end the process.

use stand::raw::exports::*;
use stand::{Rgb, Settings};
use std::ffi::c_void;
use std::io::Write;

extern "C" {
    fn mmap(
        at: *mut c_void,
        len: usize,
        prot: i32,
        flags: i32,
        file: i32,
        from: i64,
    ) -> *mut c_void;
    fn mprotect(at: *mut c_void, len: usize, prot: i32) -> i32;
}
const PROT_NONE: i32 = 0;
const PROT_READ_WRITE: i32 = 3;
#[cfg(target_os = "linux")]
const PRIVATE_ANONYMOUS: i32 = 0x22;
#[cfg(not(target_os = "linux"))]
const PRIVATE_ANONYMOUS: i32 = 0x1002;

/// Memory that cannot be read, of which the first `readable` bytes are made readable.
fn memory(len: usize, readable: usize) -> *mut c_void {
    unsafe {
        let none = std::ptr::null_mut();
        let at = mmap(none, len, PROT_NONE, PRIVATE_ANONYMOUS, -1, 0);
        assert!(at as isize != -1, "no memory was mapped");
        if readable > 0 {
            assert_eq!(mprotect(at, readable, PROT_READ_WRITE), 0);
        }
        at
    }
}

/// What a slice is to its call, with the numbers a pixel of its plane.
#[derive(Clone, Copy, Debug, PartialEq)]
enum Kind {
    Input(usize),
    Output(usize),
    Work,
    /// The text of the card's colour, which has no plane.
    Text,
}
use Kind::{Input, Output, Text, Work};

/// Every export, with its slices in the order of the parameters.
const CALLS: [(&str, &[Kind]); 11] = [
    ("nearest", &[Input(1), Work, Output(1), Output(1)]),
    ("labels", &[Input(1), Work, Output(1)]),
    ("squares", &[Input(1), Work, Output(1)]),
    ("distance", &[Input(1), Work, Output(1)]),
    ("fill", &[Input(3), Input(1), Work, Output(3)]),
    ("ground", &[Input(3), Work, Output(1)]),
    ("ground_with_colour", &[Input(3), Text, Work, Output(1)]),
    (
        "growth",
        &[Input(3), Input(1), Work, Work, Work, Work, Output(1)],
    ),
    (
        "next_pass",
        &[Input(3), Input(1), Work, Work, Work, Work, Output(1)],
    ),
    (
        "cut",
        &[
            Input(3),
            Input(1),
            Work,
            Work,
            Work,
            Work,
            Output(1),
            Output(1),
        ],
    ),
    (
        "cut_with_colour",
        &[
            Input(3),
            Input(1),
            Text,
            Work,
            Work,
            Work,
            Work,
            Output(1),
            Output(1),
        ],
    ),
];

/// The slices of an export.
fn kinds(call: &str) -> &'static [Kind] {
    let found = CALLS.iter().find(|(name, _)| *name == call);
    found.expect("a call").1
}

const GREY: Rgb = Rgb {
    r: 0.5,
    g: 0.5,
    b: 0.5,
};

/// What an export answers to slices that start at `at` and have the lengths `n`.
fn answer(
    call: &str,
    h: usize,
    w: usize,
    n: &[usize],
    at: &[*mut c_void],
    reference: Rgb,
    settings: Settings,
) -> u32 {
    let (b, i, k) = (
        |j: usize| at[j] as *mut u8,
        |j: usize| at[j] as *mut i32,
        |j: usize| at[j] as *mut u32,
    );
    let (f, q) = (|j: usize| at[j] as *mut f64, |j: usize| at[j] as *mut u64);
    let tolerance = settings.key_bg_tolerance;
    unsafe {
        match call {
            "nearest" => stand_nearest(b(0), n[0], h, w, k(1), n[1], i(2), n[2], i(3), n[3]),
            "labels" => stand_labels(b(0), n[0], h, w, k(1), n[1], k(2), n[2]).refusal,
            "squares" => stand_squares(b(0), n[0], h, w, 1, b(1), n[1], b(2), n[2]),
            "distance" => stand_distance(b(0), n[0], h, w, k(1), n[1], k(2), n[2]),
            "fill" => stand_fill(q(0), n[0], b(1), n[1], h, w, k(2), n[2], q(3), n[3]),
            "ground" => stand_ground(f(0), n[0], h, w, tolerance, k(1), n[1], b(2), n[2]).refusal,
            "ground_with_colour" => {
                stand_ground_with_colour(
                    f(0),
                    n[0],
                    h,
                    w,
                    b(1),
                    n[1],
                    tolerance,
                    k(2),
                    n[2],
                    b(3),
                    n[3],
                )
                .refusal
            }
            "growth" => stand_growth(
                f(0),
                n[0],
                b(1),
                n[1],
                h,
                w,
                reference,
                1,
                k(2),
                n[2],
                b(3),
                n[3],
                b(4),
                n[4],
                b(5),
                n[5],
                b(6),
                n[6],
            ),
            "next_pass" => {
                stand_next_pass(
                    f(0),
                    n[0],
                    b(1),
                    n[1],
                    h,
                    w,
                    reference,
                    k(2),
                    n[2],
                    b(3),
                    n[3],
                    b(4),
                    n[4],
                    b(5),
                    n[5],
                    b(6),
                    n[6],
                )
                .refusal
            }
            "cut" => {
                stand_cut(
                    f(0),
                    n[0],
                    b(1),
                    n[1],
                    h,
                    w,
                    settings,
                    k(2),
                    n[2],
                    b(3),
                    n[3],
                    b(4),
                    n[4],
                    b(5),
                    n[5],
                    b(6),
                    n[6],
                    f(7),
                    n[7],
                )
                .refusal
            }
            "cut_with_colour" => {
                stand_cut_with_colour(
                    f(0),
                    n[0],
                    b(1),
                    n[1],
                    h,
                    w,
                    b(2),
                    n[2],
                    settings,
                    k(3),
                    n[3],
                    b(4),
                    n[4],
                    b(5),
                    n[5],
                    b(6),
                    n[6],
                    b(7),
                    n[7],
                    f(8),
                    n[8],
                )
                .refusal
            }
            other => panic!("{other}"),
        }
    }
}

/// The lengths that fit; for sides that are declined, what their products wrap to.
fn fitting(kinds: &[Kind], h: usize, w: usize) -> Vec<usize> {
    let n = h.wrapping_mul(w);
    let around = h.wrapping_add(w).wrapping_mul(2);
    let room = n.wrapping_mul(2).wrapping_add(around).wrapping_add(16);
    let length = |kind: &Kind| match *kind {
        Input(each) | Output(each) => n.wrapping_mul(each),
        Work => room,
        Text => 6,
    };
    kinds.iter().map(length).collect()
}

/// 2, 3 or 11 for lengths of which one is wrong; 0 where none is.
fn number(kinds: &[Kind], fitting: &[usize], lengths: &[usize]) -> u32 {
    let wrong = |j: usize| match kinds[j] {
        Work => lengths[j] < fitting[j],
        _ => lengths[j] != fitting[j],
    };
    let number = |j: usize| match kinds[j] {
        Input(_) => 2,
        Output(_) | Work => 3,
        Text => 11,
    };
    let numbers = (0..kinds.len()).filter(|&j| wrong(j)).map(number);
    numbers.min().unwrap_or(0)
}

#[test]
fn wrong_sides() {
    let none = memory(1 << 16, 0);
    let sides = [
        0,
        1,
        4096,
        4097,
        1 << 32,
        1 << 63,
        0x5555_5555_5555_5556,
        usize::MAX,
    ];
    let mut calls = 0;
    for (call, kinds) in CALLS {
        for h in sides {
            for w in sides {
                if (1..=4096).contains(&h) && (1..=4096).contains(&w) {
                    continue;
                }
                let count = kinds.len();
                for lengths in [
                    fitting(kinds, h, w),
                    vec![0; count],
                    vec![usize::MAX; count],
                ] {
                    let at = vec![none; count];
                    let refusal = answer(call, h, w, &lengths, &at, GREY, Settings::default());
                    assert_eq!(refusal, 1, "{call}, {h} × {w}, lengths {lengths:?}");
                    calls += 1;
                }
            }
        }
    }
    say(format!(
        "unreadable memory behind wrong sides: {calls} calls refused with 1"
    ));
}

#[test]
fn wrong_lengths() {
    let none = memory(1 << 16, 0);
    let mut refused = [0; 12];
    for (call, kinds) in CALLS {
        for (h, w) in [(1, 1), (1, 2), (3, 5), (1, 4096), (4096, 1), (4096, 4096)] {
            let right = fitting(kinds, h, w);
            // Each slice alone, and each together with the last, which is an output. A text of six
            // bytes behind a wrong length, and one of another length, is not read either.
            for at in 0..kinds.len() {
                let bytes = right[at] * if call == "squares" { 1 } else { 8 };
                for len in [
                    0,
                    right[at] - 1,
                    right[at] + 1,
                    bytes,
                    usize::MAX / 8,
                    usize::MAX,
                ] {
                    for last in [0, 1] {
                        let mut lengths = right.clone();
                        lengths[at] = len;
                        let end = kinds.len() - 1;
                        lengths[end] = lengths[end].saturating_sub(last);
                        let expected = number(kinds, &right, &lengths);
                        if expected == 0 {
                            continue;
                        }
                        let none = vec![none; kinds.len()];
                        let refusal =
                            answer(call, h, w, &lengths, &none, GREY, Settings::default());
                        assert_eq!(refusal, expected, "{call}, {h} × {w}, lengths {lengths:?}");
                        refused[expected as usize] += 1;
                    }
                }
            }
        }
    }
    let [two, three, eleven] = [2, 3, 11].map(|number| refused[number]);
    say(format!(
        "unreadable memory behind wrong lengths: {two} calls refused with 2, {three} with 3, \
         {eleven} with 11"
    ));
    assert!(two > 100 && three > 100 && eleven > 50);
}

/// Inputs that can be read; the rest cannot.
fn with_inputs(call: &str, colours: &[f64], alpha: &[u8], none: *mut c_void) -> Vec<*mut c_void> {
    let place = |kind: &Kind| match kind {
        Input(3) => colours.as_ptr() as *mut c_void,
        Input(_) => alpha.as_ptr() as *mut c_void,
        Text => b"F4f1e8".as_ptr() as *mut c_void,
        _ => none,
    };
    kinds(call).iter().map(place).collect()
}

/// Colours, tolerance and alpha that are refused: no output and no work buffer is touched.
#[test]
fn wrong_values() {
    let none = memory(1 << 16, 0);
    let (h, w) = (9, 14);
    let colours = vec![0.5; 3 * h * w];
    let mut one_bad = colours.clone();
    one_bad[3 * h * w - 1] = 1.5;
    let alpha = vec![7u8; h * w];
    let good = Settings::default();
    let infinite = Settings {
        key_bg_tolerance: f64::INFINITY,
        ..good
    };
    let black = Rgb {
        g: f64::NAN,
        ..GREY
    };
    let asked = [
        ("ground", &one_bad, GREY, good, 4),
        ("growth", &one_bad, GREY, good, 4),
        ("growth", &colours, black, good, 4),
        ("next_pass", &one_bad, GREY, good, 4),
        ("next_pass", &colours, black, good, 4),
        ("cut", &one_bad, GREY, good, 4),
        ("ground", &colours, GREY, infinite, 5),
        ("cut", &colours, GREY, infinite, 5),
        ("cut", &colours, GREY, good, 6),
        ("ground_with_colour", &one_bad, GREY, good, 4),
        ("cut_with_colour", &one_bad, GREY, good, 4),
        ("ground_with_colour", &colours, GREY, infinite, 5),
        ("cut_with_colour", &colours, GREY, infinite, 5),
        ("cut_with_colour", &colours, GREY, good, 6),
    ];
    for (call, colours, reference, settings, expected) in asked {
        let at = with_inputs(call, colours, &alpha, none);
        let lengths = fitting(kinds(call), h, w);
        let refusal = answer(call, h, w, &lengths, &at, reference, settings);
        assert_eq!(refusal, expected, "{call}");
    }
}

/// Six bytes that are not six digits: nothing but the text is read, and nothing is written.
#[test]
fn wrong_texts() {
    let none = memory(1 << 16, 0);
    for call in ["ground_with_colour", "cut_with_colour"] {
        for text in [b"F4f1e ", b"#F4f1e", b"+F4f1e", b"F4f1\0\0", b"F4f1e\xff"] {
            for key_bg in [true, false] {
                let settings = Settings {
                    key_bg,
                    ..Settings::default()
                };
                let place = |kind: &Kind| match kind {
                    Text => text.as_ptr() as *mut c_void,
                    _ => none,
                };
                let at: Vec<*mut c_void> = kinds(call).iter().map(place).collect();
                let lengths = fitting(kinds(call), 9, 14);
                let refusal = answer(call, 9, 14, &lengths, &at, GREY, settings);
                assert_eq!(refusal, 11, "{call}, {}", text.escape_ascii());
            }
        }
    }
}

/// Colours are read up to the first that is out of range, or little further: what lies more than
/// 64 KiB behind it cannot be read here.
#[test]
fn colours_after_the_first_that_is_wrong() {
    let (h, w) = (256, 256);
    let readable = 1 << 16;
    let none = memory(1 << 16, 0);
    let colours = memory(8 * 3 * h * w, readable) as *mut f64;
    let alpha = vec![255u8; h * w];
    for at in [0, 1, 300] {
        unsafe {
            for j in 0..readable / 8 {
                *colours.add(j) = 0.5;
            }
            *colours.add(at) = -1.0;
        }
        for (call, kinds) in CALLS {
            let by_pass = ["growth", "next_pass"].contains(&call);
            if !call.starts_with("ground") && !call.starts_with("cut") && !by_pass {
                continue;
            }
            let mut lent = with_inputs(call, &[], &alpha, none);
            lent[0] = colours as *mut c_void;
            let lengths = fitting(kinds, h, w);
            let refusal = answer(call, h, w, &lengths, &lent, GREY, Settings::default());
            assert_eq!(refusal, 4, "{call}");
        }
    }
}

fn say(line: String) {
    let line = line + "\n";
    std::io::stderr().write_all(line.as_bytes()).unwrap();
}
