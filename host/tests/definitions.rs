//! The rules on plane geometry (R6 to R14), computed pixel by pixel without any algorithm, and its cases; and the safe
//! functions. These need no mask.rs.

#[path = "../support/masks.rs"]
mod masks;

use masks::Random;
use stand::Refusal;

/// The on-pixel with the least (dy² + dx², column, row); (-1, 0) with none.
fn nearest(mask: &[u8], h: usize, w: usize, y: usize, x: usize) -> (i32, i32) {
    (0..h * w)
        .filter(|&i| mask[i] != 0)
        .map(|i| (i / w, i % w))
        .map(|(r, c)| (r.abs_diff(y).pow(2) + c.abs_diff(x).pow(2), c, r))
        .min()
        .map_or((-1, 0), |(_, c, r)| (r as i32, c as i32))
}

/// Some on-pixel is within k rows and k columns.
fn square(mask: &[u8], w: usize, k: u64, y: usize, x: usize) -> bool {
    mask.iter()
        .enumerate()
        .any(|(i, &m)| m != 0 && (i / w).abs_diff(y) as u64 <= k && (i % w).abs_diff(x) as u64 <= k)
}

/// Each part is spread from its first pixel until nothing changes.
fn labels(mask: &[u8], h: usize, w: usize) -> (Vec<u32>, u32) {
    let mut out = vec![0; h * w];
    let mut n = 0;
    while let Some(first) = (0..h * w).find(|&i| mask[i] != 0 && out[i] == 0) {
        n += 1;
        out[first] = n;
        let mut changed = true;
        while changed {
            changed = false;
            for i in 0..h * w {
                let (y, x) = (i / w, i % w);
                let beside = (y > 0 && out[i - w] == n)
                    || (y + 1 < h && out[i + w] == n)
                    || (x > 0 && out[i - 1] == n)
                    || (x + 1 < w && out[i + 1] == n);
                if mask[i] != 0 && out[i] == 0 && beside {
                    out[i] = n;
                    changed = true;
                }
            }
        }
    }
    (out, n)
}

fn hold(mask: &[u8], h: usize, w: usize) {
    let shown = || masks::show(mask, w);
    let planes = stand::nearest(mask, h, w).unwrap();
    let distance = stand::square_distance(mask, h, w).unwrap();
    let colours: Vec<f64> = (0..3 * h * w).map(|i| i as f64).collect();
    let filled = stand::fill_transparent(&colours, mask, h, w).unwrap();
    for i in 0..h * w {
        let (y, x) = (i / w, i % w);
        let (r, c) = nearest(mask, h, w, y, x);
        assert_eq!(
            (planes.rows[i], planes.cols[i]),
            (r, c),
            "({y}, {x}) of\n{}",
            shown()
        );
        let square = (r - y as i32).pow(2) + (c - x as i32).pow(2);
        assert_eq!(distance[i], square as u32, "({y}, {x}) of\n{}", shown());
        let row = if r < 0 { h - 1 } else { r as usize };
        let source = 3 * (row * w + c as usize);
        assert_eq!(
            filled[3 * i..3 * i + 3],
            colours[source..source + 3],
            "of\n{}",
            shown()
        );
    }
    let parts = stand::labels(mask, h, w).unwrap();
    assert_eq!(
        (parts.plane, parts.count),
        labels(mask, h, w),
        "labels of\n{}",
        shown()
    );
    for iterations in [0, 1, 2, 3, h.max(w) as u64, u64::MAX - 1, u64::MAX] {
        let k = if iterations == 0 {
            h.max(w) as u64
        } else {
            iterations
        };
        let out = stand::squares(mask, h, w, iterations).unwrap();
        for (i, &out) in out.iter().enumerate() {
            let on = square(mask, w, k, i / w, i % w);
            assert_eq!(
                out,
                on as u8,
                "squares, {iterations} iterations, of\n{}",
                shown()
            );
        }
    }
}

#[test]
fn all_masks_of_at_most_nine_pixels() {
    for n in 1..=9usize {
        for h in (1..=n).filter(|h| n % h == 0) {
            for bits in 0..1u32 << n {
                let mask: Vec<u8> = (0..n).map(|i| (bits >> i & 1) as u8).collect();
                hold(&mask, h, n / h);
            }
        }
    }
}

#[test]
fn random_masks() {
    let mut random = Random(21);
    for round in 0..600 {
        let h = 1 + random.below(14);
        let w = 1 + random.below(14);
        let mask = random.mask(h * w, [5, 50, 200, 500, 600, 900][round % 6]);
        hold(&random.any_bytes(&mask), h, w);
    }
}

/// Square distance with nothing on: (y + 1)² + x².
#[test]
fn square_distance_of_an_empty_mask() {
    let (h, w) = (4096, 3);
    let out = stand::square_distance(&vec![0; h * w], h, w).unwrap();
    for (i, &out) in out.iter().enumerate() {
        assert_eq!(out as usize, (i / w + 1).pow(2) + (i % w).pow(2));
    }
}

/// The proved cases on nearest, labels and squares (R73 to R76).
#[test]
fn document_cases() {
    let planes = stand::nearest(&[1, 0, 1], 1, 3).unwrap();
    assert_eq!((planes.rows[1], planes.cols[1]), (0, 0));
    let planes = stand::nearest(&[1, 0, 1], 3, 1).unwrap();
    assert_eq!((planes.rows[1], planes.cols[1]), (0, 0));
    let planes = stand::nearest(&[0, 1, 1, 0], 2, 2).unwrap();
    assert_eq!((planes.rows[0], planes.cols[0]), (1, 0));
    assert_eq!((planes.rows[3], planes.cols[3]), (1, 0));
    let planes = stand::nearest(&[0; 4], 2, 2).unwrap();
    assert_eq!((planes.rows, planes.cols), (vec![-1; 4], vec![0; 4]));
    let parts = stand::labels(&[1, 0, 0, 1], 2, 2).unwrap();
    assert_eq!((parts.plane, parts.count), (vec![1, 0, 0, 2], 2));
    let parts = stand::labels(&[1, 0, 1, 1, 1, 1], 2, 3).unwrap();
    assert_eq!((parts.plane, parts.count), (vec![1, 0, 1, 1, 1, 1], 1));
    assert_eq!(
        stand::squares(&[1, 0, 0, 0, 0], 1, 5, 1).unwrap(),
        [1, 1, 0, 0, 0]
    );
    assert_eq!(stand::squares(&[1, 0, 0, 0, 0], 1, 5, 0).unwrap(), [1; 5]);
    assert_eq!(stand::squares(&[0; 5], 1, 5, 0).unwrap(), [0; 5]);
}

/// The safe functions answer the library's number for any sides and lengths.
#[test]
fn refusals_of_the_safe_functions() {
    let all = |mask: &[u8], colours: &[f64], h, w| {
        [
            stand::nearest(mask, h, w).err(),
            stand::labels(mask, h, w).err(),
            stand::squares(mask, h, w, 1).err(),
            stand::square_distance(mask, h, w).err(),
            stand::fill_transparent(colours, mask, h, w).err(),
        ]
    };
    for side in [0, 4097, 1 << 32, 1 << 63, usize::MAX] {
        for (h, w) in [(side, 1), (1, side), (side, side), (side, 4097)] {
            assert_eq!(all(&[1; 6], &[0.0; 18], h, w), [Some(Refusal::Side); 5]);
            assert_eq!(all(&[], &[], h, w), [Some(Refusal::Side); 5]);
        }
    }
    for len in [0, 5, 7, 12] {
        let refused = [Some(Refusal::InputLength); 5];
        assert_eq!(
            all(&vec![1; len], &[0.0; 18], 2, 3),
            refused,
            "mask of {len}"
        );
    }
    for len in [0, 6, 17, 19] {
        let colours = vec![0.0; len];
        assert_eq!(all(&[1; 6], &colours, 2, 3)[4], Some(Refusal::InputLength));
    }
    assert_eq!(all(&[1; 6], &[0.0; 18], 2, 3), [None; 5]);
    for refusal in [
        Refusal::Side,
        Refusal::InputLength,
        Refusal::Room,
        Refusal::Unknown(99),
    ] {
        assert_eq!(Refusal::check(refusal.number()), Err(refusal));
        let sentence = refusal.to_string();
        assert!(
            sentence.starts_with(&format!("refused {}: ", refusal.number())),
            "{sentence}"
        );
    }
}
