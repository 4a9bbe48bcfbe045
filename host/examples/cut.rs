//! Cuts a small picture, a dark badge with an anti-aliased rim on white card, and shows its outline.

use stand::{Picture, Settings};

const H: usize = 17;
const W: usize = 33;

/// How much of pixel (y, x) the badge covers, from 0 to 1, by 4 × 4 samples; rows are drawn twice as tall as columns are wide.
fn cover(y: usize, x: usize) -> f64 {
    let mut inside = 0;
    for sample in 0..16 {
        let dy = 2.0 * (y as f64 + (sample / 4) as f64 / 4.0 - 8.0);
        let dx = x as f64 + (sample % 4) as f64 / 4.0 - 16.0;
        if dy * dy + dx * dx <= 160.0 {
            inside += 1;
        }
    }
    f64::from(inside) / 16.0
}

fn main() {
    let mut colours = Vec::new();
    for y in 0..H {
        for x in 0..W {
            let share = cover(y, x);
            for badge in [0.1, 0.2, 0.6] {
                colours.push(1.0 - share + share * badge);
            }
        }
    }
    let alpha = vec![255; H * W];
    let picture = Picture {
        colours: &colours,
        alpha: &alpha,
        h: H,
        w: W,
    };
    match stand::cut(&picture, &Settings::default()) {
        Ok(cut) => {
            println!(
                "keyed: {}; crop: rows {} to {}, columns {} to {} (ends excluded)",
                if cut.keyed { "yes" } else { "no" },
                cut.crop.rows.start,
                cut.crop.rows.end,
                cut.crop.cols.start,
                cut.crop.cols.end
            );
            for row in cut.mask.chunks(W) {
                let line: String = row
                    .iter()
                    .map(|m| if *m == 0 { '.' } else { '#' })
                    .collect();
                println!("{line}");
            }
        }
        Err(why) => println!("{why}"),
    }
}
