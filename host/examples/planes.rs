//! What plane geometry says of a small mask: its parts, the nearest on-pixel of each pixel, and the mask grown by one.
//! Reads a plain PBM (P1) from standard input, or takes a badge with a detached spot when the input is empty.

use std::io::Read;

const BADGE: &str = "P1\n12 7\n000111000000\n001111100000\n011100110000\n011100110010\n\
                     011111110000\n001111100000\n000111000000\n";

/// Width, height and mask of a plain PBM.
fn read(text: &str) -> Option<(usize, usize, Vec<u8>)> {
    let lines = text.lines().filter(|line| !line.starts_with('#'));
    let rest: String = lines.collect::<Vec<_>>().join("\n");
    let mut words = rest.strip_prefix("P1")?.split_whitespace();
    let w = words.next()?.parse().ok()?;
    let h = words.next()?.parse().ok()?;
    let mut mask = Vec::new();
    for digit in words.flat_map(str::bytes) {
        mask.push(match digit {
            b'0' => 0,
            b'1' => 1,
            _ => return None,
        });
    }
    Some((w, h, mask))
}

fn show() -> Result<(), Box<dyn std::error::Error>> {
    let mut text = String::new();
    std::io::stdin().read_to_string(&mut text)?;
    if text.trim().is_empty() {
        text = BADGE.to_string();
    }
    let (w, h, mask) =
        read(&text).ok_or("the input is not a plain PBM (P1, width, height, digits)")?;
    let parts = stand::labels(&mask, h, w)?;
    let found = stand::nearest(&mask, h, w)?;
    let grown = stand::squares(&mask, h, w, 1)?;
    println!("{} parts, as labels:", parts.count);
    for row in parts.plane.chunks(w) {
        println!(
            "{}",
            row.iter().map(|n| format!("{n:>2}")).collect::<String>()
        );
    }
    println!("row,column of the nearest on-pixel of the four corners:");
    for (y, x) in [(0, 0), (0, w - 1), (h - 1, 0), (h - 1, w - 1)] {
        println!(
            "({y},{x}): {},{}",
            found.rows[y * w + x],
            found.cols[y * w + x]
        );
    }
    println!("within one row and one column of it:");
    for row in grown.chunks(w) {
        println!(
            "{}",
            row.iter()
                .map(|n| if *n == 0 { '.' } else { '#' })
                .collect::<String>()
        );
    }
    Ok(())
}

fn main() -> std::process::ExitCode {
    match show() {
        Ok(()) => std::process::ExitCode::SUCCESS,
        Err(why) => {
            eprintln!("{why}");
            std::process::ExitCode::FAILURE
        }
    }
}
