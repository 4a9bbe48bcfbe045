//! Draws eight photographs of objects on card as hard as real ones, to try the program `stand` on:
//! each as NAME.ppm, as NAME.jpg where a program that writes JPEG is installed, and with its true
//! outline as NAME.truth.pbm.
//!
//! ```text
//! cargo run --release --manifest-path host/Cargo.toml --example photographs -- FOLDER [COLUMNS ROWS]
//! ```

#[path = "../../support/masks.rs"]
mod masks;
#[path = "../../support/photographs.rs"]
mod photographs;

use photographs::{jpeg, Scene, SCENES};
use stand::netpbm;
use std::error::Error;
use std::fs;
use std::path::{Path, PathBuf};
use std::process::ExitCode;

/// Draws a scene and writes its files.
fn draw(scene: &Scene, folder: &Path, h: usize, w: usize) -> Result<(), Box<dyn Error>> {
    let drawn = scene.photograph(h, w);
    let path = |end: &str| folder.join(format!("{}.{end}", scene.name));
    fs::write(path("ppm"), jpeg::ppm(&drawn.image))?;
    fs::write(path("truth.pbm"), netpbm::pbm(&drawn.truth, w))?;
    if let Some(bytes) = &drawn.jpeg {
        fs::write(path("jpg"), bytes)?;
    }
    println!("{}: {}", path("ppm").display(), scene.about);
    Ok(())
}

fn all() -> Result<(), Box<dyn Error>> {
    let words: Vec<String> = std::env::args().skip(1).collect();
    let (folder, w, h) = match &words[..] {
        [folder] => (folder, 1000, 750),
        [folder, w, h] => (folder, w.parse()?, h.parse()?),
        _ => return Err("give a folder, and the columns and rows of the pictures".into()),
    };
    if w == 0 || h == 0 {
        return Err("a picture has at least one column and one row".into());
    }
    let folder = PathBuf::from(folder);
    fs::create_dir_all(&folder)?;
    SCENES
        .iter()
        .try_for_each(|scene| draw(scene, &folder, h, w))
}

fn main() -> ExitCode {
    match all() {
        Ok(()) => ExitCode::SUCCESS,
        Err(why) => {
            eprintln!("{why}");
            ExitCode::from(2)
        }
    }
}
