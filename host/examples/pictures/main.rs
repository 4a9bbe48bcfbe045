//! Draws the example pictures, cuts them as the program `stand` does, and says where the results
//! are: in `examples/` of the repository, or in the folder that is given.
//!
//! ```text
//! cargo run --release --manifest-path host/Cargo.toml --example pictures [-- FOLDER]
//! ```

mod draw;

use draw::Drawn;
use stand::decoding::Given;
use stand::filing;
use stand::placing::Place;
use stand::{netpbm, sha256, Chosen};
use std::error::Error;
use std::fs;
use std::path::{Path, PathBuf};
use std::process::ExitCode;

/// Writes a picture, cuts it, and says what came of it.
fn cut(folder: &Path, drawn: &Drawn) -> Result<(), Box<dyn Error>> {
    let path = folder.join(drawn.name).with_extension("pam");
    let bytes = netpbm::pam(&drawn.image);
    fs::write(&path, &bytes)?;
    println!("{}: {}", path.display(), drawn.about);
    let given = Given {
        image: drawn.image.clone(),
        sum: sha256::of(&bytes),
        decoded: None,
    };
    let results = match filing::results(given, &Chosen::default(), false) {
        Ok(results) => results,
        Err(why) => {
            println!("  {why}");
            return Ok(());
        }
    };
    let place = Place {
        folder: folder.into(),
        name: drawn.name.into(),
    };
    place.write(&results.files, true)?;
    let found = if results.record.keyed {
        "found"
    } else {
        "not found"
    };
    println!(
        "  card {found}; look at {}",
        place.path(filing::PREVIEW).display()
    );
    Ok(())
}

fn all() -> Result<(), Box<dyn Error>> {
    let own = || Path::new(env!("CARGO_MANIFEST_DIR")).with_file_name("examples");
    let folder = std::env::args_os().nth(1).map_or_else(own, PathBuf::from);
    fs::create_dir_all(&folder)?;
    draw::all().iter().try_for_each(|drawn| cut(&folder, drawn))
}

fn main() -> ExitCode {
    match all() {
        Ok(()) => ExitCode::SUCCESS,
        Err(why) => {
            eprintln!("{why}");
            ExitCode::from(2)
        }
    }
}
