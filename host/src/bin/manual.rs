//! Writes the manual page `docs/stand.1` and the completion `host/completions/stand.bash` from the
//! text of `stand --help`.
//!
//! ```text
//! cargo run --release --manifest-path host/Cargo.toml --bin manual
//! ```

#[path = "../../support/manual.rs"]
mod manual;

use std::path::Path;
use std::process::ExitCode;

fn main() -> ExitCode {
    let help = include_str!("stand/help.txt");
    let root = Path::new(env!("CARGO_MANIFEST_DIR")).join("..");
    let page = manual::page(help, env!("CARGO_PKG_VERSION"));
    for (name, text) in [
        ("docs/stand.1", page),
        ("host/completions/stand.bash", manual::completion(help)),
    ] {
        if let Err(why) = std::fs::write(root.join(name), text) {
            eprintln!("{name} could not be written: {why}");
            return ExitCode::from(2);
        }
        println!("{name} is written");
    }
    ExitCode::SUCCESS
}
