//! The stand's program: cuts picture files. `stand --help` says how it is used, and docs/PROGRAM.md
//! says more.

mod batch;
mod check;
mod cutting;
mod failure;
mod next_pass;
mod options;
mod progress;
mod recorded;
mod sheet;

use failure::{WELL, WRONG};
use options::Asked;
use progress::{say, tell};
use std::io;
use std::process::ExitCode;

/// The versions of the program and of the proved library.
const VERSIONS: &str = concat!(
    "stand ",
    env!("CARGO_PKG_VERSION"),
    "\n",
    env!("STAND_PROVED"),
    "\n"
);

/// The status after standard output was written to.
fn told(result: io::Result<()>) -> u8 {
    match result {
        Ok(()) => WELL,
        Err(why) => {
            say(format!("standard output could not be written: {why}"));
            WRONG
        }
    }
}

fn main() -> ExitCode {
    let status = match options::read(std::env::args_os().skip(1)) {
        Err(sentence) => {
            say(format!("{sentence} (stand --help says how it is used)"));
            WRONG
        }
        Ok(Asked::Help) => told(tell(include_str!("help.txt"))),
        Ok(Asked::Version) => told(tell(VERSIONS)),
        Ok(Asked::Cut(work)) => batch::run(&work),
        Ok(Asked::Check(checks)) => check::run(&checks),
        Ok(Asked::NextPass(asked)) => next_pass::run(&asked),
        Ok(Asked::Sheet(folder)) => sheet::run(&folder),
    };
    ExitCode::from(status)
}
