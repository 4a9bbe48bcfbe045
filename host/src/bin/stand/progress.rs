//! What the program says while it works and afterwards. It goes on where its output is closed.

use std::fmt::Display;
use std::io::{self, ErrorKind, IsTerminal, Write};
use std::path::Path;
use std::sync::mpsc::{self, RecvTimeoutError, Sender};
use std::thread::{Builder, JoinHandle};
use std::time::{Duration, Instant};

/// Says a line on standard error.
pub fn say(text: impl Display) {
    let _ = writeln!(io::stderr(), "stand: {}", printable(text));
}

/// A text, or a path's, with a mark for what a terminal would take as a command.
fn printable(text: impl Display) -> String {
    let mark = |c: char| if c.is_control() { '?' } else { c };
    text.to_string().chars().map(mark).collect()
}

/// A path as it is shown.
pub fn shown(path: &Path) -> String {
    printable(path.display())
}

/// Writes a text to standard output. That nobody reads it is no failure.
pub fn tell(text: &str) -> io::Result<()> {
    let mut out = io::stdout().lock();
    match out.write_all(text.as_bytes()).and_then(|()| out.flush()) {
        Err(why) if why.kind() == ErrorKind::BrokenPipe => Ok(()),
        other => other,
    }
}

/// A step of the work. Where it takes longer than two seconds, and every ten seconds from then on,
/// it is said on standard error, unless the program is to be quiet.
pub struct Step {
    done: Option<Sender<()>>,
    thread: Option<JoinHandle<()>>,
}

impl Step {
    /// Begins a step, which ends where the value is dropped.
    pub fn begin(text: String, quiet: bool) -> Step {
        let (done, waiting) = mpsc::channel();
        let start = Instant::now();
        let run = move || {
            let mut pause = 2;
            while let Err(RecvTimeoutError::Timeout) =
                waiting.recv_timeout(Duration::from_secs(pause))
            {
                say(format!("{text}, {} s so far", start.elapsed().as_secs()));
                pause = 10;
            }
        };
        Step {
            done: Some(done),
            // Without the thread nothing is said.
            thread: if quiet {
                None
            } else {
                Builder::new().spawn(run).ok()
            },
        }
    }
}

impl Drop for Step {
    fn drop(&mut self) {
        drop(self.done.take());
        if let Some(thread) = self.thread.take() {
            let _ = thread.join();
        }
    }
}

/// How far the work on several pictures has come: a bar on standard error, where that is a terminal.
pub struct Bar {
    done: usize,
    all: usize,
    drawn: bool,
}

impl Bar {
    pub fn new(all: usize, quiet: bool) -> Bar {
        let bar = Bar {
            done: 0,
            all,
            drawn: all > 1 && !quiet && io::stderr().is_terminal(),
        };
        bar.draw();
        bar
    }

    /// Counts one more, and gives its number in words; none where there is one picture alone.
    pub fn next(&mut self) -> String {
        self.done += 1;
        match self.all {
            1 => String::new(),
            all => format!("{} of {all}: ", self.done),
        }
    }

    /// Draws the bar at the end of what was said.
    pub fn draw(&self) {
        if self.drawn {
            let _ = write!(io::stderr(), "\r{}", self.text());
        }
    }

    /// Takes the bar away, so that something can be said.
    pub fn clear(&self) {
        if self.drawn {
            let _ = write!(io::stderr(), "\r{}\r", " ".repeat(self.text().len()));
        }
    }

    fn text(&self) -> String {
        const WIDE: usize = 40;
        let full = WIDE * self.done / self.all;
        let bar = "#".repeat(full) + &".".repeat(WIDE - full);
        format!("[{bar}] {} of {}", self.done, self.all)
    }
}

#[cfg(test)]
mod tests {
    use super::*;

    #[test]
    fn bar() {
        let mut bar = Bar {
            done: 0,
            all: 200,
            drawn: false,
        };
        let texts: Vec<String> = (0..200).map(|_| (bar.next(), bar.text()).1).collect();
        assert_eq!(
            texts[16],
            format!("[{}{}] 17 of 200", "#".repeat(3), ".".repeat(37))
        );
        assert_eq!(texts[199], format!("[{}] 200 of 200", "#".repeat(40)));
        assert_eq!(Bar::new(1, true).next(), "");
    }
}
