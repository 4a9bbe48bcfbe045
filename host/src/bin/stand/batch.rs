//! Cuts all pictures that were named, several at a time where that was asked for, and says what came
//! of them.

use crate::cutting::{self, Done, Outcome};
use crate::failure::{worse, UNFOUND, WELL};
use crate::options::Work;
use crate::progress::{say, shown, tell, Bar};
use crate::sheet::{self, Unfiled};
use crate::told;
use stand::filing;
use stand::placing::Place;
use stand::record::Record;
use std::path::Path;
use std::sync::atomic::{AtomicUsize, Ordering};
use std::sync::Mutex;
use std::thread;

/// Cuts all pictures, and gives the program's status.
pub fn run(work: &Work) -> u8 {
    let next = AtomicUsize::new(0);
    let report = Mutex::new(Report::new(work));
    let job = || {
        while let Some((path, place)) = work.pictures.get(next.fetch_add(1, Ordering::Relaxed)) {
            let outcome = cutting::cut(work, path, place);
            let mut report = report.lock().unwrap_or_else(|held| held.into_inner());
            report.add(path, place, outcome);
        }
    };
    let jobs = work.jobs.clamp(1, work.pictures.len().max(1));
    thread::scope(|scope| {
        (1..jobs).for_each(|_| drop(scope.spawn(job)));
        job();
    });
    let report = report.into_inner().unwrap_or_else(|held| held.into_inner());
    report.end()
}

/// What came of the pictures so far.
struct Report<'a> {
    work: &'a Work,
    status: u8,
    /// How many there were of each kind, in the order in which the kinds came up.
    counts: Vec<(String, usize)>,
    unfiled: Vec<Unfiled>,
    bar: Bar,
}

impl Report<'_> {
    fn new(work: &Work) -> Report<'_> {
        Report {
            work,
            status: WELL,
            counts: Vec::new(),
            unfiled: Vec::new(),
            bar: Bar::new(work.pictures.len(), work.quiet),
        }
    }

    fn several(&self) -> bool {
        self.work.pictures.len() > 1
    }

    fn ends_with(&mut self, status: u8) {
        self.status = worse(self.status, status);
    }

    fn count(&mut self, kind: &str) {
        match self.counts.iter_mut().find(|(known, _)| known == kind) {
            Some((_, n)) => *n += 1,
            None => self.counts.push((kind.into(), 1)),
        }
    }

    /// Says a text on standard output, unless the program is to be quiet.
    fn tell(&mut self, text: String) {
        if !self.work.quiet {
            let status = told(tell(&text));
            self.ends_with(status);
        }
    }

    /// Takes in what came of a picture, and says it.
    fn add(&mut self, path: &Path, place: &Place, outcome: Outcome) {
        self.bar.clear();
        let at = self.bar.next();
        match outcome {
            Outcome::Cut(done) => self.cut(&at, path, place, &done),
            Outcome::Kept(record) => {
                self.count("there already");
                self.tell(format!(
                    "{at}{}: {}\n",
                    shown(path),
                    kept(self.work, &record)
                ));
            }
            Outcome::LeftOut => {
                self.count("left out");
                self.tell(format!(
                    "{at}{}: left out, since it is a result of stand's; --name cuts it all the \
                     same\n",
                    shown(path)
                ));
            }
            Outcome::Failed(why) => {
                self.count(if why.number.is_some() {
                    "refused"
                } else {
                    "failed"
                });
                self.ends_with(why.status);
                say(format!("{}: {}", path.display(), why.text));
                self.unfiled.push(Unfiled {
                    picture: shown(path),
                    number: why.number,
                    text: why.text,
                });
            }
        }
        self.bar.draw();
    }

    fn cut(&mut self, at: &str, path: &Path, place: &Place, done: &Done) {
        self.count(&done.diagnosis.state.to_string());
        if done.unfound() {
            self.ends_with(UNFOUND);
        }
        if self.work.quiet {
            if done.unfound() {
                say(format!("{}: {}", path.display(), sentence(done)));
            }
        } else if self.several() {
            self.tell(format!("{at}{}: {}\n", shown(path), sentence(done)));
        } else {
            self.tell(summary(path, place, done));
        }
    }

    /// Writes what belongs to all pictures together, says how many there were of each kind, and
    /// gives the status.
    fn end(mut self) -> u8 {
        self.bar.clear();
        let mut sheet = None;
        if let (Some(folder), true) = (&self.work.out, self.several()) {
            match sheet::write(folder, &self.unfiled) {
                Ok(paths) => sheet = Some(paths),
                Err(why) => {
                    say(&why.text);
                    self.ends_with(why.status);
                }
            }
        }
        if self.several() {
            let all = self.work.pictures.len();
            let kinds: Vec<String> = self
                .counts
                .iter()
                .map(|(kind, n)| format!("{n} {kind}"))
                .collect();
            self.tell(format!("{all} pictures: {}\n", kinds.join(", ")));
        }
        if let Some([page, table]) = sheet {
            self.tell(format!(
                "to look at: {}; as a table: {}\n",
                shown(&page),
                shown(&table)
            ));
        }
        self.status
    }
}

/// What was found, with the advice, in a sentence or two.
fn sentence(done: &Done) -> String {
    match done.diagnosis.advice() {
        Some(advice) => format!("{}. {advice}", done.found()),
        None => done.found().into(),
    }
}

/// What is said of results that were there already.
fn kept(work: &Work, record: &Record) -> &'static str {
    if record.chosen == work.chosen {
        "its results are there already, and are kept"
    } else {
        "its results are there already, cut with OTHER SETTINGS, and are kept; --force replaces them"
    }
}

/// What was done to a picture, for standard output.
fn summary(path: &Path, place: &Place, done: &Done) -> String {
    let record = &done.record;
    let (rows, cols) = (&record.crop.rows, &record.crop.cols);
    let result = |end| shown(&place.path(end));
    let mut text = format!("{}: {}\n", shown(path), done.found());
    for line in &done.decoded {
        text += &format!("  {line}\n");
    }
    text += &format!(
        "  object: {} of {} pixels; crop box: rows {} to {}, columns {} to {} (ends excluded)\n",
        done.object,
        record.h * record.w,
        rows.start,
        rows.end,
        cols.start,
        cols.end
    );
    if let Some(advice) = done.diagnosis.advice() {
        text += &format!("  advice: {advice}\n");
    }
    let look = [filing::PREVIEW, filing::CUTOUT].map(result);
    text += &format!("  to look at: {}\n", look.join(", "));
    let there = |end: &&str| place.path(end).exists();
    let filed = [
        filing::RECORD,
        filing::PICTURE_PPM,
        filing::PICTURE_PAM,
        filing::MASK,
        filing::WEIGHTS,
        filing::WEIGHTS_PGM,
    ];
    let filed: Vec<String> = filed.into_iter().filter(there).map(result).collect();
    let words = if done.unfound() {
        "written, but not to be filed before it is looked at"
    } else {
        "to be filed"
    };
    text + &format!("  {words}: {}\n", filed.join(", "))
}
