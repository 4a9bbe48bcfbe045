//! Checks filed results: the files beside a record against it, and the picture, cut again.

use crate::cutting::picture;
use crate::failure::{worse, Failure, REFUSED, WELL, WRONG};
use crate::options::Checks;
use crate::progress::{say, shown, tell, Step};
use crate::{recorded, told};
use stand::decoding::Given;
use stand::filing;
use stand::placing::Place;
use stand::record::Record;
use stand::sha256::Summed;
use std::fs::File;
use std::io;
use std::path::Path;

/// Checks all records, and gives the program's status.
pub fn run(checks: &Checks) -> u8 {
    let mut counts = [0; 3];
    let mut status = WELL;
    for (record, picture) in &checks.records {
        let mut found = Found::new(checks.quiet);
        found.record(record, picture.as_deref());
        status = worse(status, found.status);
        counts[usize::from(found.status)] += 1;
    }
    if checks.records.len() > 1 && !checks.quiet {
        let [well, differ, failed] = counts;
        let text = format!(
            "{} records: {well} as recorded, {differ} NOT as recorded, {failed} not wholly checked\n",
            checks.records.len()
        );
        status = worse(status, told(tell(&text)));
    }
    status
}

/// The SHA-256 of a file.
fn sum(path: &Path, quiet: bool) -> Result<String, Failure> {
    let _step = Step::begin(format!("reading {}", path.display()), quiet);
    let read = || {
        let mut file = Summed::new(File::open(path)?);
        io::copy(&mut file, &mut io::sink())?;
        Ok(file.sum.hex())
    };
    read().map_err(|why| recorded::unread(path, why))
}

/// What the check of a record found so far.
struct Found {
    quiet: bool,
    status: u8,
}

impl Found {
    fn new(quiet: bool) -> Found {
        let status = WELL;
        Found { quiet, status }
    }

    /// Says of something whether it is as recorded.
    fn line(&mut self, what: &str, alike: bool) {
        let answer = if alike {
            "as recorded"
        } else {
            self.status = worse(self.status, REFUSED);
            "NOT as recorded"
        };
        if !(alike && self.quiet) {
            let status = told(tell(&format!("{what}: {answer}\n")));
            self.status = worse(self.status, status);
        }
    }

    /// Says what could not be checked, and why.
    fn failed(&mut self, of: &Path, why: &Failure) {
        say(format!("{}: {}", of.display(), why.text));
        self.status = worse(self.status, WRONG);
    }

    /// Checks a record with the files beside it, and with its picture.
    fn record(&mut self, path: &Path, given: Option<&Path>) {
        let (Some(place), Some(record)) = (Place::of(path, filing::RECORD), self.read(path)) else {
            return;
        };
        self.file(&place.path(filing::MASK), &record.mask);
        self.weights(&place, &record);
        match recorded::picture(&place, &record, given) {
            Ok(Some(path)) => self.picture(&path, &record),
            Ok(None) => {}
            Err((path, why)) => self.failed(&path, &why),
        }
    }

    fn read(&mut self, path: &Path) -> Option<Record> {
        let record = recorded::record(path);
        record.map_err(|why| self.failed(path, &why)).ok()
    }

    /// Compares a file with its sum.
    fn file(&mut self, path: &Path, recorded: &str) {
        match sum(path, self.quiet) {
            Ok(own) => self.line(&shown(path), own == recorded),
            Err(why) => self.failed(path, &why),
        }
    }

    /// Compares the weights: of their two forms those that are there, and one must be.
    fn weights(&mut self, place: &Place, record: &Record) {
        let wide = place.path(filing::WEIGHTS);
        let small = place.path(filing::WEIGHTS_PGM);
        let recorded = record.weights_pgm.as_deref();
        let small = recorded.filter(|_| small.exists()).map(|sum| (small, sum));
        if wide.exists() || small.is_none() {
            self.file(&wide, &record.weights);
        }
        if let Some((path, sum)) = small {
            self.file(&path, sum);
        }
    }

    /// Compares a picture with its sum, and cuts it again.
    fn picture(&mut self, path: &Path, record: &Record) {
        let given = match picture(path, self.quiet) {
            Ok(given) => given,
            Err(why) => return self.failed(path, &why),
        };
        match (&given.decoded, &record.original) {
            (None, _) => self.line(&shown(path), given.sum == record.picture),
            (Some(decoded), original) => {
                self.line(&shown(path), original.as_ref() == Some(&decoded.original));
                let what = "its pixels, as they are decoded here";
                self.line(what, given.sum == record.picture);
            }
        }
        if let Err(why) = self.again(path, &given, record) {
            self.failed(path, &why);
        }
    }

    /// Cuts a picture with the recorded settings, and compares what comes of it.
    fn again(&mut self, path: &Path, given: &Given, record: &Record) -> Result<(), Failure> {
        let step = Step::begin(format!("cutting {}", path.display()), self.quiet);
        let cut = given.image.cut_by(&record.chosen)?;
        let again = filing::filed(given, &record.chosen, &cut).record;
        drop(step);
        let alike = [
            ("sides", (again.h, again.w) == (record.h, record.w)),
            ("mask", again.mask == record.mask),
            ("weights", again.weights == record.weights),
            ("keyed flag", again.keyed == record.keyed),
            ("crop box", again.crop == record.crop),
        ];
        for (what, alike) in alike {
            self.line(
                &format!("{what}, cut again with the recorded settings"),
                alike,
            );
        }
        Ok(())
    }
}
