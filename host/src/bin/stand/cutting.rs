//! Cuts one picture and writes its results.

use crate::failure::Failure;
use crate::options::Work;
use crate::progress::{say, Step};
use stand::decoding::{self, Given};
use stand::diagnosis::{Diagnosis, State};
use stand::filing;
use stand::placing::{Place, Unwritten};
use stand::record::Record;
use std::fs::{self, File};
use std::io::{self, Read};
use std::path::Path;

/// What came of a picture.
pub enum Outcome {
    Cut(Box<Done>),
    /// Its results were there already and were to be left; what they were cut with.
    Kept(Box<Record>),
    /// It is itself a result of an earlier cut.
    LeftOut,
    Failed(Failure),
}

/// A picture that was cut, and whose results are written.
pub struct Done {
    pub record: Record,
    pub diagnosis: Diagnosis,
    /// How many pixels the object has.
    pub object: usize,
    /// What was done to the given file before it was cut, a line each.
    pub decoded: Vec<String>,
}

/// Opens and reads a picture; `-` is standard input.
pub fn picture(path: &Path, quiet: bool) -> Result<Given, Failure> {
    let _step = Step::begin(format!("reading {}", path.display()), quiet);
    let input: Box<dyn Read> = if path == Path::new("-") {
        Box::new(io::stdin().lock())
    } else {
        if path.is_dir() {
            return Err(Failure::file("it is a folder; give a picture"));
        }
        let failed = |why| Failure::file(format!("it could not be opened: {why}"));
        Box::new(File::open(path).map_err(failed)?)
    };
    Ok(decoding::read(input, path)?)
}

/// Whether a file is a result of an earlier cut: it has a result's name, and its record is beside it.
/// What shows the next pass is known by its name alone, since it may lie in another folder than its
/// record.
fn is_result(path: &Path) -> bool {
    let places = filing::ENDS.iter().filter_map(|end| Place::of(path, end));
    let filed = places
        .map(|place| place.path(filing::RECORD))
        .any(|record| record.is_file());
    filed || Place::of(path, filing::NEXT_PASS).is_some()
}

/// What is to be written at a place.
pub struct Target<'a> {
    pub place: &'a Place,
    /// The ends of the files.
    pub ends: &'a [&'a str],
    /// Whether files that are there already are replaced.
    pub force: bool,
    /// The options that choose another place.
    pub options: &'a str,
}

impl Target<'_> {
    /// Refuses a place that has no folder, where something lies that is to be kept, or where the
    /// picture itself lies.
    pub fn usable(&self, picture: &Path) -> Result<(), Failure> {
        let (place, options) = (self.place, self.options);
        let folder = &place.folder;
        if !folder.as_os_str().is_empty() && !folder.is_dir() {
            let text = format!("there is no folder {}; make it first", folder.display());
            return Err(Failure::file(text));
        }
        match place.first_there(self.ends) {
            Some(taken) if !self.force => {
                return Err(Failure::unwritten(Unwritten::Taken(taken), options))
            }
            _ => {}
        }
        let own = fs::canonicalize(picture).ok();
        let mut ends = self.ends.iter().map(|end| place.path(end));
        if own.is_some() && ends.any(|path| fs::canonicalize(path).ok() == own) {
            let text = "a result would take the picture's place";
            return Err(Failure::file(format!("{text}; choose another {options}")));
        }
        Ok(())
    }
}

/// The record of results that are there already.
fn kept(place: &Place) -> Option<Record> {
    let text = fs::read_to_string(place.path(filing::RECORD)).ok()?;
    Record::read(&text).ok()
}

/// Cuts one picture and writes its results.
pub fn cut(work: &Work, path: &Path, place: &Place) -> Outcome {
    if !work.named && is_result(path) {
        return Outcome::LeftOut;
    }
    match place.recover() {
        Ok(false) => {}
        Ok(true) => say(format!(
            "{}: its results were being replaced when the program was stopped; those of before \
             have their names again",
            path.display()
        )),
        Err(why) => return Outcome::Failed(why.into()),
    }
    if work.keep_going {
        if let Some(record) = kept(place) {
            return Outcome::Kept(Box::new(record));
        }
    }
    match write(work, path, place) {
        Ok(done) => Outcome::Cut(Box::new(done)),
        Err(why) => Outcome::Failed(why),
    }
}

fn write(work: &Work, path: &Path, place: &Place) -> Result<Done, Failure> {
    let target = Target {
        place,
        ends: &filing::ENDS,
        force: work.force,
        options: "--name or --out",
    };
    target.usable(path)?;
    // Of several pictures the count is said, and not the steps of each.
    let quiet = work.quiet || work.pictures.len() > 1;
    let mut given = picture(path, quiet)?;
    if path == Path::new("-") {
        given = decoding::kept(given);
    }
    let (h, w) = (given.image.h, given.image.w);
    let begin = |what: &str| {
        let text = format!("{what} {} ({w} by {h})", path.display());
        if h * w >= 4_000_000 && !quiet {
            say(&text);
        }
        Step::begin(text, quiet)
    };
    let decoded = given
        .decoded
        .as_mut()
        .map(|decoded| std::mem::take(&mut decoded.done));
    let step = begin("cutting");
    let results = filing::results(given, &work.chosen, work.small_weights)?;
    drop(step);
    let _step = begin("writing the results of");
    place.write(&results.files, work.force)?;
    Ok(Done {
        record: results.record,
        diagnosis: results.diagnosis,
        object: results.object,
        decoded: decoded.unwrap_or_default(),
    })
}

impl Done {
    /// What was found in the picture, in words.
    pub fn found(&self) -> &'static str {
        match self.diagnosis.state {
            State::Found => "plain card found around the object",
            State::Alpha => "cut by its alpha",
            State::NotSought => {
                "no plain card looked for, so the whole picture counts as the object"
            }
            State::NotFound => "no plain card found, so the whole picture counts as the object",
            State::Bare => "all of it is card, so the whole picture counts as the object",
        }
    }

    /// Whether card was sought, and there is no outline.
    pub fn unfound(&self) -> bool {
        matches!(self.diagnosis.state, State::NotFound | State::Bare)
    }
}
