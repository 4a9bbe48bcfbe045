//! A filed record and its picture, as they are read again.

use crate::failure::Failure;
use stand::filing;
use stand::placing::Place;
use stand::record::Record;
use std::fs::File;
use std::io::{self, Read};
use std::path::{Path, PathBuf};

/// The longest record that is read, in bytes; the form needs fewer than 2000.
const MOST_RECORD: u64 = 65_536;

fn text(path: &Path) -> Result<String, Failure> {
    let read = || {
        let mut text = String::new();
        let file = File::open(path)?;
        file.take(MOST_RECORD).read_to_string(&mut text)?;
        Ok(text)
    };
    read().map_err(|why| unread(path, why))
}

/// Why a record, or a file beside it, could not be read.
pub fn unread(path: &Path, why: io::Error) -> Failure {
    let stopped = Place::of(path, filing::RECORD).is_some_and(|place| place.stopped());
    let hint = if stopped {
        "; its results were being replaced when the program was stopped: the files whose names end \
         in .old are those of before, and cutting the picture again puts them back"
    } else {
        ""
    };
    Failure::file(format!("it could not be read: {why}{hint}"))
}

/// Reads a record.
pub fn record(path: &Path) -> Result<Record, Failure> {
    text(path).and_then(|text| Record::read(&text).map_err(Failure::file))
}

/// A file, and what is wrong with it.
pub type Wrong = (PathBuf, Failure);

/// The path of a record's picture: the one that was named, or the one that lies beside the record.
/// `None` where there is neither, and the record does not ask for one beside it.
pub fn picture(
    place: &Place,
    record: &Record,
    named: Option<&Path>,
) -> Result<Option<PathBuf>, Wrong> {
    let beside = [filing::PICTURE_PPM, filing::PICTURE_PAM].map(|end| place.path(end));
    let beside = beside.into_iter().find(|path| path.is_file());
    match named.map(PathBuf::from).or(beside) {
        None if record.original.is_some() => {
            let why = "it is not there; the picture that was cut is filed with its record";
            Err((place.path(filing::PICTURE_PPM), Failure::file(why)))
        }
        path => Ok(path),
    }
}
