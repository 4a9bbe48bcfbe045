//! How the files of a cut come to their place.
//!
//! They are written under other names first, ending in `.part`, and the record is the last that gets
//! its own: where a record is, its files are whole. Where old files are replaced, each old one is
//! kept under its name with `.old` behind it until all new ones stand:
//!
//! 1. the new files are written under names that end in `.part`;
//! 2. each old file gets a second name that ends in `.old`;
//! 3. the old record's own name is taken away, the new files get their names, the record last;
//! 4. the names that end in `.old` are taken away.
//!
//! Stopped at any time, this leaves a record under its own name with all of its files (the old ones
//! before step 3, the new ones after it), or no such record and under the `.old` names all of the old
//! files. [`Place::recover`] tells these apart and puts the place in order.

use crate::filing::{ENDS, RECORD};
use std::ffi::OsString;
use std::fmt;
use std::fs::{self, File};
use std::io::{self, Write};
use std::path::{Path, PathBuf};

/// Why the files of a cut are not in their place.
#[derive(Debug)]
#[non_exhaustive]
pub enum Unwritten {
    /// A file of that name was there before, and was left as it is.
    Taken(PathBuf),
    /// It could not be written.
    Failed(PathBuf, io::Error),
    /// It could not be written, and then the old files could not all be put back: they have `.old`
    /// behind their names.
    Stranded(PathBuf, io::Error),
}

impl fmt::Display for Unwritten {
    fn fmt(&self, f: &mut fmt::Formatter<'_>) -> fmt::Result {
        match self {
            Unwritten::Taken(path) => write!(f, "{} is there already", path.display()),
            Unwritten::Failed(path, why) => {
                write!(f, "{} could not be written: {why}", path.display())
            }
            Unwritten::Stranded(path, why) => write!(
                f,
                "{} could not be written: {why}; the results of before are in files whose names \
                 end in .old",
                path.display()
            ),
        }
    }
}

impl std::error::Error for Unwritten {}

/// Where the files of a cut belong.
#[derive(Clone, Debug, PartialEq, Eq)]
pub struct Place {
    /// The folder of the files.
    pub folder: PathBuf,
    /// The first part of their names.
    pub name: OsString,
}

impl Place {
    /// The path of the file whose name ends in this.
    pub fn path(&self, end: &str) -> PathBuf {
        let mut name = self.name.clone();
        name.push(".");
        name.push(end);
        self.folder.join(name)
    }

    /// The place that a file belongs to, where its name ends in this; every end has two parts.
    ///
    /// ```
    /// use stand::placing::Place;
    /// let place = Place::of("cuts/a.b.record.txt".as_ref(), "record.txt").unwrap();
    /// assert_eq!(place.name, "a.b");
    /// assert_eq!(Place::of("cuts/a.txt".as_ref(), "record.txt"), None);
    /// ```
    pub fn of(path: &Path, end: &str) -> Option<Place> {
        let name = Path::new(path.file_stem()?).file_stem()?;
        let place = Place {
            folder: path.parent()?.into(),
            name: name.into(),
        };
        (place.path(end).file_name() == path.file_name()).then_some(place)
    }

    /// The path under which the old file of that end is kept while it is replaced.
    fn old(&self, end: &str) -> PathBuf {
        self.path(&format!("{end}.old"))
    }

    /// The ends of the files that are there.
    fn ends(&self) -> impl Iterator<Item = &'static str> + '_ {
        ENDS.into_iter().filter(|end| there(&self.path(end)))
    }

    /// A file of the cut's that is there already.
    pub fn taken(&self) -> Option<PathBuf> {
        self.first_there(&ENDS)
    }

    /// The first file of these ends that is there.
    pub fn first_there(&self, ends: &[&str]) -> Option<PathBuf> {
        let mut paths = ends.iter().map(|end| self.path(end));
        paths.find(|path| there(path))
    }

    /// Whether a replacement was stopped here, and the old files are those that end in `.old`.
    pub fn stopped(&self) -> bool {
        !there(&self.path(RECORD)) && there(&self.old(RECORD))
    }

    /// Puts a place in order where a replacement was stopped: with a record its files are whole, and
    /// what is left of older ones goes; without one the old files get their names back. Says whether
    /// they did.
    pub fn recover(&self) -> Result<bool, Unwritten> {
        let stopped = self.stopped();
        if stopped {
            self.put_back()?;
        } else if there(&self.path(RECORD)) {
            self.forget_old();
        }
        Ok(stopped)
    }

    /// Writes the files. Where one is there already, all are left as they are, unless `replace` asks
    /// for new ones. After a failure the files are those of before.
    pub fn write(&self, files: &[(&str, Vec<u8>)], replace: bool) -> Result<(), Unwritten> {
        let mut parts = self.parts(files)?;
        match self.taken() {
            None => self.put(&mut parts, files).inspect_err(|_| self.clear())?,
            Some(path) if !replace => return Err(Unwritten::Taken(path)),
            Some(_) => self.replace(&mut parts, files)?,
        }
        sync_folder(&self.folder);
        Ok(())
    }

    /// Writes one file and leaves all others as they are, whether they are of a cut or not. Where it
    /// is there already it is left too, unless `replace` asks for a new one. After a failure it is
    /// that of before.
    pub fn write_one(&self, end: &str, bytes: Vec<u8>, replace: bool) -> Result<(), Unwritten> {
        let file = [(end, bytes)];
        let mut parts = self.parts(&file)?;
        match self.first_there(&[end]) {
            Some(path) if !replace => return Err(Unwritten::Taken(path)),
            Some(path) if path.is_dir() => return Err(in_the_way(path)),
            _ => self.put(&mut parts, &file)?,
        }
        sync_folder(&self.folder);
        Ok(())
    }

    /// Writes new files under their first names.
    fn parts(&self, files: &[(&str, Vec<u8>)]) -> Result<Parts, Unwritten> {
        let mut parts = Parts::default();
        for (end, bytes) in files {
            let part = self.path(&format!("{end}.{}.part", std::process::id()));
            parts.write(part, bytes)?;
        }
        Ok(parts)
    }

    /// Puts new files in the place of old ones.
    fn replace(&self, parts: &mut Parts, files: &[(&str, Vec<u8>)]) -> Result<(), Unwritten> {
        if let Err(why) = self.ends().try_for_each(|end| self.keep(end)) {
            self.forget_old();
            return Err(why);
        }
        sync_folder(&self.folder);
        let done = self.clear_names().and_then(|()| self.put(parts, files));
        if let Err(Unwritten::Failed(path, why)) = done {
            return Err(match self.put_back() {
                Ok(()) => Unwritten::Failed(path, why),
                Err(_) => Unwritten::Stranded(path, why),
            });
        }
        sync_folder(&self.folder);
        self.forget_old();
        done
    }

    /// Gives an old file its second name.
    fn keep(&self, end: &str) -> Result<(), Unwritten> {
        let path = self.path(end);
        if path.is_dir() {
            return Err(in_the_way(path));
        }
        also(&path, &self.old(end)).map_err(|why| Unwritten::Failed(path, why))
    }

    /// Takes the old files' own names away, the record's first.
    fn clear_names(&self) -> Result<(), Unwritten> {
        let ends: Vec<&str> = self.ends().collect();
        for end in ends.into_iter().rev() {
            let path = self.path(end);
            fs::remove_file(&path).map_err(|why| Unwritten::Failed(path, why))?;
        }
        Ok(())
    }

    /// Gives the new files their names, the record's last.
    fn put(&self, parts: &mut Parts, files: &[(&str, Vec<u8>)]) -> Result<(), Unwritten> {
        for (at, (end, _)) in files.iter().enumerate() {
            let path = self.path(end);
            fs::rename(&parts.0[at], &path).map_err(|why| Unwritten::Failed(path, why))?;
        }
        parts.0.clear();
        Ok(())
    }

    /// Gives the old files their names back, the record's last, and removes new ones. The second
    /// names go when all is done, so this can be stopped and done again.
    fn put_back(&self) -> Result<(), Unwritten> {
        for end in ENDS {
            let (path, old) = (self.path(end), self.old(end));
            let back = || -> io::Result<()> {
                if there(&path) {
                    fs::remove_file(&path)?;
                }
                if there(&old) {
                    also(&old, &path)?;
                }
                Ok(())
            };
            back().map_err(|why| Unwritten::Failed(path.clone(), why))?;
        }
        sync_folder(&self.folder);
        self.forget_old();
        Ok(())
    }

    /// Takes the old files' second names away.
    fn forget_old(&self) {
        for end in ENDS {
            // What cannot be removed stays, and is no part of the results.
            let _ = fs::remove_file(self.old(end));
        }
    }

    /// Removes the files, where none was there before.
    fn clear(&self) {
        for end in ENDS.into_iter().rev() {
            let _ = fs::remove_file(self.path(end));
        }
    }
}

/// A folder that has a file's name.
fn in_the_way(path: PathBuf) -> Unwritten {
    Unwritten::Failed(path, io::Error::other("a folder has its name"))
}

/// Whether there is something of that name.
fn there(path: &Path) -> bool {
    path.symlink_metadata().is_ok()
}

/// Gives a file a second name; where the disk knows no second names, it is copied.
fn also(path: &Path, second: &Path) -> io::Result<()> {
    let copied = |_| {
        let mut part = OsString::from(second);
        part.push(format!(".{}.part", std::process::id()));
        fs::copy(path, &part)
            .and_then(|_| File::open(&part)?.sync_all())
            .and_then(|()| fs::rename(&part, second))
            .inspect_err(|_| drop(fs::remove_file(&part)))
    };
    fs::hard_link(path, second).or_else(copied)
}

/// New files under their first names; those that are left are removed.
#[derive(Default)]
struct Parts(Vec<PathBuf>);

impl Parts {
    /// Writes a new file, to the disk.
    fn write(&mut self, path: PathBuf, bytes: &[u8]) -> Result<(), Unwritten> {
        let failed = |why| Unwritten::Failed(path.clone(), why);
        let mut file = File::create_new(&path).map_err(failed)?;
        self.0.push(path.clone());
        file.write_all(bytes).map_err(failed)?;
        file.sync_all().map_err(failed)
    }
}

impl Drop for Parts {
    fn drop(&mut self) {
        for path in &self.0 {
            // What cannot be removed cannot be helped; the failure before it is told.
            let _ = fs::remove_file(path);
        }
    }
}

/// Has the names of a folder's files written to the disk, where the system can do that.
fn sync_folder(folder: &Path) {
    let folder = if folder.as_os_str().is_empty() {
        Path::new(".")
    } else {
        folder
    };
    if let Ok(folder) = File::open(folder) {
        let _ = folder.sync_all();
    }
}
