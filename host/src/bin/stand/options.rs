//! The words after the program's name.

use stand::filing;
use stand::placing::Place;
use stand::{CardColour, Chosen, Settings};
use std::ffi::{OsStr, OsString};
use std::path::{Path, PathBuf};

/// What the words ask for.
#[derive(Debug, PartialEq)]
pub enum Asked {
    Help,
    Version,
    Cut(Work),
    Check(Checks),
    NextPass(NextPasses),
    /// The contact sheet and the summary of a folder.
    Sheet(PathBuf),
}

/// Pictures to be cut, and how.
#[derive(Debug, Default, PartialEq)]
pub struct Work {
    pub chosen: Chosen,
    /// Each picture with the place of its results; `-` is standard input.
    pub pictures: Vec<(PathBuf, Place)>,
    /// The folder that all results go to, where one was named.
    pub out: Option<PathBuf>,
    /// Whether the results have a name of their own, and are not called after their picture.
    pub named: bool,
    pub force: bool,
    pub quiet: bool,
    pub small_weights: bool,
    pub keep_going: bool,
    /// How many pictures are cut at the same time; 0 where it was not said.
    pub jobs: usize,
}

/// Records to be checked.
#[derive(Debug, Default, PartialEq)]
pub struct Checks {
    /// Each record with its picture, where that was named.
    pub records: Vec<(PathBuf, Option<PathBuf>)>,
    pub quiet: bool,
}

/// Records whose next pass is to be shown.
#[derive(Debug, Default, PartialEq)]
pub struct NextPasses {
    pub records: Vec<Shown>,
    pub force: bool,
    pub quiet: bool,
}

/// A record whose next pass is to be shown.
#[derive(Debug, PartialEq)]
pub struct Shown {
    pub record: PathBuf,
    /// The place that it belongs to.
    pub beside: Place,
    /// Its picture, where that was named.
    pub picture: Option<PathBuf>,
    /// The place of what is written.
    pub place: Place,
}

/// The words as they are read one after the other.
#[derive(Default)]
struct Reading {
    work: Work,
    files: Vec<OsString>,
    name: Option<OsString>,
    check: bool,
    next_pass: bool,
    sheet: Option<PathBuf>,
    /// The options that were given.
    given: Vec<String>,
}

/// What the words ask for, or a sentence that says what is wrong with them.
pub fn read(words: impl IntoIterator<Item = OsString>) -> Result<Asked, String> {
    let mut reading = Reading::default();
    let mut words = words.into_iter();
    while let Some(word) = words.next() {
        let text = word.to_str().unwrap_or("");
        if text == "--" {
            reading.files.extend(words.by_ref());
        } else if word == "-" || !word.as_encoded_bytes().starts_with(b"-") {
            reading.files.push(word);
        } else if matches!(text, "--help" | "-h") {
            return Ok(Asked::Help);
        } else if matches!(text, "--version" | "-V") {
            return Ok(Asked::Version);
        } else if reading.flag(text) {
            reading.given.push(text.into());
        } else {
            let (option, value) = match text.split_once('=') {
                Some((option, value)) => (option, Some(value.into())),
                None => (text, None),
            };
            if !OPTIONS.contains(&option) {
                return Err(format!("there is no option {}", shown(&word)));
            }
            let value = value.or_else(|| words.next());
            reading.option(option, value.ok_or(format!("{option} needs a value"))?)?;
            reading.given.push(option.into());
        }
    }
    reading.asked()
}

/// The options that have a value.
const OPTIONS: [&str; 8] = [
    "--alpha-threshold",
    "--fringe",
    "--tolerance",
    "--card-colour",
    "--out",
    "--name",
    "--jobs",
    "--sheet",
];

/// A word as it is shown in a sentence.
fn shown(word: &OsStr) -> impl std::fmt::Display + '_ {
    Path::new(word).display()
}

/// A whole number of 64 bits.
fn whole(option: &str, value: &OsStr) -> Result<i64, String> {
    let number = value.to_str().and_then(|text| text.parse().ok());
    let shown = shown(value);
    number.ok_or_else(|| format!("{option} takes a whole number, such as 1, and not \"{shown}\""))
}

/// A number. What is infinite or no number is left to the cut, which refuses it with 5.
fn real(option: &str, value: &OsStr) -> Result<f64, String> {
    let number = value.to_str().and_then(|text| text.parse().ok());
    let shown = shown(value);
    number.ok_or_else(|| format!("{option} takes a number, such as 0.03125, and not \"{shown}\""))
}

/// How many pictures are cut at the same time.
fn jobs(option: &str, value: &OsStr) -> Result<usize, String> {
    match whole(option, value)? {
        n @ 1..=256 => Ok(n as usize),
        n => Err(format!(
            "{option} takes a number from 1 to 256, and not {n}"
        )),
    }
}

impl Reading {
    /// Takes a word without a value; says whether it is one.
    fn flag(&mut self, text: &str) -> bool {
        let settings = &mut self.work.chosen.settings;
        match text {
            "--no-key" => settings.key_bg = false,
            "--no-crop" => settings.crop_to_alpha = false,
            "--force" => self.work.force = true,
            "--quiet" => self.work.quiet = true,
            "--small-weights" => self.work.small_weights = true,
            "--keep-going" => self.work.keep_going = true,
            "--check" => self.check = true,
            "--next-pass" => self.next_pass = true,
            _ => return false,
        }
        true
    }

    /// Takes an option with its value.
    fn option(&mut self, option: &str, value: OsString) -> Result<(), String> {
        let Chosen {
            settings,
            card_colour,
        } = &mut self.work.chosen;
        match option {
            "--alpha-threshold" => settings.alpha_threshold = whole(option, &value)?,
            "--fringe" => settings.key_bg_fringe = whole(option, &value)?,
            "--tolerance" => settings.key_bg_tolerance = real(option, &value)?,
            // What is no colour is left to the cut, which refuses it with 11.
            "--card-colour" => *card_colour = Some(CardColour::new(value.as_encoded_bytes())),
            "--out" => self.work.out = Some(value.into()),
            "--name" => self.name = Some(value),
            "--jobs" => self.work.jobs = jobs(option, &value)?,
            _ => self.sheet = Some(value.into()),
        }
        Ok(())
    }

    /// What all words together ask for.
    fn asked(mut self) -> Result<Asked, String> {
        if let Some(folder) = self.sheet.take() {
            self.alone("--sheet", &[], "it takes a folder and nothing else")?;
            if let Some(file) = self.files.first() {
                return Err(format!(
                    "--sheet takes a folder, and no file {}",
                    shown(file)
                ));
            }
            return Ok(Asked::Sheet(folder));
        }
        if self.check && self.next_pass {
            let text = "--check looks at what is filed, and --next-pass at one more pass: give one";
            return Err(text.into());
        }
        if self.check {
            self.alone("--check", &[], "a check goes by the settings in the record")?;
            return Ok(Asked::Check(Checks {
                quiet: self.work.quiet,
                records: pairs(self.files, "to check")?,
            }));
        }
        if self.next_pass {
            return self.next_passes();
        }
        self.cuts()
    }

    /// Refuses options that mean nothing beside this one; --quiet and those that fit mean something.
    fn alone(&self, option: &str, fit: &[&str], because: &str) -> Result<(), String> {
        let fits = |given: &&String| {
            *given == option || *given == "--quiet" || fit.contains(&given.as_str())
        };
        match self.given.iter().find(|given| !fits(given)) {
            Some(other) => Err(format!("{other} means nothing beside {option}: {because}")),
            None => Ok(()),
        }
    }

    /// The records whose next pass is to be shown, each with its place.
    fn next_passes(self) -> Result<Asked, String> {
        let because = "it goes by the settings in the record, and takes --out, --force and --quiet";
        self.alone("--next-pass", &["--out", "--force"], because)?;
        let mut records: Vec<Shown> = Vec::new();
        for (record, picture) in pairs(self.files, "whose next pass is to be shown")? {
            let Some(beside) = Place::of(&record, filing::RECORD) else {
                continue;
            };
            let mut place = beside.clone();
            place.folder = self.work.out.clone().unwrap_or(place.folder);
            if let Some(other) = records.iter().find(|other| other.place == place) {
                return Err(format!(
                    "{} and {} would have pictures of one name; give them one by one, each with \
                     its own --out",
                    other.record.display(),
                    record.display()
                ));
            }
            records.push(Shown {
                record,
                beside,
                picture,
                place,
            });
        }
        Ok(Asked::NextPass(NextPasses {
            records,
            force: self.work.force,
            quiet: self.work.quiet,
        }))
    }

    /// The pictures to be cut, each with its place.
    fn cuts(mut self) -> Result<Asked, String> {
        if self.files.is_empty() {
            return Err("give a picture to cut".into());
        }
        if self.name.is_some() && self.files.len() > 1 {
            return Err("--name is for one picture; give one, or leave --name away".into());
        }
        if self.work.force && self.work.keep_going {
            return Err("--force replaces results, and --keep-going leaves them: give one".into());
        }
        self.work.named = self.name.is_some();
        for picture in std::mem::take(&mut self.files) {
            let place = self.place(Path::new(&picture))?;
            let mut before = self.work.pictures.iter();
            if let Some((other, _)) = before.find(|(_, other)| *other == place) {
                return Err(format!(
                    "{} and {} would have results of one name; cut them one by one with --name",
                    other.display(),
                    shown(&picture)
                ));
            }
            self.work.pictures.push((picture.into(), place));
        }
        Ok(Asked::Cut(self.work))
    }

    /// Where the results of a picture belong.
    fn place(&self, picture: &Path) -> Result<Place, String> {
        let input = picture == Path::new("-");
        let name = match &self.name {
            Some(name) => name.clone(),
            None if input => {
                return Err("a picture from standard input has no name: add --name NAME".into())
            }
            None => match picture.file_stem() {
                Some(stem) => stem.into(),
                None => return Err(format!("{} is no file", picture.display())),
            },
        };
        if Path::new(&name).file_name() != Some(&name) {
            return Err(format!("--name \"{}\" is no file's name", shown(&name)));
        }
        let beside = if input { None } else { picture.parent() };
        let out = self.work.out.as_deref();
        let folder = out.or(beside).unwrap_or(Path::new(""));
        Ok(Place {
            folder: folder.into(),
            name,
        })
    }
}

/// The options that choose this: the fringe, and all others that are not as without an option.
pub fn options_of(chosen: &Chosen) -> String {
    let (own, usual) = (&chosen.settings, Settings::default());
    let mut words = vec![format!("--fringe {}", own.key_bg_fringe)];
    if own.alpha_threshold != usual.alpha_threshold {
        words.push(format!("--alpha-threshold {}", own.alpha_threshold));
    }
    if own.key_bg_tolerance != usual.key_bg_tolerance {
        words.push(format!("--tolerance {}", own.key_bg_tolerance));
    }
    if let Some(colour) = &chosen.card_colour {
        words.push(format!("--card-colour {colour}"));
    }
    for (usual, word) in [(own.key_bg, "--no-key"), (own.crop_to_alpha, "--no-crop")] {
        if !usual {
            words.push(word.into());
        }
    }
    words.join(" ")
}

/// The name that a record shares with its files.
fn name_of_record(path: &Path) -> Option<OsString> {
    Place::of(path, filing::RECORD).map(|place| place.name)
}

/// The name of the record to which a picture belongs: NAME.ppm, NAME.jpg, NAME.picture.ppm.
fn name_of_picture(path: &Path) -> Option<OsString> {
    let filed = [filing::PICTURE_PPM, filing::PICTURE_PAM];
    match filed.iter().find_map(|end| Place::of(path, end)) {
        Some(place) => Some(place.name),
        None => path.file_stem().map(OsString::from),
    }
}

/// Records and pictures, put together by their names; one record and one picture belong together
/// whatever their names are. `what` says what a record is needed for.
fn pairs(files: Vec<OsString>, what: &str) -> Result<Vec<(PathBuf, Option<PathBuf>)>, String> {
    let files = files.into_iter().map(PathBuf::from);
    let (records, pictures): (Vec<PathBuf>, Vec<PathBuf>) =
        files.partition(|path| name_of_record(path).is_some());
    if records.is_empty() {
        let end = filing::RECORD;
        return Err(format!("give a record {what}; its name ends in .{end}"));
    }
    let mut pairs: Vec<_> = records.into_iter().map(|record| (record, None)).collect();
    let single = pairs.len() == 1 && pictures.len() == 1;
    for picture in pictures {
        let name = name_of_picture(&picture);
        let own = |(record, _): &&mut (PathBuf, Option<PathBuf>)| {
            single || name_of_record(record) == name
        };
        match pairs.iter_mut().find(own) {
            Some((_, place @ None)) => *place = Some(picture),
            Some((record, _)) => {
                return Err(format!("{} has two pictures; give one", record.display()))
            }
            None => {
                return Err(format!(
                    "no record has the name of {}; give one record with one picture",
                    picture.display()
                ))
            }
        }
    }
    Ok(pairs)
}

#[cfg(test)]
mod tests {
    use super::*;

    fn words(text: &str) -> Result<Asked, String> {
        read(text.split_whitespace().map(OsString::from))
    }

    fn work(text: &str) -> Work {
        match words(text) {
            Ok(Asked::Cut(work)) => work,
            other => panic!("{text}: {other:?}"),
        }
    }

    fn place(folder: &str, name: &str) -> Place {
        Place {
            folder: folder.into(),
            name: name.into(),
        }
    }

    #[test]
    fn settings() {
        let settings = |text: &str| work(text).chosen.settings;
        assert_eq!(work("a.pam").chosen, Chosen::from(Settings::default()));
        let all = "--alpha-threshold -7 --no-key --fringe=3 a.pam --tolerance 1e-3 --no-crop";
        let want = Settings {
            alpha_threshold: -7,
            key_bg: false,
            key_bg_fringe: 3,
            key_bg_tolerance: 0.001,
            crop_to_alpha: false,
        };
        assert_eq!(work(all).chosen, Chosen::from(want));
        assert!(settings("--tolerance inf a").key_bg_tolerance.is_infinite());
        assert!(settings("--tolerance NaN a").key_bg_tolerance.is_nan());
        let most = format!("a --alpha-threshold {}", i64::MIN);
        assert_eq!(settings(&most).alpha_threshold, i64::MIN);
    }

    /// Any text is taken, and letters of either case are one colour.
    #[test]
    fn card_colour() {
        let given = |text: &str| work(text).chosen.card_colour;
        assert_eq!(given("a"), None);
        let colour = Some(CardColour::from([0xc0, 0xff, 0xee]));
        assert_eq!(given("a --card-colour C0FFee"), colour);
        assert_eq!(given("--card-colour=c0ffee a"), colour);
        for text in ["", "#c0ffee", "white", "--force"] {
            let own = read(["--card-colour", text, "a"].map(OsString::from));
            let Ok(Asked::Cut(work)) = own else {
                panic!("{text}: {own:?}")
            };
            assert_eq!(work.chosen.card_colour, Some(CardColour::new(text)));
            assert!(!work.force);
        }
    }

    #[test]
    fn places() {
        let of = |text: &str| work(text).pictures[0].1.clone();
        assert_eq!(of("a.pam"), place("", "a"));
        assert_eq!(of("x/y.z/a.b.pam"), place("x/y.z", "a.b"));
        assert_eq!(of("x/a --out o"), place("o", "a"));
        assert_eq!(of("x/a.pam --name n"), place("x", "n"));
        assert_eq!(of("- --name n"), place("", "n"));
        assert_eq!(of("-- --a.pam"), place("", "--a"));
        assert_eq!(work("a.pam b.pam").pictures.len(), 2);
    }

    #[test]
    fn other_calls() {
        assert_eq!(words("--help a"), Ok(Asked::Help));
        assert_eq!(words("-V"), Ok(Asked::Version));
        assert_eq!(words("--sheet cuts"), Ok(Asked::Sheet("cuts".into())));
        assert!(work("a --force --quiet").force);
        assert_eq!(work("a b c --jobs 2").jobs, 2);
        assert_eq!(work("a").jobs, 0);
    }

    #[test]
    fn checks() {
        let of = |text: &str| match words(text) {
            Ok(Asked::Check(checks)) => checks.records,
            other => panic!("{text}: {other:?}"),
        };
        let pair = |record: &str, picture: &str| {
            let picture = (!picture.is_empty()).then(|| PathBuf::from(picture));
            (PathBuf::from(record), picture)
        };
        let (a, b) = ("x/a.record.txt", "b.c.record.txt");
        assert_eq!(of(&format!("--check {a}")), [pair(a, "")]);
        assert_eq!(of(&format!("p --check {a}")), [pair(a, "p")]);
        let both = of(&format!("--check {a} {b} b.c.ppm y/a.picture.ppm"));
        assert_eq!(both, [pair(a, "y/a.picture.ppm"), pair(b, "b.c.ppm")]);
        let one = of(&format!("--check {a} {b} a.jpg"));
        assert_eq!(one, [pair(a, "a.jpg"), pair(b, "")]);
    }

    #[test]
    fn next_passes() {
        let of = |text: &str| match words(&format!("--next-pass {text}")) {
            Ok(Asked::NextPass(asked)) => asked,
            other => panic!("{text}: {other:?}"),
        };
        let asked = of("x/a.record.txt b.c.record.txt b.c.ppm");
        assert!(!asked.force && !asked.quiet);
        let shown = |folder: &str, name: &str, picture: &str, out: &str| Shown {
            record: place(folder, name).path(filing::RECORD),
            beside: place(folder, name),
            picture: (!picture.is_empty()).then(|| picture.into()),
            place: place(out, name),
        };
        let want = [shown("x", "a", "", "x"), shown("", "b.c", "b.c.ppm", "")];
        assert_eq!(asked.records, want);
        let asked = of("x/a.record.txt p.jpg --out o --force --quiet");
        assert!(asked.force && asked.quiet);
        assert_eq!(asked.records, [shown("x", "a", "p.jpg", "o")]);
    }

    /// The options of what is chosen choose it.
    #[test]
    fn options_of_what_is_chosen() {
        for text in [
            "--fringe 1",
            "--fringe -3",
            "--fringe 9223372036854775807 --alpha-threshold -7 --tolerance 0.0000001",
            "--fringe 2 --tolerance 0.1 --card-colour c0ffee --no-key --no-crop",
        ] {
            let chosen = work(&format!("{text} a")).chosen;
            assert_eq!(options_of(&chosen), text);
        }
        assert_eq!(options_of(&Chosen::default()), "--fringe 1");
    }

    #[test]
    fn sentences() {
        for (text, part) in [
            ("", "give a picture"),
            ("--tolerence 1 a", "no option --tolerence"),
            ("--no-key=1 a", "no option --no-key=1"),
            ("-x a", "no option -x"),
            ("a --fringe", "needs a value"),
            ("a --card-colour", "needs a value"),
            (
                "--check a.record.txt --card-colour c0ffee",
                "--card-colour means nothing",
            ),
            ("a --fringe 1.5", "whole number"),
            ("a --fringe=", "whole number"),
            ("a --alpha-threshold 9223372036854775808", "whole number"),
            ("a --tolerance 0,03", "takes a number"),
            ("a b --name n", "one picture"),
            ("-", "--name NAME"),
            ("..", "no file"),
            ("a --name x/y", "no file's name"),
            ("a --name ..", "no file's name"),
            ("a --name=", "no file's name"),
            ("a.pam a.ppm", "one name"),
            ("--check r a b", "give a record to check"),
            ("--check a.record.txt a.ppm a.pgm", "has two pictures"),
            (
                "--check a.record.txt b.record.txt c.ppm",
                "no record has the name",
            ),
            (
                "--check a.record.txt --tolerance 1",
                "--tolerance means nothing",
            ),
            ("--check a.record.txt --force", "--force means nothing"),
            ("--check a.record.txt --name b", "--name means nothing"),
            ("--next-pass", "give a record whose next pass"),
            ("--next-pass a.ppm", "its name ends in .record.txt"),
            ("--next-pass a.record.txt --check", "give one"),
            (
                "--next-pass a.record.txt --fringe 3",
                "--fringe means nothing beside --next-pass",
            ),
            ("--next-pass a.record.txt --name b", "--name means nothing"),
            (
                "--next-pass a.record.txt --keep-going",
                "--keep-going means nothing",
            ),
            (
                "--next-pass x/a.record.txt y/a.record.txt --out o",
                "pictures of one name",
            ),
            (
                "--next-pass a.record.txt a.record.txt",
                "pictures of one name",
            ),
            ("--sheet cuts --next-pass", "--next-pass means nothing"),
            ("--sheet cuts --jobs 2", "--jobs means nothing"),
            ("--sheet cuts a.ppm", "no file a.ppm"),
            ("a --jobs 0", "from 1 to 256"),
            ("a --jobs two", "whole number"),
            ("a --force --keep-going", "give one"),
        ] {
            let why = words(text).unwrap_err();
            assert!(why.contains(part), "{text}: {why}");
        }
    }
}
