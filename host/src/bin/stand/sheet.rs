//! The contact sheet of a folder: a page with a tile for each picture, and the same as a table. Both
//! are made from the records and diagnoses that lie in the folder, and from what was refused.

use crate::failure::{Failure, WELL};
use crate::progress::{say, shown, tell};
use crate::told;
use stand::diagnosis::{self, State};
use stand::filing;
use stand::placing::Place;
use stand::record::Record;
use std::fs;
use std::path::{Path, PathBuf};

/// The page's name.
const PAGE: &str = "index.html";
/// The table's name.
const TABLE: &str = "summary.csv";

/// A picture that has no results.
pub struct Unfiled {
    pub picture: String,
    /// The number of its refusal, where it was refused.
    pub number: Option<u32>,
    /// Why.
    pub text: String,
}

/// A tile of the page, and a row of the table.
struct Tile {
    name: String,
    /// found, not found, refused and so on.
    state: String,
    /// The number of the refusal.
    number: Option<u32>,
    record: Option<Record>,
    /// The values of the diagnosis's lines that have these [`KEYS`].
    values: [String; 4],
    /// The advice, or why it was refused.
    words: String,
    /// The files that are there: the end of the name, and the name itself as a link.
    links: Vec<(&'static str, String)>,
}

/// The lines of a diagnosis that the table has.
const KEYS: [&str; 4] = ["least_tolerance", "parts", "largest_part", "specks"];

/// The value of a line of a diagnosis; empty where there is none.
fn value(text: &str, key: &str) -> String {
    let line = |line: &str| Some(line.strip_prefix(key)?.strip_prefix(": ")?.to_string());
    text.lines().find_map(line).unwrap_or_default()
}

impl Tile {
    /// The tile of a record that lies in the folder.
    fn filed(place: &Place) -> Tile {
        let text = |end| fs::read_to_string(place.path(end));
        let seen = text(filing::DIAGNOSIS).unwrap_or_default();
        let (state, advice) = match diagnosis::read_back(&seen) {
            Some((state, advice)) => (Some(state), advice),
            None => (None, None),
        };
        let record = match text(filing::RECORD) {
            Ok(text) => Record::read(&text),
            Err(why) => Err(format!("the record could not be read: {why}")),
        };
        let there = |end: &&str| place.path(end).is_file();
        let links = filing::ENDS.into_iter().filter(there);
        Tile {
            name: shown(Path::new(&place.name)),
            state: state_of(state, &record),
            number: None,
            values: KEYS.map(|key| value(&seen, key)),
            words: match &record {
                Err(why) => why.clone(),
                Ok(_) => advice.unwrap_or_default(),
            },
            record: record.ok(),
            links: links.map(|end| (end, link(&place.path(end)))).collect(),
        }
    }

    fn unfiled(unfiled: &Unfiled) -> Tile {
        Tile {
            name: unfiled.picture.clone(),
            state: match unfiled.number {
                Some(number) => format!("refused {number}"),
                None => "failed".into(),
            },
            number: unfiled.number,
            record: None,
            values: Default::default(),
            words: unfiled.text.clone(),
            links: Vec::new(),
        }
    }

    /// What needs a look comes first: what has no results, no outline, advice, and the rest.
    fn rank(&self) -> usize {
        match (&self.record, &*self.state) {
            (None, _) => 0,
            (_, "not found" | "bare") => 1,
            _ if !self.words.is_empty() => 2,
            _ => 3,
        }
    }
}

/// The state of a cut in words. Where there is no diagnosis the record tells whether card was found.
fn state_of(state: Option<State>, record: &Result<Record, String>) -> String {
    match (state, record) {
        (_, Err(_)) => "unreadable".into(),
        (Some(state), _) => state.to_string(),
        (None, Ok(record)) if record.keyed => State::Found.to_string(),
        (None, Ok(_)) => "not diagnosed".into(),
    }
}

/// A file's name as a link on a page beside it.
fn link(path: &Path) -> String {
    let name = path.file_name().unwrap_or_default().as_encoded_bytes();
    let plain = |byte: &u8| byte.is_ascii_alphanumeric() || b"-_.~".contains(byte);
    let shown = |byte: &u8| match plain(byte) {
        true => char::from(*byte).to_string(),
        false => format!("%{byte:02X}"),
    };
    // A name may have a colon in it, which would else end a scheme.
    format!("./{}", name.iter().map(shown).collect::<String>())
}

/// Writes page and table of a folder, and gives their paths.
pub fn write(folder: &Path, unfiled: &[Unfiled]) -> Result<[PathBuf; 2], Failure> {
    let tiles = tiles(folder, unfiled)?;
    let texts = [(PAGE, page(&tiles)), (TABLE, table(&tiles))];
    let paths = texts.map(|(name, text)| put(&folder.join(name), &text));
    let [page, table] = paths;
    Ok([page?, table?])
}

/// Writes a text under another name first.
fn put(path: &Path, text: &str) -> Result<PathBuf, Failure> {
    let part = path.with_extension(format!("{}.part", std::process::id()));
    let done = fs::write(&part, text).and_then(|()| fs::rename(&part, path));
    match done {
        Ok(()) => Ok(path.into()),
        Err(why) => {
            let _ = fs::remove_file(&part);
            let text = format!("{} could not be written: {why}", path.display());
            Err(Failure::file(text))
        }
    }
}

/// All tiles of a folder, in their order.
fn tiles(folder: &Path, unfiled: &[Unfiled]) -> Result<Vec<Tile>, Failure> {
    let failed = |why| Failure::file(format!("{} could not be read: {why}", folder.display()));
    let mut tiles: Vec<Tile> = unfiled.iter().map(Tile::unfiled).collect();
    for entry in fs::read_dir(folder).map_err(failed)? {
        let path = entry.map_err(failed)?.path();
        tiles.extend(Place::of(&path, filing::RECORD).map(|place| Tile::filed(&place)));
    }
    tiles.sort_by(|a, b| (a.rank(), &a.name).cmp(&(b.rank(), &b.name)));
    Ok(tiles)
}

/// Makes page and table of a folder, and gives the program's status.
pub fn run(folder: &Path) -> u8 {
    match write(folder, &[]) {
        Err(why) => {
            say(why.text);
            why.status
        }
        Ok([page, table]) => {
            let text = format!(
                "to look at: {}; as a table: {}\n",
                shown(&page),
                shown(&table)
            );
            told(tell(&text)).max(WELL)
        }
    }
}

/// The table: a line of names, and a line for each picture, as RFC 4180 has it.
fn table(tiles: &[Tile]) -> String {
    const HEAD: &str = "name,state,refusal,rows,columns,crop_first_row,crop_end_row,\
                        crop_first_column,crop_end_column,tolerance,fringe,least_tolerance,\
                        parts,largest_part,specks,remark,card_colour\r\n";
    let line = |tile: &Tile| {
        let mut fields = vec![field(&tile.name), field(&tile.state)];
        fields.push(
            tile.number
                .map_or(String::new(), |number| number.to_string()),
        );
        match &tile.record {
            None => fields.extend((0..8).map(|_| String::new())),
            Some(record) => {
                let (rows, cols) = (&record.crop.rows, &record.crop.cols);
                let sides = [
                    record.h, record.w, rows.start, rows.end, cols.start, cols.end,
                ];
                fields.extend(sides.map(|n| n.to_string()));
                let settings = &record.chosen.settings;
                fields.push(settings.key_bg_tolerance.to_string());
                fields.push(settings.key_bg_fringe.to_string());
            }
        }
        fields.extend(tile.values.iter().map(|value| field(value)));
        fields.push(field(&tile.words));
        let chosen = tile.record.as_ref().map(|record| &record.chosen);
        let colour = chosen.and_then(|chosen| chosen.card_colour.as_ref());
        fields.push(colour.map_or(String::new(), |colour| colour.to_string()));
        fields.join(",") + "\r\n"
    };
    HEAD.to_string() + &tiles.iter().map(line).collect::<String>()
}

/// A field of the table.
fn field(text: &str) -> String {
    if text.contains([',', '"', '\r', '\n']) {
        format!("\"{}\"", text.replace('"', "\"\""))
    } else {
        text.into()
    }
}

/// A text within a page.
fn escaped(text: &str) -> String {
    let mut out = String::new();
    for c in text.chars() {
        match c {
            '&' => out += "&amp;",
            '<' => out += "&lt;",
            '>' => out += "&gt;",
            '"' => out += "&quot;",
            other => out.push(other),
        }
    }
    out
}

/// The page: one file, without anything from elsewhere.
fn page(tiles: &[Tile]) -> String {
    let look = tiles.iter().filter(|tile| tile.rank() < 3).count();
    let body: String = tiles.iter().map(tile).collect();
    format!(
        "<!DOCTYPE html>\n<html lang=\"en\">\n<head>\n<meta charset=\"utf-8\">\n\
         <meta name=\"viewport\" content=\"width=device-width\">\n\
         <title>Contact sheet</title>\n<style>\n{STYLE}</style>\n</head>\n<body>\n\
         <h1>{} pictures, {look} to look at</h1>\n<main>\n{body}</main>\n</body>\n</html>\n",
        tiles.len()
    )
}

const STYLE: &str = include_str!("sheet.css");

/// The tile of a picture.
fn tile(tile: &Tile) -> String {
    let href = |end: &str| tile.links.iter().find(|(own, _)| *own == end);
    let image = href(filing::THUMBNAIL).or(href(filing::PREVIEW));
    let seen = match (image, href(filing::PREVIEW)) {
        (Some((_, image)), Some((_, preview))) => format!(
            "<a href=\"{preview}\"><img src=\"{image}\" loading=\"lazy\" alt=\"preview of {}\"></a>",
            escaped(&tile.name)
        ),
        _ => "<div class=\"none\">no preview</div>".into(),
    };
    let links: Vec<String> = tile
        .links
        .iter()
        .filter(|(end, _)| *end != filing::THUMBNAIL)
        .map(|(end, link)| format!("<a href=\"{link}\">{end}</a>"))
        .collect();
    let words = match tile.words.is_empty() {
        true => String::new(),
        false => format!("<p class=\"advice\">{}</p>\n", escaped(&tile.words)),
    };
    format!(
        "<article class=\"rank{}\">\n{seen}\n<h2>{}</h2>\n<p class=\"state\">{}</p>\n{words}\
         <p class=\"files\">{}</p>\n</article>\n",
        tile.rank(),
        escaped(&tile.name),
        escaped(&tile.state),
        links.join(" ")
    )
}
