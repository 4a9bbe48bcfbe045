//! The record that is filed with a cut: a text that says what was cut, how, and to what.
//!
//! ```text
//! stand record 2
//! rows: 5
//! columns: 5
//! alpha_threshold: 128
//! key_bg: yes
//! key_bg_fringe: 1
//! key_bg_tolerance: 0.03125
//! key_bg_tolerance_bits: 3fa0000000000000
//! crop_to_alpha: yes
//! card_colour: f4f1e8
//! keyed: yes
//! crop: 1 4 1 4
//! picture_sha256: (64 digits)
//! original_sha256: (64 digits)
//! mask_sha256: (64 digits)
//! weights_sha256: (64 digits)
//! weights_pgm_sha256: (64 digits)
//! ```
//!
//! The lines stand in this order, each ends with a newline, and after the first each is a key, a
//! colon, a space and a value. The tolerance is written as the shortest decimal number that gives
//! the same f64 back, and again as the f64's 64 bits in hexadecimal. The card's colour is a line that
//! is there only where it was given, in six digits with small letters. The crop box is its first row,
//! the row after its last, its first column and the column after its last. The sums are of the bytes
//! of files: the picture that was cut; the file that it was decoded from, or standard input, a line
//! that is there only where it was; the mask; and the weights in their two forms.
//!
//! Form 1 has neither the lines of the card's colour and the original nor the last line. Records of
//! form 1 are read and written as they always were. A setting that comes later adds a line after
//! those of the settings, only where it is used.

use crate::{CardColour, Chosen, Crop, Settings};
use std::fmt;
use std::iter::Peekable;
use std::str::Lines;

/// What a record says.
#[derive(Clone, Debug, PartialEq)]
pub struct Record {
    /// How many rows the picture has.
    pub h: usize,
    /// How many columns the picture has.
    pub w: usize,
    /// The settings of the cut, with the card's colour where it was given; it is not in a record of
    /// form 1.
    pub chosen: Chosen,
    /// Whether a ground was sought and found.
    pub keyed: bool,
    /// The crop box.
    pub crop: Crop,
    /// The SHA-256 of the file of the picture that was cut, in hexadecimal.
    pub picture: String,
    /// The SHA-256 of the file that the picture was decoded from, or of standard input, where it was.
    pub original: Option<String>,
    /// The SHA-256 of the mask's file.
    pub mask: String,
    /// The SHA-256 of the weights' file with 8 bytes a pixel.
    pub weights: String,
    /// The SHA-256 of the weights' file with one byte a pixel; `None` in a record of form 1.
    pub weights_pgm: Option<String>,
}

/// The first line of a record, before the number of its form.
const FORM: &str = "stand record ";

fn yes_or_no(yes: bool) -> &'static str {
    if yes {
        "yes"
    } else {
        "no"
    }
}

/// The text of the record.
impl fmt::Display for Record {
    fn fmt(&self, f: &mut fmt::Formatter<'_>) -> fmt::Result {
        let settings = &self.chosen.settings;
        let tolerance = settings.key_bg_tolerance;
        let Crop { rows, cols } = &self.crop;
        let form = if self.weights_pgm.is_some() { 2 } else { 1 };
        writeln!(f, "{FORM}{form}")?;
        writeln!(f, "rows: {}", self.h)?;
        writeln!(f, "columns: {}", self.w)?;
        writeln!(f, "alpha_threshold: {}", settings.alpha_threshold)?;
        writeln!(f, "key_bg: {}", yes_or_no(settings.key_bg))?;
        writeln!(f, "key_bg_fringe: {}", settings.key_bg_fringe)?;
        writeln!(f, "key_bg_tolerance: {tolerance}")?;
        writeln!(f, "key_bg_tolerance_bits: {:016x}", tolerance.to_bits())?;
        writeln!(f, "crop_to_alpha: {}", yes_or_no(settings.crop_to_alpha))?;
        if let Some(colour) = &self.chosen.card_colour {
            writeln!(f, "card_colour: {colour}")?;
        }
        writeln!(f, "keyed: {}", yes_or_no(self.keyed))?;
        writeln!(
            f,
            "crop: {} {} {} {}",
            rows.start, rows.end, cols.start, cols.end
        )?;
        writeln!(f, "picture_sha256: {}", self.picture)?;
        if let Some(original) = &self.original {
            writeln!(f, "original_sha256: {original}")?;
        }
        writeln!(f, "mask_sha256: {}", self.mask)?;
        writeln!(f, "weights_sha256: {}", self.weights)?;
        if let Some(weights) = &self.weights_pgm {
            writeln!(f, "weights_pgm_sha256: {weights}")?;
        }
        Ok(())
    }
}

/// The values of a record's lines, taken one after the other.
struct Values<'a>(Peekable<Lines<'a>>);

impl<'a> Values<'a> {
    /// The value of the next line, which must have this key.
    fn text(&mut self, key: &str) -> Result<&'a str, String> {
        let line = self.0.next().unwrap_or("");
        line.strip_prefix(key)
            .and_then(|rest| rest.strip_prefix(": "))
            .ok_or_else(|| format!("the record has \"{line}\" where its {key} belongs"))
    }

    fn number<T: std::str::FromStr>(&mut self, key: &str) -> Result<T, String> {
        let text = self.text(key)?;
        text.parse()
            .map_err(|_| format!("the record's {key} is \"{text}\""))
    }

    fn yes(&mut self, key: &str) -> Result<bool, String> {
        Ok(self.text(key)? == "yes")
    }

    fn crop(&mut self, key: &str) -> Result<Crop, String> {
        let text = self.text(key)?;
        let numbers: Vec<usize> = text.split(' ').flat_map(str::parse).collect();
        match numbers[..] {
            [y0, y1, x0, x1] => Ok(Crop {
                rows: y0..y1,
                cols: x0..x1,
            }),
            _ => Err(format!("the record's {key} is \"{text}\"")),
        }
    }

    fn settings(&mut self) -> Result<Settings, String> {
        Ok(Settings {
            alpha_threshold: self.number("alpha_threshold")?,
            key_bg: self.yes("key_bg")?,
            key_bg_fringe: self.number("key_bg_fringe")?,
            key_bg_tolerance: {
                let tolerance = self.number("key_bg_tolerance")?;
                self.text("key_bg_tolerance_bits")?;
                tolerance
            },
            crop_to_alpha: self.yes("crop_to_alpha")?,
        })
    }

    /// Settings and, after form 1, the card's colour.
    fn chosen(&mut self, form: u8) -> Result<Chosen, String> {
        Ok(Chosen {
            settings: self.settings()?,
            card_colour: match form {
                1 => None,
                _ => self.digits_if_there("card_colour", 6)?.map(CardColour::new),
            },
        })
    }

    /// The digits of a line that is there only where it is needed.
    fn digits_if_there(&mut self, key: &str, count: usize) -> Result<Option<&'a str>, String> {
        match self.0.peek() {
            Some(line) if line.starts_with(key) => Ok(Some(self.digits(key, count)?)),
            _ => Ok(None),
        }
    }

    /// So many hexadecimal digits, with small letters.
    fn digits(&mut self, key: &str, count: usize) -> Result<&'a str, String> {
        let text = self.text(key)?;
        let hex = |c: char| c.is_ascii_digit() || ('a'..='f').contains(&c);
        if text.len() == count && text.chars().all(hex) {
            Ok(text)
        } else {
            Err(format!("the record's {key} is \"{text}\""))
        }
    }

    fn sum(&mut self, key: &str) -> Result<String, String> {
        self.digits(key, 64).map(String::from)
    }
}

impl Record {
    /// Reads a text in the form of a record, or says where it is not.
    pub fn read(text: &str) -> Result<Record, String> {
        if text.contains('\r') {
            return Err(CARRIAGE_RETURN.into());
        }
        let mut values = Values(text.lines().peekable());
        let form = form(values.0.next().unwrap_or(""))?;
        let record = Record {
            h: values.number("rows")?,
            w: values.number("columns")?,
            chosen: values.chosen(form)?,
            keyed: values.yes("keyed")?,
            crop: values.crop("crop")?,
            picture: values.sum("picture_sha256")?,
            original: match form {
                1 => None,
                _ => values
                    .digits_if_there("original_sha256", 64)?
                    .map(String::from),
            },
            mask: values.sum("mask_sha256")?,
            weights: values.sum("weights_sha256")?,
            weights_pgm: match form {
                1 => None,
                _ => Some(values.sum("weights_pgm_sha256")?),
            },
        };
        // What the lines above let pass, such as a second blank, is found here.
        let own = record.to_string();
        if own == text {
            return Ok(record);
        }
        let differs = text.lines().zip(own.lines()).find(|(a, b)| a != b);
        Err(match differs {
            Some((has, should)) => format!("the record has \"{has}\" for \"{should}\""),
            None => "the record does not end after its last line".into(),
        })
    }
}

const CARRIAGE_RETURN: &str = "the record's lines end in CR LF, and those of a record end in LF \
                               alone: some program has rewritten it; restore it, as by dos2unix";

/// The number of the form that the first line names.
fn form(first: &str) -> Result<u8, String> {
    match first.strip_prefix(FORM) {
        Some("1") => Ok(1),
        Some("2") => Ok(2),
        Some(other) => Err(format!(
            "the record is of form {other}; this version of stand knows 1 and 2"
        )),
        None => Err(format!(
            "it is no record: its first line is not \"{FORM}2\""
        )),
    }
}

#[cfg(test)]
mod tests {
    use super::*;

    fn sample(tolerance: f64) -> Record {
        Record {
            h: 5,
            w: 7,
            chosen: Chosen::from(Settings {
                alpha_threshold: -3,
                key_bg: false,
                key_bg_fringe: i64::MAX,
                key_bg_tolerance: tolerance,
                crop_to_alpha: true,
            }),
            keyed: true,
            crop: Crop {
                rows: 0..5,
                cols: 1..4,
            },
            picture: "0".repeat(64),
            original: None,
            mask: "a1".repeat(32),
            weights: "f".repeat(64),
            weights_pgm: None,
        }
    }

    /// The sample in its five shapes: form 1, form 2, form 2 of a picture that was decoded, and both
    /// with the card's colour.
    fn samples(tolerance: f64) -> [Record; 5] {
        let one = sample(tolerance);
        let two = Record {
            weights_pgm: Some("9".repeat(64)),
            ..one.clone()
        };
        let decoded = Record {
            original: Some("e".repeat(64)),
            ..two.clone()
        };
        let with_colour = |record: &Record| {
            let mut record = record.clone();
            record.chosen.card_colour = Some(CardColour::new("C0FFEE"));
            record
        };
        let coloured = [&two, &decoded].map(with_colour);
        let [two_coloured, decoded_coloured] = coloured;
        [one, two, decoded, two_coloured, decoded_coloured]
    }

    #[test]
    fn text() {
        let text = sample(0.03125).to_string();
        let want = "stand record 1\nrows: 5\ncolumns: 7\nalpha_threshold: -3\nkey_bg: no\n\
                    key_bg_fringe: 9223372036854775807\nkey_bg_tolerance: 0.03125\n\
                    key_bg_tolerance_bits: 3fa0000000000000\ncrop_to_alpha: yes\nkeyed: yes\n\
                    crop: 0 5 1 4\npicture_sha256: 0000";
        assert!(text.starts_with(want), "{text}");
        let all = samples(0.03125).map(|record| record.to_string());
        let [_, two, decoded, two_coloured, decoded_coloured] = all;
        assert!(two.starts_with("stand record 2\nrows: 5\n"), "{two}");
        assert!(two.ends_with(&format!("\nweights_pgm_sha256: {}\n", "9".repeat(64))));
        let line = format!("original_sha256: {}\n", "e".repeat(64));
        assert_eq!(decoded.replace(&line, ""), two);
        let line = "\ncrop_to_alpha: yes\ncard_colour: c0ffee\nkeyed: ";
        for (with, without) in [(two_coloured, two), (decoded_coloured, decoded)] {
            assert!(with.contains(line), "{with}");
            assert_eq!(with.replace("card_colour: c0ffee\n", ""), without);
        }
    }

    /// The tolerance comes back bit for bit.
    #[test]
    fn read_back() {
        let mut tolerances = vec![
            0.0,
            -0.0,
            0.1,
            1.0 / 3.0,
            f64::MAX,
            f64::MIN_POSITIVE,
            5e-324,
        ];
        let mut bits = 1u64;
        for _ in 0..10_000 {
            bits = bits.wrapping_mul(6364136223846793005).wrapping_add(99);
            tolerances.push(f64::from_bits(bits));
        }
        for tolerance in tolerances.into_iter().filter(|t| t.is_finite()) {
            for record in samples(tolerance) {
                let back = Record::read(&record.to_string()).unwrap();
                let bits = back.chosen.settings.key_bg_tolerance.to_bits();
                assert_eq!(bits, tolerance.to_bits());
                assert_eq!(back, record);
            }
        }
    }

    /// A record with any byte changed or left out is another record or none.
    #[test]
    fn changed() {
        for record in samples(0.03125) {
            let text = record.to_string();
            for at in 0..text.len() {
                let (before, after) = (&text[..at], &text[at + 1..]);
                for between in ["", " ", "0", "yes", "\n", "\r", "+"] {
                    let changed = format!("{before}{between}{after}");
                    assert!(changed == text || Record::read(&changed).as_ref() != Ok(&record));
                }
            }
            assert!(Record::read(&format!("{text}\n")).is_err());
        }
        assert!(Record::read("").is_err());
    }

    #[test]
    fn sentences() {
        let text = samples(0.03125)[1].to_string();
        for (old, new, said) in [
            ("\n", "\r\n", "CR LF"),
            ("record 2", "record 3", "of form 3"),
            ("stand", "stood", "no record"),
            (
                "keyed: yes",
                "margin: 4\nkeyed: yes",
                "\"margin: 4\" where its keyed",
            ),
            ("record 2", "record 1", "does not end"),
        ] {
            let why = Record::read(&text.replace(old, new)).unwrap_err();
            assert!(why.contains(said), "{why}");
        }
        let text = samples(0.03125)[3].to_string();
        for (old, new, said) in [
            ("c0ffee", "C0FFEE", "the record's card_colour is \"C0FFEE\""),
            ("c0ffee", "c0ffe", "card_colour is \"c0ffe\""),
            ("c0ffee", "c0ffee0", "card_colour is \"c0ffee0\""),
            ("c0ffee", "c0ff e", "card_colour is \"c0ff e\""),
            ("c0ffee", "#c0ffe", "card_colour is \"#c0ffe\""),
            ("c0ffee", "", "card_colour is \"\""),
            (": c0ffee", "", "\"card_colour\" where its card_colour"),
            (
                "c0ffee\n",
                "c0ffee\ncard_colour: c0ffee\n",
                "where its keyed",
            ),
            (
                "record 2",
                "record 1",
                "\"card_colour: c0ffee\" where its keyed",
            ),
        ] {
            let why = Record::read(&text.replace(old, new)).unwrap_err();
            assert!(why.contains(said), "{why}");
        }
    }
}
