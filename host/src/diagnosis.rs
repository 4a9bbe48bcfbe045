//! What to make of a cut: whether the card was found, what the mask consists of, and where
//! something looks wrong one sentence of advice.
//!
//! ```text
//! state: found
//! edge: 3209 of 3496 pixels are card, 91.7 %
//! least_tolerance: 0.0275
//! parts: 3641
//! largest_part: 94.7 %
//! specks: 3639
//! crop: the whole picture
//! advice: 3,639 specks count as object; use --tolerance 0.063 or clean the card
//! ```
//!
//! The lines `edge` and `least_tolerance` are there where card was sought, `advice` where there is
//! any. Where the card's colour was given, card is what is close to that colour. A diagnosis is to be
//! read at the stand and is not filed.

mod advice;
mod levels;
mod parts;
mod profile;

use crate::netpbm::Image;
use crate::{CardColour, Chosen, Crop, Cut, Refusal};
use levels::Levels;
use parts::Parts;
use profile::Profile;
use std::fmt;

/// What came of a cut.
#[derive(Clone, Copy, Debug, PartialEq, Eq, Hash)]
pub enum State {
    /// Card was found around the object.
    Found,
    /// The picture's alpha made the mask.
    Alpha,
    /// No card was sought in an opaque picture: all of it counts as the object.
    NotSought,
    /// Card was sought, and less than nine tenths of the edge are card: all counts as the object.
    NotFound,
    /// All of the picture is card, which would leave nothing: all counts as the object.
    Bare,
}

impl State {
    const ALL: [State; 5] = [
        State::Found,
        State::Alpha,
        State::NotSought,
        State::NotFound,
        State::Bare,
    ];
}

impl fmt::Display for State {
    fn fmt(&self, f: &mut fmt::Formatter<'_>) -> fmt::Result {
        f.write_str(match self {
            State::Found => "found",
            State::Alpha => "alpha",
            State::NotSought => "not sought",
            State::NotFound => "not found",
            State::Bare => "bare",
        })
    }
}

/// The border list of a picture (R15) in which card was sought.
#[derive(Clone, Copy, Debug, PartialEq)]
pub struct Edge {
    /// How many entries the list has.
    pub entries: usize,
    /// How many of them are close to the reference (R19).
    pub close: usize,
    /// The least tolerance at which nine tenths of them are close.
    pub least_tolerance: f64,
}

/// What there is to say of a cut.
#[derive(Clone, Debug, PartialEq)]
pub struct Diagnosis {
    /// What came of it.
    pub state: State,
    /// The picture's edge, where card was sought.
    pub edge: Option<Edge>,
    /// How many pixels the mask has on.
    pub object: usize,
    /// How many parts the mask has (R6).
    pub parts: usize,
    /// How many pixels the largest part has.
    pub largest: usize,
    /// How many of the others have fewer than 64 pixels.
    pub specks: usize,
    /// At which sides the crop box touches the picture's edge: top, bottom, left, right.
    pub touches: [bool; 4],
    /// Whether the crop box is the whole picture.
    pub whole: bool,
    advice: Option<String>,
}

impl Diagnosis {
    /// Looks at the cut of a picture by what was chosen. The three belong together; where their
    /// lengths do not fit, or the given colour is none, that is refused.
    pub fn of(image: &Image, chosen: &Chosen, cut: &Cut) -> Result<Diagnosis, Refusal> {
        let &Image { h, w, .. } = image;
        let parts = Parts::of(&cut.mask, h, w)?;
        if image.rgb.len() != 3 * h * w {
            return Err(Refusal::InputLength);
        }
        let bytes = |colour: &CardColour| colour.bytes().ok_or(Refusal::CardColour);
        let given = chosen.card_colour.as_ref().map(bytes).transpose()?;
        let full = parts.pixels == h * w;
        let settings = &chosen.settings;
        let sought = settings.key_bg && (full || cut.keyed);
        let seen = sought.then(|| Seen::new(image, settings.key_bg_tolerance, given));
        let state = match &seen {
            _ if cut.keyed => State::Found,
            _ if !full => State::Alpha,
            None => State::NotSought,
            Some(seen) if seen.covered() => State::Bare,
            Some(_) => State::NotFound,
        };
        let advice = match &seen {
            Some(seen) => advice::of(state, seen, &parts)?,
            None => None,
        };
        let Crop { rows, cols } = &cut.crop;
        let touches = [
            rows.start == 0,
            rows.end == h,
            cols.start == 0,
            cols.end == w,
        ];
        Ok(Diagnosis {
            state,
            edge: seen.map(|seen| seen.edge()),
            object: parts.pixels,
            parts: parts.count,
            largest: parts.largest,
            specks: parts.specks,
            touches,
            whole: touches == [true; 4],
            advice,
        })
    }

    /// One sentence, where something looks wrong: what it is, and what to do.
    pub fn advice(&self) -> Option<&str> {
        self.advice.as_deref()
    }
}

/// A picture in which card was sought.
struct Seen<'a> {
    image: &'a Image,
    tolerance: f64,
    /// The card's colour, where it was given.
    given: Option<[u8; 3]>,
    levels: Levels,
    profile: Profile,
    /// The level of the tolerance that was given; `None` where nothing is close.
    now: Option<usize>,
}

impl<'a> Seen<'a> {
    fn new(image: &'a Image, tolerance: f64, given: Option<[u8; 3]>) -> Seen<'a> {
        let levels = Levels::of(image, given);
        let profile = Profile::of(&levels, profile::RISE);
        let now = profile.level(tolerance);
        Seen {
            image,
            tolerance,
            given,
            levels,
            profile,
            now,
        }
    }

    /// The same picture with another colour of the card, or with none given.
    fn with(&self, given: Option<[u8; 3]>) -> Seen<'a> {
        Seen::new(self.image, self.tolerance, given)
    }

    fn close(&self) -> usize {
        self.now.map_or(0, |level| self.profile.all[level].close)
    }

    /// Whether enough of the border is close.
    fn covered(&self) -> bool {
        10 * self.close() >= 9 * self.profile.entries
    }

    /// Whether card is found: enough of the border is close, and something is left.
    fn found(&self) -> bool {
        let left = self.now.map_or(0, |level| self.profile.all[level].left);
        self.covered() && left > 0
    }

    fn edge(&self) -> Edge {
        Edge {
            entries: self.profile.entries,
            close: self.close(),
            least_tolerance: self.profile.all[self.profile.least()].tolerance,
        }
    }
}

/// A share in per cent, never more than it is: 899 of 1000 is not nine tenths.
fn per_cent(part: usize, of: usize) -> String {
    let tenths = 1000 * part / of.max(1);
    format!("{}.{} %", tenths / 10, tenths % 10)
}

/// The names of the sides that are marked, or `None` where none is.
fn sides(marked: &[bool; 4]) -> Option<String> {
    let names = ["top", "bottom", "left", "right"];
    let marked = names.into_iter().zip(marked).filter(|(_, &on)| on);
    let marked: Vec<&str> = marked.map(|(name, _)| name).collect();
    (!marked.is_empty()).then(|| marked.join(", "))
}

/// The text that is written beside the cut.
impl fmt::Display for Diagnosis {
    fn fmt(&self, f: &mut fmt::Formatter<'_>) -> fmt::Result {
        writeln!(f, "state: {}", self.state)?;
        if let Some(edge) = &self.edge {
            let share = per_cent(edge.close, edge.entries);
            writeln!(
                f,
                "edge: {} of {} pixels are card, {share}",
                edge.close, edge.entries
            )?;
            writeln!(f, "least_tolerance: {}", up(edge.least_tolerance, 10_000.0))?;
        }
        writeln!(f, "parts: {}", self.parts)?;
        writeln!(f, "largest_part: {}", per_cent(self.largest, self.object))?;
        writeln!(f, "specks: {}", self.specks)?;
        match sides(&self.touches) {
            _ if self.whole => writeln!(f, "crop: the whole picture")?,
            Some(sides) => writeln!(f, "crop: touches the edge at {sides}")?,
            None => writeln!(f, "crop: clear of the edge")?,
        }
        match &self.advice {
            Some(advice) => writeln!(f, "advice: {advice}"),
            None => Ok(()),
        }
    }
}

/// A tolerance rounded up to a part of 1, so that what is close at it stays close.
fn up(tolerance: f64, part: f64) -> f64 {
    (tolerance * part).ceil() / part
}

/// A number with a comma after each three digits from the end.
///
/// ```
/// assert_eq!(stand::diagnosis::grouped(44_104), "44,104");
/// ```
pub fn grouped(number: usize) -> String {
    let digits = number.to_string();
    let mut out = String::new();
    for (at, digit) in digits.chars().enumerate() {
        if at > 0 && (digits.len() - at) % 3 == 0 {
            out.push(',');
        }
        out.push(digit);
    }
    out
}

/// State and advice from the text of a diagnosis; `None` where it is not such a text.
///
/// ```
/// use stand::diagnosis::{read_back, State};
/// let text = "state: not found\nparts: 1\nadvice: use --tolerance 0.05\n";
/// let advice = Some("use --tolerance 0.05".to_string());
/// assert_eq!(read_back(text), Some((State::NotFound, advice)));
/// assert_eq!(read_back("state: fine\n"), None);
/// ```
pub fn read_back(text: &str) -> Option<(State, Option<String>)> {
    let value = |key: &str| text.lines().find_map(|line| line.strip_prefix(key));
    let word = value("state: ")?;
    let state = State::ALL.into_iter().find(|s| s.to_string() == word)?;
    Some((state, value("advice: ").map(str::to_string)))
}

#[cfg(test)]
mod tests {
    use super::*;

    #[test]
    fn shares_are_never_rounded_up() {
        assert_eq!(per_cent(8999, 10_000), "89.9 %");
        assert_eq!(per_cent(9, 10), "90.0 %");
        assert_eq!(per_cent(10, 10), "100.0 %");
        assert_eq!(per_cent(0, 0), "0.0 %");
        assert_eq!(up(0.0352, 1000.0), 0.036);
        assert_eq!(up(0.036, 1000.0), 0.036);
    }

    #[test]
    fn read_back_in_every_state() {
        for state in State::ALL {
            for advice in [None, Some("a: b; use --tolerance 0.1".to_string())] {
                let diagnosis = Diagnosis {
                    state,
                    edge: None,
                    object: 30,
                    parts: 2,
                    largest: 20,
                    specks: 1,
                    touches: [true, false, false, true],
                    whole: false,
                    advice: advice.clone(),
                };
                let text = diagnosis.to_string();
                assert_eq!(read_back(&text), Some((state, advice)));
                assert!(
                    text.contains("\nlargest_part: 66.6 %\nspecks: 1\n"),
                    "{text}"
                );
                assert!(text.contains("\ncrop: touches the edge at top, right\n"));
            }
        }
        assert_eq!(read_back(""), None);
        assert_eq!(read_back("parts: 1\n"), None);
    }
}
