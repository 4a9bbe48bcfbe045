//! What is chosen for a cut: the settings, and the card's colour where that is given.

use crate::{Cut, Ground, NextPass, Picture, Refusal, Settings};
use std::fmt;

/// The text that gives the card's colour, with small letters, so that texts of one colour are equal.
///
/// Any text can be held; one that is not six hexadecimal digits is refused by the cut.
///
/// ```
/// use stand::CardColour;
///
/// let colour = CardColour::new("F4F1E8");
/// assert_eq!(colour, CardColour::new("f4f1e8"));
/// assert_eq!(colour.to_string(), "f4f1e8");
/// assert_eq!(colour.bytes(), Some([0xf4, 0xf1, 0xe8]));
/// assert_eq!(CardColour::new("#F4F1E8").bytes(), None);
/// ```
#[derive(Clone, Debug, PartialEq, Eq)]
pub struct CardColour(Vec<u8>);

impl CardColour {
    /// The colour that this text gives.
    pub fn new(text: impl AsRef<[u8]>) -> CardColour {
        CardColour(text.as_ref().to_ascii_lowercase())
    }

    /// Its red, green and blue; `None` where the text is not six hexadecimal digits.
    pub fn bytes(&self) -> Option<[u8; 3]> {
        let digit = |&byte: &u8| Some(char::from(byte).to_digit(16)? as u8);
        let digits: Option<Vec<u8>> = self.0.iter().map(digit).collect();
        match digits?[..] {
            [a, b, c, d, e, f] => Some([16 * a + b, 16 * c + d, 16 * e + f]),
            _ => None,
        }
    }
}

/// The colour of these bytes.
impl From<[u8; 3]> for CardColour {
    fn from([r, g, b]: [u8; 3]) -> CardColour {
        CardColour(format!("{r:02x}{g:02x}{b:02x}").into_bytes())
    }
}

impl AsRef<[u8]> for CardColour {
    fn as_ref(&self) -> &[u8] {
        &self.0
    }
}

impl fmt::Display for CardColour {
    fn fmt(&self, f: &mut fmt::Formatter<'_>) -> fmt::Result {
        f.write_str(&String::from_utf8_lossy(&self.0))
    }
}

/// All that a cut depends on beside its picture.
///
/// ```
/// use stand::{CardColour, Chosen, Picture, Settings};
///
/// let picture = Picture { colours: &[0.5; 9], alpha: &[255, 200, 0], h: 1, w: 3 };
/// let mut chosen = Chosen::from(Settings::default());
/// assert_eq!(chosen.cut(&picture)?.mask, [1, 1, 0]);
/// chosen.card_colour = Some(CardColour::new("808080"));
/// assert_eq!(chosen.cut(&picture)?.mask, [1, 1, 0]);
/// # Ok::<(), stand::Refusal>(())
/// ```
#[derive(Clone, Debug, Default, PartialEq)]
pub struct Chosen {
    /// The settings that every cut has.
    pub settings: Settings,
    /// The card's colour, where it is given.
    pub card_colour: Option<CardColour>,
}

impl Chosen {
    /// The outline of a picture: [`crate::cut`], or [`crate::cut_with_colour`] where the card's
    /// colour is given.
    pub fn cut(&self, picture: &Picture<'_>) -> Result<Cut, Refusal> {
        match &self.card_colour {
            None => crate::cut(picture, &self.settings),
            Some(colour) => crate::cut_with_colour(picture, colour, &self.settings),
        }
    }

    /// The ground of a picture: [`crate::ground`], or [`crate::ground_with_colour`] where the card's
    /// colour is given.
    fn ground(&self, picture: &Picture<'_>) -> Result<Option<Ground>, Refusal> {
        let Picture { colours, h, w, .. } = *picture;
        let tolerance = self.settings.key_bg_tolerance;
        match &self.card_colour {
            None => crate::ground(colours, h, w, tolerance),
            Some(colour) => crate::ground_with_colour(colours, h, w, colour, tolerance),
        }
    }

    /// What one more pass would do to this cut of a picture: [`crate::next_pass`] on what the mask
    /// leaves, with the reference of the ground. `None` where the cut is not keyed, and passes play no
    /// part.
    ///
    /// Picture and cut belong together; where their lengths do not fit, that is refused.
    ///
    /// ```
    /// use stand::{Chosen, Picture, Settings};
    ///
    /// // 27 white pixels, a light one, two black ones.
    /// let mut colours = [1.0; 90];
    /// colours[81..84].fill(0.75);
    /// colours[84..].fill(0.0);
    /// let picture = Picture { colours: &colours, alpha: &[255; 30], h: 1, w: 30 };
    /// let mut chosen = Chosen::from(Settings { key_bg_fringe: 0, ..Settings::default() });
    /// let cut = chosen.cut(&picture)?;
    /// assert_eq!(cut.mask[26..], [0, 1, 1, 1]);
    /// let next = chosen.next_pass(&picture, &cut)?.expect("a keyed cut");
    /// assert_eq!((next.joins, &next.background[26..]), (1, &[1, 1, 0, 0][..]));
    ///
    /// // After that pass growth has ended.
    /// chosen.settings.key_bg_fringe = 1;
    /// let cut = chosen.cut(&picture)?;
    /// assert_eq!(chosen.next_pass(&picture, &cut)?.map(|next| next.joins), Some(0));
    ///
    /// chosen.settings.key_bg = false;
    /// let cut = chosen.cut(&picture)?;
    /// assert_eq!(chosen.next_pass(&picture, &cut)?, None);
    /// # Ok::<(), stand::Refusal>(())
    /// ```
    pub fn next_pass(&self, picture: &Picture<'_>, cut: &Cut) -> Result<Option<NextPass>, Refusal> {
        if !cut.keyed {
            return Ok(None);
        }
        let Some(ground) = self.ground(picture)? else {
            return Ok(None);
        };
        let background: Vec<u8> = cut.mask.iter().map(|&m| u8::from(m == 0)).collect();
        let Picture { colours, h, w, .. } = *picture;
        crate::next_pass(colours, &background, h, w, ground.reference).map(Some)
    }
}

/// These settings, and no given colour.
impl From<Settings> for Chosen {
    fn from(settings: Settings) -> Chosen {
        Chosen {
            settings,
            card_colour: None,
        }
    }
}

#[cfg(test)]
mod tests {
    use super::*;

    /// Every byte in the place of a digit, and texts of other lengths.
    #[test]
    fn digits() {
        for byte in 0..=255u8 {
            for place in 0..6 {
                let mut text = *b"0a9fA7";
                text[place] = byte;
                let own = CardColour::new(text).bytes();
                assert_eq!(own.is_some(), byte.is_ascii_hexdigit(), "{byte}");
            }
            let [r, g, b] = [byte, 255 - byte, byte ^ 0x55];
            let text = format!("{r:02X}{g:02x}{b:02X}");
            assert_eq!(CardColour::new(&text).bytes(), Some([r, g, b]));
            assert_eq!(CardColour::new(&text), CardColour::from([r, g, b]));
        }
        for text in [
            "",
            "f",
            "fffff",
            "fffffff",
            "ffffff\0",
            " fffff",
            "0xffff",
            "\u{ff16}123",
        ] {
            assert_eq!(CardColour::new(text).bytes(), None, "{text}");
        }
    }
}
