//! The text of recorded cases of ground, cut and the pass that follows, and of their answers, in the format that
//! crates/replay/src/lib.rt describes.
#![allow(dead_code)]

use stand::{Picture, Settings};
use std::fmt::Write;

/// The most pixels and the most colours of a case.
pub const MOST_PIXELS: usize = 1296;
pub const MOST_COLOURS: usize = 80;

/// The characters of the palette start here.
const FIRST: u8 = b'0';

/// A case: G for ground, C for a cut, P for the cuts of two pictures, F for the pass that follows the
/// growth of a ground. With the card's colour the letter is written small.
#[derive(Clone)]
pub struct Case {
    pub op: char,
    /// The text of the card's colour, where one is given.
    pub colour: Option<String>,
    pub h: usize,
    pub w: usize,
    /// Two pictures for P, else one.
    pub pictures: Vec<Vec<f64>>,
    pub alpha: Vec<u8>,
    /// For G the tolerance only.
    pub settings: Settings,
}

/// What a cut gives.
pub struct Outline {
    pub mask: Vec<u8>,
    pub weights: Vec<f64>,
    pub keyed: bool,
    /// y0, y1, x0, x1.
    pub crop: [usize; 4],
}

/// What a look at the coming pass gives.
pub struct Look {
    /// The background after the pass.
    pub background: Vec<u8>,
    pub joins: u64,
}

/// Who answers: by the median of the border, or by the card's colour where its text is given.
pub trait Answers {
    /// The ground, if there is one, or the number by which the call is refused.
    fn ground(
        &self,
        given: Option<&str>,
        colours: &[f64],
        h: usize,
        w: usize,
        tolerance: f64,
    ) -> Result<Option<Vec<u8>>, u32>;
    fn squares(&self, mask: &[u8], h: usize, w: usize, k: u64) -> Vec<u8>;
    /// The pass after p passes of growth on a ground.
    fn following(
        &self,
        given: Option<&str>,
        picture: &Picture,
        ground: &[u8],
        p: i64,
    ) -> Result<Look, u32>;
    /// The outline, or the number by which the cut is refused.
    fn cut(&self, given: Option<&str>, picture: &Picture, s: &Settings) -> Result<Outline, u32>;
}

/// The bits of a pixel's channels, and its alpha.
type Entry = ([u64; 3], u8);

impl Case {
    fn entry(&self, picture: usize, i: usize) -> Entry {
        let channel = |c: usize| self.pictures[picture][3 * i + c].to_bits();
        ([channel(0), channel(1), channel(2)], self.alpha[i])
    }

    /// The different entries, in the order in which they come.
    fn palette(&self) -> Vec<Entry> {
        let mut palette = Vec::new();
        for picture in 0..self.pictures.len() {
            for i in 0..self.h * self.w {
                let entry = self.entry(picture, i);
                if !palette.contains(&entry) {
                    palette.push(entry);
                }
            }
        }
        palette
    }

    fn head(&self, colours: usize) -> String {
        let s = &self.settings;
        let tolerance = s.key_bg_tolerance.to_bits();
        let op = match self.colour {
            Some(_) => self.op.to_ascii_lowercase(),
            None => self.op,
        };
        let mut all = format!("{op} {} {} {colours} {tolerance:016x}", self.h, self.w);
        if self.op != 'G' {
            let (key, crop) = (s.key_bg as u8, s.crop_to_alpha as u8);
            let (threshold, p) = (s.alpha_threshold, s.key_bg_fringe);
            all += &format!(" {threshold} {key} {p} {crop}");
        }
        if let Some(text) = &self.colour {
            all += &format!(" {text}");
        }
        all
    }

    /// The case, or nothing where it has too many pixels or colours.
    pub fn text(&self) -> Option<String> {
        let palette = self.palette();
        if palette.len() > MOST_COLOURS || self.h * self.w > MOST_PIXELS {
            return None;
        }
        let mut text = self.head(palette.len()) + "\n";
        for ([r, g, b], _) in &palette {
            writeln!(text, "{r:016x} {g:016x} {b:016x}").unwrap();
        }
        let alphas: Vec<String> = palette.iter().map(|(_, a)| a.to_string()).collect();
        writeln!(text, "{}", alphas.join(" ")).unwrap();
        for picture in 0..self.pictures.len() {
            for i in 0..self.h * self.w {
                let entry = self.entry(picture, i);
                let at = palette.iter().position(|&p| p == entry).expect("an entry");
                text.push((FIRST + at as u8) as char);
                if (i + 1) % self.w == 0 {
                    text.push('\n');
                }
            }
        }
        Some(text)
    }

    pub fn picture<'a>(&'a self, colours: &'a [f64]) -> Picture<'a> {
        Picture {
            colours,
            alpha: &self.alpha,
            h: self.h,
            w: self.w,
        }
    }

    fn ground(&self, colours: &[f64], by: &impl Answers) -> Result<Option<Vec<u8>>, u32> {
        let tolerance = self.settings.key_bg_tolerance;
        by.ground(self.colour.as_deref(), colours, self.h, self.w, tolerance)
    }

    /// The answer, headed by the case's first line.
    pub fn answer(&self, by: &impl Answers) -> String {
        let head = self.head(self.palette().len()) + "\n";
        let given = self.colour.as_deref();
        let cut = |colours: &[f64]| by.cut(given, &self.picture(colours), &self.settings);
        head + &match &self.pictures[..] {
            [one] if self.op == 'G' => match self.ground(one, by) {
                Ok(Some(ground)) => format!("found\n{}", digits(&ground, self.w)),
                Ok(None) => "absent\n".into(),
                Err(number) => refused(number),
            },
            [one] if self.op == 'F' => self.following(one, by).unwrap_or_else(refused),
            [one] => cut_text(&cut(one), self.w),
            [one, two] => {
                let (a, b) = (cut(one), cut(two));
                let cuts = cut_text(&a, self.w) + &cut_text(&b, self.w);
                let same = a.ok().map(|a| a.mask) == b.ok().map(|b| b.mask);
                self.agreement(one, two, by) + &cuts + &whether("same mask", same)
            }
            _ => panic!("one picture or two"),
        }
    }

    /// The pass that follows the growth of the ground, where there is one.
    fn following(&self, colours: &[f64], by: &impl Answers) -> Result<String, u32> {
        let Some(ground) = self.ground(colours, by)? else {
            return Ok("absent\n".into());
        };
        let (picture, p) = (self.picture(colours), self.settings.key_bg_fringe);
        let look = by.following(self.colour.as_deref(), &picture, &ground, p)?;
        let pixels = digits(&look.background, self.w);
        Ok(format!("joins {}\n{pixels}", look.joins))
    }

    /// Whether two pictures agree on the border and near the first one's ground.
    fn agreement(&self, one: &[f64], two: &[f64], by: &impl Answers) -> String {
        let (h, w) = (self.h, self.w);
        let Ok(Some(ground)) = self.ground(one, by) else {
            return "absent\n".into();
        };
        let p = u64::try_from(self.settings.key_bg_fringe).unwrap_or(0);
        [3, 4]
            .map(|more| {
                let yes = agree(one, two, &by.squares(&ground, h, w, p + more), h, w);
                whether(&format!("agree within p + {more}"), yes)
            })
            .concat()
    }

    /// The next case of a text, if there is one.
    pub fn read<'a>(lines: &mut impl Iterator<Item = &'a str>) -> Option<Case> {
        let head: Vec<&str> = lines.next()?.split(' ').collect();
        let [h, w, colours] = [1, 2, 3].map(|i| number(head[i]) as usize);
        let letter = head[0].chars().next().expect("an operation");
        let op = letter.to_ascii_uppercase();
        let words = if op == 'G' { 5 } else { 9 };
        let colour = (op != letter).then(|| head[words].to_string());
        assert_eq!(head.len(), words + colour.is_some() as usize, "{head:?}");
        let palette: Vec<Vec<f64>> = (0..colours)
            .map(|_| next(lines).split(' ').map(float).collect())
            .collect();
        let levels = next(lines).split(' ');
        let levels: Vec<u8> = levels.map(|a| a.parse().expect("an alpha")).collect();
        let mut codes = Vec::new();
        let pictures = (0..if op == 'P' { 2 } else { 1 })
            .map(|_| {
                let rows: String = (0..h).map(|_| next(lines)).collect();
                assert_eq!(rows.len(), h * w);
                codes = rows.bytes().map(|b| (b - FIRST) as usize).collect();
                codes.iter().flat_map(|&k| palette[k].clone()).collect()
            })
            .collect();
        Some(Case {
            op,
            colour,
            h,
            w,
            pictures,
            alpha: codes.iter().map(|&k| levels[k]).collect(),
            settings: settings(&head[4..words]),
        })
    }
}

/// The settings by their words: the tolerance, and for a cut the others.
fn settings(words: &[&str]) -> Settings {
    let all = Settings {
        key_bg_tolerance: float(words[0]),
        ..Settings::default()
    };
    match words[1..] {
        [threshold, key, p, crop] => Settings {
            alpha_threshold: number(threshold),
            key_bg: number(key) == 1,
            key_bg_fringe: number(p),
            crop_to_alpha: number(crop) == 1,
            ..all
        },
        _ => all,
    }
}

fn number(word: &str) -> i64 {
    word.parse().expect("a number")
}

fn next<'a>(lines: &mut impl Iterator<Item = &'a str>) -> &'a str {
    lines.next().expect("a line")
}

fn float(hex: &str) -> f64 {
    f64::from_bits(u64::from_str_radix(hex, 16).expect("16 hexadecimal digits"))
}

fn whether(what: &str, yes: bool) -> String {
    format!("{what}: {}\n", if yes { "yes" } else { "no" })
}

fn refused(number: u32) -> String {
    format!("refused {number}\n")
}

fn digits(mask: &[u8], w: usize) -> String {
    let row = |row: &[u8]| row.iter().map(|m| (b'0' + m) as char).collect::<String>() + "\n";
    mask.chunks(w).map(row).collect()
}

fn cut_text(cut: &Result<Outline, u32>, w: usize) -> String {
    let outline = match cut {
        Ok(outline) => outline,
        Err(number) => return refused(*number),
    };
    let [y0, y1, x0, x1] = outline.crop;
    let mut out = format!("keyed {} crop {y0} {y1} {x0} {x1}\n", outline.keyed as u8);
    out += &digits(&outline.mask, w);
    let bits: Vec<u64> = outline.weights.iter().map(|x| x.to_bits()).collect();
    for run in bits.chunk_by(|a, b| a == b) {
        writeln!(out, "{} {:016x}", run.len(), run[0]).unwrap();
    }
    out
}

/// Whether two pictures have equal numbers on the border and where the mask is on.
fn agree(one: &[f64], two: &[f64], near: &[u8], h: usize, w: usize) -> bool {
    (0..h * w).all(|i| {
        let (y, x) = (i / w, i % w);
        let border = y == 0 || x == 0 || y + 1 == h || x + 1 == w;
        let asked = border || near[i] == 1;
        !asked || one[3 * i..3 * i + 3] == two[3 * i..3 * i + 3]
    })
}
