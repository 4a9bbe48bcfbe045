//! Shows which pixels one more pass would take off the object of a filed record.

use crate::cutting::{self, Target};
use crate::failure::{worse, Failure, WELL};
use crate::options::{options_of, NextPasses, Shown};
use crate::progress::{say, shown, tell, Step};
use crate::recorded::{self, Wrong};
use crate::told;
use stand::filing::NEXT_PASS;
use stand::netpbm::{self, Image};
use stand::placing::{Place, Unwritten};
use stand::record::Record;
use stand::{diagnosis::grouped, png, preview, sha256};
use stand::{Chosen, Cut, NextPass, Picture};
use std::fs;
use std::path::PathBuf;

/// Shows the next pass of all records, and gives the program's status.
pub fn run(asked: &NextPasses) -> u8 {
    let mut status = WELL;
    for of in &asked.records {
        let own = match show(of, asked) {
            Ok(_) if asked.quiet => WELL,
            Ok(sentence) => told(tell(&format!("{}: {sentence}\n", shown(&of.record)))),
            Err((path, why)) => {
                say(format!("{}: {}", path.display(), why.text));
                why.status
            }
        };
        status = worse(status, own);
    }
    status
}

/// Shows the next pass of a record, and gives what there is to say of it.
fn show(of: &Shown, asked: &NextPasses) -> Result<String, Wrong> {
    let (record, path) = record_and_picture(of)?;
    let in_record = |why| (of.record.clone(), why);
    let target = Target {
        place: &of.place,
        ends: &[NEXT_PASS],
        force: asked.force,
        options: "--out",
    };
    target.usable(&path).map_err(in_record)?;
    let in_picture = |why| (path.clone(), why);
    let image = cutting::picture(&path, asked.quiet)
        .map_err(in_picture)?
        .image;
    let step = Step::begin(format!("cutting {}", path.display()), asked.quiet);
    let seen = Seen::new(&image, &record).map_err(in_picture)?;
    drop(step);
    let written = match seen.marks() {
        Some(marks) => seen.write(&marks, &of.place, asked.force),
        None => taken_away(&of.place, asked.force),
    };
    written.map_err(in_record)?;
    Ok(seen.sentence(&of.place))
}

/// A record, and the path of its picture.
fn record_and_picture(of: &Shown) -> Result<(Record, PathBuf), Wrong> {
    let wrong = |why| (of.record.clone(), why);
    let record = recorded::record(&of.record).map_err(wrong)?;
    match recorded::picture(&of.beside, &record, of.picture.as_deref())? {
        Some(path) => Ok((record, path)),
        None => Err(wrong(Failure::file(
            "its picture is not beside it; name the picture too, as in stand --next-pass \
             badge.record.txt badge.ppm",
        ))),
    }
}

/// Takes an older picture away where there is nothing to show and it may be replaced.
fn taken_away(place: &Place, force: bool) -> Result<(), Failure> {
    match place.first_there(&[NEXT_PASS]) {
        Some(path) if force => fs::remove_file(&path).map_err(|why| {
            Failure::file(format!("{} could not be removed: {why}", path.display()))
        }),
        _ => Ok(()),
    }
}

/// A picture that was cut as recorded, and its next pass.
struct Seen<'a> {
    image: &'a Image,
    chosen: &'a Chosen,
    cut: Cut,
    /// `None` where passes play no part.
    next: Option<NextPass>,
}

impl<'a> Seen<'a> {
    /// Cuts a picture by the recorded settings, which must give the recorded mask.
    fn new(image: &'a Image, record: &'a Record) -> Result<Seen<'a>, Failure> {
        let chosen = &record.chosen;
        let picture = Picture {
            colours: &image.colours(),
            alpha: &image.alpha,
            h: image.h,
            w: image.w,
        };
        let cut = chosen.cut(&picture)?;
        if sha256::of(&netpbm::pbm(&cut.mask, image.w)) != record.mask {
            return Err(Failure::unlike(
                "cut by the recorded settings it does not have the recorded mask; stand --check \
                 says what is not as recorded",
            ));
        }
        let next = chosen.next_pass(&picture, &cut)?;
        Ok(Seen {
            image,
            chosen,
            cut,
            next,
        })
    }

    /// The pixels that the pass would take off, 1 on them; `None` where it would take none.
    fn marks(&self) -> Option<Vec<u8>> {
        let next = self.next.as_ref().filter(|next| next.joins > 0)?;
        let both = next.background.iter().zip(&self.cut.mask);
        Some(both.map(|(&b, &m)| u8::from(b != 0 && m != 0)).collect())
    }

    /// Writes the picture with these pixels marked.
    fn write(&self, marks: &[u8], place: &Place, force: bool) -> Result<(), Failure> {
        let drawn = preview::marked(self.image, &self.cut, marks)?;
        let png = png::rgb(&drawn.rgb, drawn.w);
        place
            .write_one(NEXT_PASS, png, force)
            .map_err(|why| match why {
                Unwritten::Failed(..) => {
                    Failure::file(format!("{why}; --out FOLDER writes it elsewhere"))
                }
                other => Failure::unwritten(other, "--out"),
            })
    }

    /// What there is to say of the pass.
    fn sentence(&self, place: &Place) -> String {
        let object = self.cut.mask.iter().filter(|&&m| m != 0).count();
        let all = grouped(object);
        match &self.next {
            None => format!("passes play no part here, since {}", self.not_keyed(object)),
            Some(NextPass { joins: 0, .. }) => format!(
                "one more pass would take none of {all} pixels off the object: growth has ended, \
                 and a higher --fringe changes nothing"
            ),
            Some(NextPass { joins, .. }) => {
                let (are, them) = match joins {
                    1 => ("it is", "it"),
                    _ => ("they are", "them"),
                };
                format!(
                    "one more pass would take {} of {all} pixels off the object; {are} marked in \
                     {}, and cutting again with {} --force takes {them} off",
                    grouped(*joins as usize),
                    shown(&place.path(NEXT_PASS)),
                    options_of(&self.one_more())
                )
            }
        }
    }

    /// Why passes play no part.
    fn not_keyed(&self, object: usize) -> &'static str {
        match self.chosen.settings.key_bg {
            _ if object < self.cut.mask.len() => "the picture was cut by its alpha",
            false => "no plain card was looked for",
            true => "no plain card was found around an object",
        }
    }

    /// What is chosen to take the pixels off. A negative fringe counts as 0.
    fn one_more(&self) -> Chosen {
        let mut chosen = self.chosen.clone();
        let fringe = &mut chosen.settings.key_bg_fringe;
        *fringe = (*fringe).max(0).saturating_add(1);
        chosen
    }
}
