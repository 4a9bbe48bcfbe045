//! The sentence of advice: what looks wrong, and what to do.
//!
//! A tolerance is named only after it was tried: it finds card, its outline is firm, and it leaves
//! an object and not mostly crumbs. Since the best tolerance depends on the picture and the card's
//! colour alone, who follows the advice is not sent on to another one. A colour is named only where
//! it finds card.

use super::levels::edge_colour;
use super::parts::Parts;
use super::profile::{At, Profile};
use super::{grouped, per_cent, sides, up, Seen, State};
use crate::{CardColour, Crop, Refusal};
use std::ops::Range;

/// A tolerance that is worth so much more is worth a word.
const BETTER: f64 = 0.15;
/// Where less of the outline is firm, a tolerance is not named.
const LEAST_FIRM: f64 = 0.2;

/// A tolerance that was tried.
struct Tried {
    at: At,
    parts: Parts,
}

impl Tried {
    /// The best tolerance at which so many in ten of the edge are card, where it is good.
    fn best(seen: &Seen, profile: &Profile, tenths: usize) -> Result<Option<Tried>, Refusal> {
        let Some(level) = profile.best(tenths) else {
            return Ok(None);
        };
        let at = profile.all[level];
        let parts = Parts::of(&seen.levels.left_at(level), seen.image.h, seen.image.w)?;
        let good = at.firm >= LEAST_FIRM && parts.mostly_solid();
        Ok(good.then_some(Tried { at, parts }))
    }

    /// The words of the command that give it.
    fn option(&self) -> String {
        format!("--tolerance {}", up(self.at.tolerance, 1000.0).max(0.001))
    }
}

/// The advice on a cut for which card was sought.
pub fn of(state: State, seen: &Seen, parts: &Parts) -> Result<Option<String>, Refusal> {
    match state {
        State::NotFound => not_found(seen).map(Some),
        State::Bare => bare(seen).map(Some),
        State::Found => {
            let best = Tried::best(seen, &seen.profile, 9)?;
            let tolerance = best.and_then(|best| another(seen, parts, &best));
            let by_hand = || dust(seen, parts).or_else(|| runs_out(seen, parts));
            Ok(tolerance.or_else(by_hand))
        }
        State::Alpha | State::NotSought => Ok(None),
    }
}

/// Less than nine tenths of the edge are card.
fn not_found(seen: &Seen) -> Result<String, Refusal> {
    let profile = &seen.profile;
    let best = Tried::best(seen, profile, 9)?;
    if let Some(text) = another_colour(seen, best.as_ref())? {
        return Ok(text);
    }
    let worth = best.as_ref().map_or(0.0, |best| best.at.worth());
    // A firm outline of an object that takes up more than a tenth of the edge.
    let wider = Tried::best(seen, profile, 5)?.map(|wider| wider.at);
    let wider = wider.filter(|at| !profile.tenths(at, 9) && at.worth() > worth + BETTER);
    if let Some(at) = wider {
        let taken = per_cent(profile.entries - at.close, profile.entries);
        return Ok(format!(
            "the object takes up {taken} of the picture's edge, and nine tenths must be card; \
             photograph it again with more card around it"
        ));
    }
    let share = per_cent(seen.close(), profile.entries);
    let start = format!("{share} of the picture's edge is card within the tolerance");
    Ok(match best {
        Some(best) => format!("{start}, and nine tenths must be; use {}", best.option()),
        None => format!(
            "{start}, and no tolerance sets an object apart; photograph it again on plain card of \
             another colour, in even light"
        ),
    })
}

/// The edge has another colour than the one that was given, and with its own card is found: at this
/// tolerance, or at one that is better than the best with the given colour.
fn another_colour(seen: &Seen, best: Option<&Tried>) -> Result<Option<String>, Refusal> {
    let edge = edge_colour(seen.image);
    let Some(given) = seen.given.filter(|given| *given != edge) else {
        return Ok(None);
    };
    let (own, nearest) = (seen.with(None), CardColour::from(edge));
    let todo = if !own.found() {
        let worth = |tried: &Tried| tried.at.worth();
        let least = best.map_or(f64::NEG_INFINITY, |best| worth(best) + BETTER);
        let other = Tried::best(&own, &own.profile, 9)?.filter(|other| worth(other) > least);
        other.map(|other| format!("leave --card-colour out and use {}", other.option()))
    } else if seen.with(Some(edge)).found() {
        Some(format!(
            "use --card-colour {nearest} or leave --card-colour out"
        ))
    } else {
        // The edge's colour lies between two bytes, and the nearest are just too far from it.
        Some("leave --card-colour out".into())
    };
    let given = CardColour::from(given);
    let start = format!("the picture's edge has the colour {nearest}, and not the given {given}");
    Ok(todo.map(|todo| format!("{start}; {todo}")))
}

/// All is card, and nothing is left.
fn bare(seen: &Seen) -> Result<String, Refusal> {
    let mut best = Tried::best(seen, &seen.profile, 9)?;
    if best.is_none() {
        // An object that hardly differs from the card has no outline that rises by much.
        best = Tried::best(seen, &Profile::of(&seen.levels, 0.0), 9)?;
    }
    let start = "all of the picture is card within the tolerance, and nothing is left";
    Ok(match best {
        Some(best) => format!("{start}; use {}", best.option()),
        None => format!("{start}; photograph the object on card of another colour"),
    })
}

/// Another tolerance than the one that was given, where that helps.
fn another(seen: &Seen, parts: &Parts, best: &Tried) -> Option<String> {
    let now = seen.profile.all[seen.now?];
    if best.at.tolerance < now.tolerance {
        lower(&now, best)
    } else if best.at.tolerance > now.tolerance {
        higher(&now, seen, parts, best)
    } else {
        None
    }
}

/// Whether one is more than the other by what is no longer the rim alone.
fn more(one: usize, other: usize) -> bool {
    20 * one > 21 * other
}

fn lower(now: &At, best: &Tried) -> Option<String> {
    let firmer = best.at.worth() > now.worth() + BETTER;
    let lost = best.at.left.checked_sub(now.left)?;
    let share = per_cent(lost, best.at.left);
    let option = best.option();
    (firmer && more(best.at.left, now.left)).then(|| {
        format!(
            "the tolerance may be too high: {share} of the object counts as card; use {option} \
             unless that part is shadow"
        )
    })
}

fn higher(now: &At, seen: &Seen, parts: &Parts, best: &Tried) -> Option<String> {
    let firmer = best.at.worth() > now.worth() + BETTER;
    let shadow = firmer && more(parts.solid_pixels(), best.parts.solid_pixels());
    let fewer = 2 * parts.specks >= 3 * best.parts.specks;
    let specks = fewer && (apart(seen, parts) || many(seen, parts));
    let on_edge = |parts: &Parts| at_edge(seen, &parts.solid).is_some();
    let reaches = on_edge(parts) && !on_edge(&best.parts);
    let named = named(parts.specks);
    let counts = verb(parts.specks, "count");
    let option = best.option();
    Some(match (specks, shadow) {
        (true, true) => format!(
            "{named} and a shadow count as object; use {option} or clean the card and \
             soften the light"
        ),
        (true, false) => {
            format!("{named} {counts} as object; use {option} or clean the card")
        }
        (false, true) => format!("a shadow counts as object; use {option} or soften the light"),
        _ if reaches => format!("a shadow reaches the edge; use {option} or more even light"),
        _ => return None,
    })
}

/// Whether there are more specks than an uneven rim has.
fn many(seen: &Seen, parts: &Parts) -> bool {
    parts.specks > 100.max((seen.image.h + seen.image.w) / 10)
}

/// Whether specks lie apart from the object, so that the mask's box is larger for them.
fn apart(seen: &Seen, parts: &Parts) -> bool {
    let near = 4.max(seen.image.h.max(seen.image.w) / 100);
    let larger = |all: &Range<usize>, solid: &Range<usize>| {
        all.start + near < solid.start || solid.end + near < all.end
    };
    let (all, solid) = (&parts.all, &parts.solid);
    larger(&all.rows, &solid.rows) || larger(&all.cols, &solid.cols)
}

/// Specks that no tolerance helps against.
fn dust(seen: &Seen, parts: &Parts) -> Option<String> {
    if !parts.mostly_solid() {
        let text = "mostly specks are left, and no object; clean the card, or use card of another \
                    colour";
        return Some(text.into());
    }
    let (named, lie) = (named(parts.specks), verb(parts.specks, "lie"));
    apart(seen, parts).then(|| {
        format!("{named} {lie} apart from the object; clean the card and photograph it again")
    })
}

/// A number of specks in words.
fn named(specks: usize) -> String {
    match specks {
        1 => "a speck".into(),
        _ => format!("{} specks", grouped(specks)),
    }
}

/// A verb as it follows one speck or several.
fn verb(specks: usize, verb: &str) -> String {
    let end = if specks == 1 { "s" } else { "" };
    format!("{verb}{end}")
}

/// The sides at which the crop box (R35) of what is in this box touches the picture's edge.
fn at_edge(seen: &Seen, Crop { rows, cols }: &Crop) -> Option<String> {
    let (h, w) = (seen.image.h, seen.image.w);
    let (bottom, right) = (rows.end + 1 >= h, cols.end + 1 >= w);
    sides(&[rows.start <= 1, bottom, cols.start <= 1, right])
}

/// The object has no card on some side.
fn runs_out(seen: &Seen, parts: &Parts) -> Option<String> {
    let sides = at_edge(seen, &parts.all)?;
    Some(format!(
        "the object or its shadow runs out of the picture ({sides}); photograph it again with card \
         on all sides"
    ))
}

#[cfg(test)]
mod tests {
    use super::*;

    #[test]
    fn numbers() {
        for (number, text) in [(0, "0"), (999, "999"), (1000, "1,000"), (57839, "57,839")] {
            assert_eq!(grouped(number), text);
        }
        assert_eq!(grouped(1_234_567), "1,234,567");
        assert_eq!(named(1) + " " + &verb(1, "lie"), "a speck lies");
        assert_eq!(named(1200) + " " + &verb(1200, "lie"), "1,200 specks lie");
    }
}
