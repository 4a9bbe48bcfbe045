//! Writes small pictures, with what mask.rs says of them, as tests of the definitions.
//!
//! ```text
//! cargo run --release --manifest-path host/Cargo.toml --bin definitions -- [CUTS] [GROWTHS] [MOST] [SEED]
//! cargo run --release --manifest-path host/Cargo.toml --bin definitions -- looks [LOOKS] [SEED]
//! ```
//!
//! CUTS pictures of at most MOST pixels go to `subject`, GROWTHS lines and strips to `unmix_fringe`
//! (300, 100, 25 and 1 by default). The text on standard output is a module for
//! crates/outline/proofs: test after test, each that the definitions of crates/outline give mask,
//! weights by bits, keyed flag and crop box of mask.rs, or the refusal. Every other picture has the
//! card's colour given, and its second reading of mask.rs (support/reading.rs), or a text that names
//! none. The prover computes each of them; one declaration for all would be more than it computes at
//! once.
//!
//! With `looks` the module is for crates/next_pass/proofs: LOOKS lines and strips (100 by default), each
//! with growth of one pass by mask.rs and the number of its joins.

include!(concat!(env!("OUT_DIR"), "/the_rust.rs"));

#[path = "../../support/masks.rs"]
mod masks;
#[path = "../../support/pictures.rs"]
mod pictures;
#[cfg(mask_rs)]
#[path = "../../support/reading.rs"]
mod reading;

#[cfg(not(mask_rs))]
fn main() {
    eprintln!("mask.rs is not at hand: PIXELFORGE_MASK_RS names its place");
    std::process::exit(1);
}

#[cfg(mask_rs)]
fn main() {
    with::main();
}

#[cfg(mask_rs)]
mod with {
    use crate::mask::{self, Subject};
    use crate::masks::{bools, Random};
    use crate::pictures::{self, Drawn};
    use crate::reading;
    use stand::Settings;

    const HEAD: &str = "\
-- Small pictures, and what mask.rs says of them: the definitions say the same.
-- Assumes nothing.
use mathlib.Core.Bool.{Bool, true, false, cond, not, ◌&&◌}
use mathlib.Core.List.{List, [], ◌∷◌, map}
use Prim.Native.Nat.{ℕ, ◌*◌}
use lib.IntN.{ℤ, pos, negsuc}
use lib.Dec.{T, eqb}
use lib.Ieee.{Float, binary64, lt, le, eq, add, sub, mul, div, neg, of_int, of_bits, to_bits}
use Rattle.plane.specs.Plane.{on, bit, on_at, apart, within, table, rows_upto, plane_of, index_of}
use Rattle.plane.specs.Search.{some_below, count_below, first_below, last_below}
use Rattle.plane.specs.Mask.{is_on, mask_of, some_off}
use Rattle.plane.specs.Box.{row_has, column_has, lesser_of, box_of, whole_of}
use Rattle.plane.specs.Refusal.{room_for, refusal_of}
use Rattle.line.specs.Walk.{lower}
use Rattle.line.specs.Grid.{value_of, walk, upto, grid, plus}
use Rattle.nearest.specs.Nearest.{row_cost, nearest, away, distance_to}
use Rattle.squares.specs.Squares.{in_square}
use Rattle.labels.specs.Labels.{beside, renamed, merge, join_two, join_with, join_upto, first_pixel}
use Rattle.colour.specs.declared.Rgb.{Rgb}
use Rattle.colour.specs.declared.Settings.{Settings}
use Rattle.colour.specs.Number.{abs_of, larger, plus_zero, half_of}
use Rattle.colour.specs.Colour.{difference_of, close_to, colour_ok, colours_ok, rgb_ok}
use Rattle.colour.specs.Join.{joins_of}
use Rattle.colour.specs.Settings.{passes_of, on_of}
use Rattle.colour.specs.Weight.{weight_of}
use Rattle.card.specs.Hex.{hex_of, all_hex}
use Rattle.card.specs.Card.{Card, Border, is_colour_text, text_channel, text_colour, card_of}
use Rattle.median.specs.Median.{insert, sorted, placed, lower_middle, upper_middle, median_of}
use Rattle.outline.specs.Border.{row_pixels, inner_column, border_list, listed, on_border}
use Rattle.outline.specs.Border.{channel_at, colour_at, reference_channel, reference_of}
use Rattle.outline.specs.Ground.{is_close, close_plane, is_ground, ground_from, ground_of, count_on, found_from, is_found}
use Rattle.outline.specs.Growth.{near_ground, is_edge, is_shallow, is_deep, is_reach, body_from, joins_from}
use Rattle.outline.specs.Growth.{is_joining, pass_of, growth_of}
use Rattle.outline.specs.Cut.{Cut, alpha_mask, is_sought, is_keyed, grown_ground, cut_mask, weight_at, weights_of, crop_of, cut_of}
use Rattle.outline.specs.Refusal.{work_tests, picture_tests, cut_lengths, cut_contents, cut_refusal}
use Rattle.outline.specs.Calls.{cut_in}

same : List ℕ → List ℕ → Bool
same [] [] = true
same [] (n ∷ m) = false
same (k ∷ l) [] = false
same (k ∷ l) (n ∷ m) = eqb k n && same l m

f64 : ℕ → Float
f64 n = of_bits binary64 n

bits : Float → ℕ
bits x = to_bits binary64 x

settings : ℤ → Bool → ℤ → ℕ → Bool → Settings
settings threshold key p tolerance crop =
    record {
      alpha_threshold = threshold;
      key_bg = key;
      key_bg_fringe = p;
      key_bg_tolerance = f64 tolerance;
      crop_to_alpha = crop;
    }

rgb : ℕ → ℕ → ℕ → Rgb
rgb r g b = record { r = f64 r; g = f64 g; b = f64 b }

-- the refusal, with buffers that fit
refused : List Float → List ℕ → ℕ → ℕ → Card → Settings → ℕ → Bool
refused colours alpha h w card s number =
    eqb (cut_refusal colours alpha h w card s (h * w) (h * w) (room_for h w) (room_for h w) (room_for h w) (room_for h w)) number

-- a cut with this mask, these weights, this flag and this box
is_cut : Cut → List ℕ → List ℕ → Bool → List ℕ → Bool
is_cut c mask weights keyed box =
    same c.mask mask
    && same (map bits c.weights) weights
    && cond keyed c.keyed (not c.keyed)
    && same (c.box.y0 ∷ c.box.y1 ∷ c.box.x0 ∷ c.box.x1 ∷ []) box

-- accepted, with these
cut_is : List Float → List ℕ → ℕ → ℕ → Card → Settings → List ℕ → List ℕ → Bool → List ℕ → Bool
cut_is colours alpha h w card s mask weights keyed box =
    refused colours alpha h w card s 0 && is_cut (cut_in colours alpha h w card s) mask weights keyed box

growth_is : List Float → Rgb → ℕ → ℕ → ℕ → List ℕ → List ℕ → Bool
growth_is colours reference h w p back grown = same (growth_of colours reference h w p back) grown

";

    const UNFOLDING: &str = "unfolding same f64 bits settings rgb refused is_cut cut_is growth_is on bit on_at apart within \
        table rows_upto plane_of index_of some_below count_below first_below last_below is_on mask_of some_off row_has column_has \
        lesser_of box_of whole_of refusal_of lower value_of walk upto grid plus row_cost nearest away distance_to in_square beside \
        renamed merge join_two join_with join_upto first_pixel abs_of larger plus_zero half_of difference_of close_to \
        colour_ok colours_ok rgb_ok joins_of passes_of on_of weight_of insert sorted placed lower_middle upper_middle median_of \
        row_pixels inner_column border_list listed on_border channel_at colour_at reference_channel reference_of is_close \
        close_plane is_ground ground_from ground_of count_on found_from is_found near_ground is_edge is_shallow is_deep is_reach \
        body_from joins_from is_joining pass_of growth_of alpha_mask is_sought is_keyed grown_ground cut_mask weight_at weights_of \
        crop_of cut_of work_tests picture_tests cut_lengths cut_contents cut_refusal hex_of all_hex is_colour_text text_channel \
        text_colour card_of lt le eq add sub mul div neg of_int of_bits to_bits";

    /// What the tests of looks use beside the rest.
    const LOOK_USE: &str =
        "use Rattle.next_pass.specs.NextPass.{next_background, newly_on, joins_in}\n";

    const LOOK: &str = "\
look_is : List Float → Rgb → ℕ → ℕ → List ℕ → List ℕ → ℕ → Bool
look_is colours reference h w back next joins =
    same (next_background colours reference h w back) next && eqb (joins_in colours reference h w back) joins

";

    fn list<T: std::fmt::Display>(of: impl IntoIterator<Item = T>) -> String {
        let mut text = String::from("(");
        for element in of {
            text += &format!("{element} ∷ ");
        }
        text + "[])"
    }

    fn integer(n: i64) -> String {
        match u64::try_from(n) {
            Ok(n) => format!("(pos {n})"),
            Err(_) => format!("(negsuc {})", -(n + 1)),
        }
    }

    /// Colours as bits, read by `f64`.
    fn floats(colours: &[f64]) -> String {
        format!("(map f64 {})", list(colours.iter().map(|c| c.to_bits())))
    }

    fn masked(mask: &[bool]) -> String {
        list(mask.iter().map(|&m| m as u8))
    }

    /// How many were written, and what they were.
    #[derive(Default)]
    struct Count {
        refused: u32,
        keyed: u32,
        grown: u32,
        full: u32,
        partial: u32,
        growths: u32,
        joined: u32,
        deep: u32,
        beyond: u32,
        colours: u32,
        texts: u32,
    }

    /// An object of few colours on a card, opaque for the most part.
    fn few_colours(random: &mut Random, drawn: &mut pictures::Drawn) {
        let card = [1.0, 0.0, -0.0, 0.5][random.below(4)];
        let far = if card == 1.0 { -1.0 } else { 0.5 };
        let border = pictures::onto_border(drawn.h, drawn.w);
        let odd = random.below(drawn.h * drawn.w);
        for (i, pixel) in drawn.colours.chunks_mut(3).enumerate() {
            let (y, x) = (i / drawn.w, i % drawn.w);
            let inner = y.min(x).min(drawn.h - 1 - y).min(drawn.w - 1 - x) >= 2;
            let part = match border[i] {
                true if i != odd => 0.0,
                _ if inner && random.below(4) > 0 => 1.0,
                _ => [0.0, 0.125, 0.25, 0.375, 0.5, 0.5, 1.0][random.below(7)],
            };
            let grey = if part == 0.0 { card } else { card + far * part };
            pixel.fill(grey);
            pixel[random.below(3)] = card;
        }
        if random.below(4) > 0 {
            drawn.alpha.fill(255);
            drawn.settings.alpha_threshold = 128;
        }
        drawn.settings.key_bg_tolerance = [0.0, -0.0, 0.03125, 0.0625][random.below(4)];
    }

    /// A picture with small numbers of passes and any other settings.
    fn picture(random: &mut Random, most: usize) -> Drawn {
        let object = random.below(2) == 0;
        let (h, w) = loop {
            let least = if object { 5 } else { 1 };
            let side = |random: &mut Random| least + random.below(9 - least);
            let (h, w) = (side(random), side(random));
            if h * w <= most.max(25) {
                break (h, w);
            }
        };
        let mut drawn = pictures::draw(random, h, w);
        if object {
            few_colours(random, &mut drawn);
        }
        let settings = &mut drawn.settings;
        settings.key_bg_fringe = [-1, 0, 1, 2, 2, 3, 3][random.below(7)];
        settings.alpha_threshold = settings.alpha_threshold.clamp(-5, 256);
        if random.below(2) == 0 && !settings.key_bg_tolerance.is_finite() {
            settings.key_bg_tolerance = 0.03125;
        }
        drawn
    }

    /// A text for the card's colour, in one picture of eight one that names none.
    fn text(random: &mut Random, drawn: &Drawn) -> String {
        let bytes = pictures::card_colour(random, &drawn.colours, drawn.h, drawn.w);
        let good = pictures::text_of(random, bytes);
        match random.below(8) {
            0 => match random.below(4) {
                0 => String::new(),
                1 => good[1..].into(),
                2 => format!("#{good}"),
                _ => format!("{}g", &good[1..]),
            },
            _ => good,
        }
    }

    /// The arguments that a picture, its card and its settings are.
    fn arguments(drawn: &Drawn, given: Option<&str>) -> String {
        let Settings {
            alpha_threshold,
            key_bg,
            key_bg_fringe,
            key_bg_tolerance,
            crop_to_alpha,
        } = drawn.settings;
        let card = match given {
            Some(text) => format!("(card_of {})", list(text.bytes())),
            None => "Border".into(),
        };
        format!(
            "{} {} {} {} {card} (settings {} {key_bg} {} {} {crop_to_alpha})",
            floats(&drawn.colours),
            list(&drawn.alpha),
            drawn.h,
            drawn.w,
            integer(alpha_threshold),
            integer(key_bg_fringe),
            key_bg_tolerance.to_bits(),
        )
    }

    fn counted(count: &mut Count, drawn: &Drawn, given: Option<&str>, theirs: &Subject) {
        let Drawn { colours, h, w, .. } = drawn;
        let reference = pictures::reference_by(given, colours, *h, *w);
        let tolerance = drawn.settings.key_bg_tolerance;
        let ground = pictures::ground_by(reference, colours, *h, *w, tolerance);
        let grown = (0..h * w).any(|i| !theirs.mask[i] && ground[i] == 0);
        let partial = |&a: &u8| (a as i64) < drawn.settings.alpha_threshold;
        count.keyed += theirs.background_keyed as u32;
        count.grown += (theirs.background_keyed && grown) as u32;
        count.full += theirs.mask.iter().all(|&m| m) as u32;
        count.partial += drawn.alpha.iter().any(partial) as u32;
        count.colours += (given.is_some() && theirs.background_keyed) as u32;
    }

    /// What mask.rs says of a picture, or of one with a given colour its second reading; nothing where
    /// no alpha reaches the threshold.
    fn subject(drawn: &Drawn, given: Option<&str>) -> Option<Subject> {
        let Drawn {
            colours,
            alpha,
            h,
            w,
            settings,
        } = drawn;
        match given {
            Some(text) => reading::subject(pictures::colour_of(text), &drawn.picture(), settings),
            None => mask::subject(colours, alpha, *h, *w, &reading::config(settings)).ok(),
        }
    }

    fn cut(random: &mut Random, most: usize, with_colour: bool, count: &mut Count) -> String {
        let drawn = picture(random, most);
        let given = with_colour.then(|| text(random, &drawn));
        let given = given.as_deref();
        let arguments = arguments(&drawn, given);
        if given.is_some_and(|text| stand::CardColour::new(text).bytes().is_none()) {
            count.texts += 1;
            return format!("refused {arguments} 11");
        }
        let Some(theirs) = subject(&drawn, given) else {
            count.refused += 1;
            return format!("refused {arguments} 6");
        };
        counted(count, &drawn, given, &theirs);
        let (y0, y1, x0, x1) = theirs.crop;
        format!(
            "cut_is {arguments} {} {} {} {}",
            masked(&theirs.mask),
            list(theirs.weight.iter().map(|w| w.to_bits())),
            theirs.background_keyed,
            list([y0, y1, x0, x1])
        )
    }

    /// A line or a strip that has room for deep pixels, with the background at its left end and
    /// here and there.
    struct Strip {
        h: usize,
        w: usize,
        colours: Vec<f64>,
        back: Vec<u8>,
    }

    /// The reference of all strips.
    const ZERO: [f64; 3] = [-0.0, 0.0, 0.0];

    fn strip(random: &mut Random) -> Strip {
        let (h, w) = [(1, 12), (1, 16), (12, 1), (16, 1), (2, 9), (2, 12)][random.below(6)];
        let n = h * w;
        let colours: Vec<f64> = (0..n)
            .flat_map(|i| {
                let far = (i % w + i / w) as f64 / (h + w) as f64;
                let grey = [0.0, 0.25, 1.0, far, far * far, far][random.below(6)];
                [grey, grey, [grey, grey, -0.0][random.below(3)]]
            })
            .collect();
        let ends = 1 + random.below(3);
        let holes = [0, 0, 60, 200][random.below(4)];
        let also = random.mask(n, holes);
        let back: Vec<u8> = (0..n)
            .map(|i| (i % w + i / w < ends || also[i] == 1) as u8)
            .collect();
        let back = random.any_bytes(&back);
        Strip {
            h,
            w,
            colours,
            back,
        }
    }

    fn growth(random: &mut Random, count: &mut Count) -> String {
        let Strip {
            h,
            w,
            colours,
            back,
        } = strip(random);
        let p = random.below(4);
        let grown = mask::unmix_fringe(&colours, &bools(&back), h, w, &ZERO, p);
        let deep = mask::binary_dilation8(&bools(&back), h, w, 4);
        let deep: Vec<bool> = deep.iter().map(|&d| !d).collect();
        count.growths += 1;
        count.joined += (grown != bools(&back)) as u32;
        if p > 0 && deep.contains(&true) {
            count.deep += 1;
            let (rows, cols) = mask::feature_transform(&deep, h, w);
            let near = mask::binary_dilation8(&bools(&back), h, w, 1);
            count.beyond += (0..h * w).any(|i| {
                let dy = rows[i] as i64 - (i / w) as i64;
                let dx = cols[i] as i64 - (i % w) as i64;
                back[i] == 0 && near[i] && dy * dy + dx * dx > 36
            }) as u32;
        }
        let [r, g, b] = ZERO.map(f64::to_bits);
        format!(
            "growth_is {} (rgb {r} {g} {b}) {h} {w} {p} {} {}",
            floats(&colours),
            list(&back),
            masked(&grown)
        )
    }

    fn look(random: &mut Random, count: &mut Count) -> String {
        let Strip {
            h,
            w,
            colours,
            back,
        } = strip(random);
        let next = mask::unmix_fringe(&colours, &bools(&back), h, w, &ZERO, 1);
        let new = next.iter().zip(&back).filter(|(&n, &b)| n && b == 0);
        let joins = new.count();
        count.growths += 1;
        count.joined += (joins > 0) as u32;
        let [r, g, b] = ZERO.map(f64::to_bits);
        format!(
            "look_is {} (rgb {r} {g} {b}) {h} {w} {} {} {joins}",
            floats(&colours),
            list(&back),
            masked(&next)
        )
    }

    /// The tests of looks.
    fn looks(number: usize, seed: u64) {
        let mut random = Random(seed);
        let mut count = Count::default();
        print!(
            "{}{LOOK}",
            HEAD.replacen("\nsame :", &format!("{LOOK_USE}\nsame :"), 1)
        );
        let unfolding = format!("{UNFOLDING} look_is next_background newly_on joins_in");
        for i in 0..number {
            let test = look(&mut random, &mut count);
            println!("\nt{i} : T ({test})\n{unfolding}\nt{i} = tt");
        }
        eprintln!("{} looks, {} with a join", count.growths, count.joined);
    }

    pub fn main() {
        let mut words = std::env::args().skip(1).peekable();
        let only_looks = words.next_if(|word| word == "looks").is_some();
        let numbers: Vec<usize> = words.map(|word| word.parse().expect("a number")).collect();
        let or = |at: usize, otherwise| numbers.get(at).copied().unwrap_or(otherwise);
        if only_looks {
            return looks(or(0, 100), or(1, 1) as u64);
        }
        let (cuts, growths, most) = (or(0, 300), or(1, 100), or(2, 25));
        let mut random = Random(or(3, 1) as u64);
        let mut count = Count::default();
        print!("{HEAD}");
        for i in 0..cuts + growths {
            let test = match i < cuts {
                true => cut(&mut random, most, i % 2 == 1, &mut count),
                false => growth(&mut random, &mut count),
            };
            println!("\nt{i} : T ({test})\n{UNFOLDING}\nt{i} = tt");
        }
        eprintln!(
            "{cuts} pictures of at most {most} pixels: {} refused for alpha, {} of partial alpha, {} \
             keyed, of which {} grown, {} full; {} keyed by a given colour, {} refused for its text; {} growths: {} with a join, {} with deep pixels, {} \
             with an edge pixel beyond 36 of them",
            count.refused,
            count.partial,
            count.keyed,
            count.grown,
            count.full,
            count.colours,
            count.texts,
            count.growths,
            count.joined,
            count.deep,
            count.beyond
        );
    }
}
