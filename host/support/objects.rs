//! The objects of the drawn photographs, each a function of a point: to the right and down from the
//! picture's middle, in units of its shorter side.

/// A colour, each channel from 0 to 1.
pub type Colour = [f64; 3];

/// An object at a point.
pub struct There {
    /// How far the point lies outside the outline, in which holes are filled; negative inside.
    pub outline: f64,
    /// How far it lies outside what is solid: the holes are outside.
    pub solid: f64,
    pub colour: Colour,
}

pub type Object = fn(f64, f64) -> There;

const BRASS: Colour = [0.72, 0.55, 0.25];
const BLUE: Colour = [0.1, 0.18, 0.43];
const RED: Colour = [0.57, 0.1, 0.12];
const IVORY: Colour = [0.93, 0.89, 0.77];
const STEEL: Colour = [0.3, 0.28, 0.27];
const BUFF: Colour = [0.85, 0.66, 0.38];
const INK: Colour = [0.17, 0.14, 0.16];
const SILVER: Colour = [0.6, 0.6, 0.6];
const IRON: Colour = [0.13, 0.13, 0.14];
const PAPER: Colour = [0.87, 0.86, 0.82];

/// An object without holes.
fn whole(outline: f64, colour: Colour) -> There {
    There {
        outline,
        solid: outline,
        colour,
    }
}

fn shade(colour: Colour, by: f64) -> Colour {
    colour.map(|v| (v * by).min(1.0))
}

/// A point as it is seen by what is turned by an angle.
fn turned(x: f64, y: f64, angle: f64) -> (f64, f64) {
    let (sin, cos) = angle.sin_cos();
    (x * cos + y * sin, y * cos - x * sin)
}

/// How far a point lies outside a rectangle with round corners.
fn rectangle(x: f64, y: f64, half_w: f64, half_h: f64, round: f64) -> f64 {
    let (dx, dy) = (x.abs() - half_w + round, y.abs() - half_h + round);
    dx.max(0.0).hypot(dy.max(0.0)) + dx.max(dy).min(0.0) - round
}

/// Metal that shines: lighter in some directions.
fn sheen(x: f64, y: f64, times: f64) -> f64 {
    0.95 + 0.25 * (times * y.atan2(x) + 2.0).cos()
}

/// Whether a point is on lines of writing: strokes of a width, with gaps between words.
fn written(x: f64, y: f64, half_w: f64, height: f64) -> bool {
    let stroke = (x / (0.4 * height)).fract().abs();
    let gap = (x / (2.7 * height)).fract().abs() < 0.2;
    x.abs() < half_w && y.abs() < height / 2.0 && stroke < 0.5 && !gap
}

/// Card without an object.
pub fn nothing(_: f64, _: f64) -> There {
    whole(f64::INFINITY, INK)
}

/// A round badge: a shining rim of brass, blue enamel, a wheel.
pub fn badge(x: f64, y: f64) -> There {
    let (x, y) = (x - 0.04, y + 0.02);
    let away = x.hypot(y);
    let spoke = (6.0 * y.atan2(x)).cos() > 0.85;
    let wheel = (0.12..0.15).contains(&away) || away < 0.03 || (away < 0.12 && spoke);
    let metal = away > 0.295 || (0.235..0.245).contains(&away) || wheel;
    let colour = if metal {
        shade(BRASS, sheen(x, y, 2.0))
    } else {
        shade(BLUE, 1.0 - 0.4 * y)
    };
    whole(away - 0.33, colour)
}

/// A cap badge: a shield of silver with a dark field.
pub fn shield(x: f64, y: f64) -> There {
    let y = y + 0.03;
    let side = (x.abs() + 0.12).hypot(y + 0.12) - 0.44;
    let outline = side.max(-0.24 - y);
    let colour = match outline {
        _ if outline > -0.035 => shade(SILVER, 0.75 * sheen(x, y, 3.0)),
        _ if written(x, y + 0.12, 0.2, 0.07) => shade(SILVER, 1.3),
        _ if (x.hypot(y - 0.04) - 0.07).abs() < 0.015 => shade(SILVER, 1.1),
        _ => BLUE,
    };
    whole(outline, colour)
}

/// A sign of enamel, slightly turned, with a chipped corner and two bolt holes.
pub fn sign(x: f64, y: f64) -> There {
    let (x, y) = turned(x, y, 0.05);
    let outline = rectangle(x, y, 0.5, 0.25, 0.05);
    let hole = (x.abs() - 0.43).hypot(y) - 0.025;
    let chip = (x - 0.5).hypot(y - 0.2) - 0.008 * (90.0 * x).sin();
    let colour = match outline {
        _ if chip < 0.05 || hole < 0.012 => STEEL,
        _ if (-0.045..-0.03).contains(&outline) => IVORY,
        _ if written(x, y + 0.08, 0.36, 0.11) || written(x, y - 0.09, 0.3, 0.08) => IVORY,
        _ => shade(RED, 1.0 - 0.2 * x),
    };
    There {
        outline,
        solid: outline.max(-hole),
        colour,
    }
}

/// A ticket of buff paper: one end torn, a notch, and two punched holes.
pub fn ticket(x: f64, y: f64) -> There {
    let (x, y) = turned(x + 0.02, y, -0.08);
    let torn = 0.4 + 0.012 * (40.0 * y).sin() + 0.007 * (113.0 * y).sin();
    let paper = rectangle(x, y, 0.46, 0.21, 0.02);
    let notch = 0.04 - (x + 0.46).hypot(y - 0.1);
    let outline = paper.max(x - torn).max(notch);
    let hole = |right: f64, down: f64| (x - right).hypot(y - down) - 0.022;
    let holes = hole(-0.3, -0.1).min(hole(0.22, 0.12));
    let fibre = 0.03 * (170.0 * x).sin() * (150.0 * y + 40.0 * x).sin();
    let colour = match y {
        _ if written(x, y + 0.13, 0.3, 0.045) || written(x, y, 0.33, 0.09) => INK,
        _ if written(x + 0.05, y - 0.14, 0.16, 0.04) => RED,
        _ => shade(BUFF, 1.0 + fibre),
    };
    There {
        outline,
        solid: outline.max(-holes),
        colour,
    }
}

/// A token of worn brass with a square hole.
pub fn token(x: f64, y: f64) -> There {
    let (x, y) = (x + 0.06, y - 0.01);
    let away = x.hypot(y);
    let (across, along) = turned(x, y, 0.6);
    let hole = rectangle(across, along, 0.06, 0.06, 0.005);
    let outline = away - 0.3;
    let raised = away > 0.275 || (away - 0.13).abs() < 0.006 || written(x, y + 0.2, 0.12, 0.05);
    let worn = 0.75 + 0.2 * (31.0 * x).sin() * (23.0 * y).cos();
    let colour = shade(BRASS, if raised { sheen(x, y, 2.0) } else { worn });
    There {
        outline,
        solid: outline.max(-hole),
        colour,
    }
}

/// An oval plate of cast iron with brass figures.
pub fn plate(x: f64, y: f64) -> There {
    // Near enough to a distance: the ellipse's equation over the length of its slope.
    let (a, b) = (0.5, 0.3);
    let (across, along) = (x / a, y / b);
    let size = across.hypot(along);
    let slope = (across / a).hypot(along / b).max(1e-9);
    let outline = size * (size - 1.0) / slope;
    let outline = if size < 0.2 { -0.2 } else { outline };
    let raised = (-0.05..-0.03).contains(&outline)
        || written(x, y, 0.33, 0.17)
        || written(x, y - 0.16, 0.2, 0.05);
    let colour = if raised {
        shade(BRASS, 0.9 + 0.3 * (9.0 * x).sin())
    } else {
        shade(IRON, 1.0 + 0.3 * (60.0 * x).sin() * (70.0 * y).sin())
    };
    whole(outline, colour)
}

/// A season ticket of pale paper.
pub fn pass(x: f64, y: f64) -> There {
    let (x, y) = turned(x, y - 0.02, 0.03);
    let outline = rectangle(x, y, 0.44, 0.28, 0.03);
    let frame = (-0.035..-0.03).contains(&outline);
    let colour = match y {
        _ if frame || written(x, y + 0.17, 0.32, 0.06) => BLUE,
        _ if written(x, y, 0.36, 0.04) || written(x, y - 0.08, 0.3, 0.04) => INK,
        _ if rectangle(x - 0.27, y - 0.17, 0.1, 0.06, 0.0) < 0.0 => RED,
        _ => PAPER,
    };
    whole(outline, colour)
}

/// Three buttons of silver, domed, each with a crest.
pub fn buttons(x: f64, y: f64) -> There {
    let places = [(-0.38, 0.05), (0.02, -0.12), (0.36, 0.14)];
    let button = |&(right, down): &(f64, f64)| {
        let (x, y) = (x - right, y - down);
        let away = x.hypot(y);
        // The dome is lit from the upper left.
        let light = 1.0 - 2.6 * (x + y) + 0.1 * (5.0 * y.atan2(x)).sin();
        let crest = away < 0.09 && written(x, y, 0.07, 0.05);
        let colour = shade(SILVER, if crest { 0.4 } else { light.clamp(0.45, 1.6) });
        whole(away - 0.16, colour)
    };
    let nearest = |a: There, b: There| if a.outline < b.outline { a } else { b };
    places
        .iter()
        .map(button)
        .reduce(nearest)
        .expect("three buttons")
}
