//! `rgb` of pixelforge's editor/log.rs, which reads a colour of six digits, with what it takes from its
//! own repository. build.rs cuts it, and what it calls, out of log.rs and color.rs as it stands there.

/// A value of the edit log.
#[allow(dead_code)]
enum Loaded {
    Str(String),
    Other,
}

#[allow(dead_code)]
struct EditError(String);

fn err<T>(message: String) -> Result<T, EditError> {
    Err(EditError(message))
}

mod color {
    include!(concat!(env!("OUT_DIR"), "/color_hex.rs"));
}

include!(concat!(env!("OUT_DIR"), "/log_rgb.rs"));

/// The three bytes that a text gives.
pub fn read(text: &str) -> Option<[u8; 3]> {
    rgb(&Loaded::Str(text.into()), "colour").ok()
}
