//! Why there is no result, and the status that the program ends with.

use stand::netpbm::Fault;
use stand::placing::Unwritten;
use stand::Refusal;

/// All went well.
pub const WELL: u8 = 0;
/// A picture was refused, or something is not as recorded.
pub const REFUSED: u8 = 1;
/// A file or a word of the command was wrong.
pub const WRONG: u8 = 2;
/// Card was sought and not found.
pub const UNFOUND: u8 = 3;

/// Of two statuses the one that the program ends with: a wrong file before a refusal, and a refusal
/// before a card that was not found.
pub fn worse(a: u8, b: u8) -> u8 {
    let rank = |status| {
        [WELL, UNFOUND, REFUSED, WRONG]
            .iter()
            .position(|&s| s == status)
    };
    if rank(a) < rank(b) {
        b
    } else {
        a
    }
}

/// Why there is no result.
#[derive(Clone, Debug)]
pub struct Failure {
    pub status: u8,
    /// The number of the refusal, where it is one.
    pub number: Option<u32>,
    pub text: String,
}

impl Failure {
    /// A file that is not as it should be.
    pub fn file(text: impl Into<String>) -> Failure {
        Failure {
            status: WRONG,
            number: None,
            text: text.into(),
        }
    }

    /// Something that is not as recorded.
    pub fn unlike(text: impl Into<String>) -> Failure {
        Failure {
            status: REFUSED,
            number: None,
            text: text.into(),
        }
    }

    /// Files that are not in their place; `options` are those that choose another place.
    pub fn unwritten(why: Unwritten, options: &str) -> Failure {
        Failure::file(match why {
            Unwritten::Taken(_) => format!("{why}; add --force, or choose another {options}"),
            other => other.to_string(),
        })
    }

    fn refused(number: u32, text: String) -> Failure {
        Failure {
            status: REFUSED,
            number: Some(number),
            text,
        }
    }
}

impl From<Refusal> for Failure {
    fn from(why: Refusal) -> Failure {
        Failure::refused(why.number(), why.to_string())
    }
}

impl From<Fault> for Failure {
    fn from(why: Fault) -> Failure {
        match why {
            Fault::Sides(..) => Failure::refused(Refusal::Side.number(), why.to_string()),
            _ => Failure::file(why.to_string()),
        }
    }
}

impl From<Unwritten> for Failure {
    fn from(why: Unwritten) -> Failure {
        Failure::unwritten(why, "--name or --out")
    }
}
