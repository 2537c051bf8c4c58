//! What can stop the command, as a sentence for whoever called it.
use std::fmt;
use std::path::Path;

/// The status of a run that did all it was asked.
pub const DONE: u8 = 0;
/// The status where the library refused a state, a set, a tank or a card.
pub const REFUSED: u8 = 1;
/// The status where the words or a file could not be taken, or nothing could be written.
pub const NOT_TAKEN: u8 = 2;
/// The status where a run was stopped; what was worked so far is kept.
pub const STOPPED: u8 = 3;

#[derive(Debug, Clone, PartialEq)]
pub struct Trouble {
    pub status: u8,
    pub sentence: String,
}

impl Trouble {
    /// Words of the command line that cannot be taken.
    pub fn words(sentence: impl Into<String>) -> Trouble {
        Trouble { status: NOT_TAKEN, sentence: sentence.into() }
    }
    /// A whole file that cannot be taken or written.
    pub fn file(file: &Path, reason: impl fmt::Display) -> Trouble {
        Trouble { status: NOT_TAKEN, sentence: format!("{}: {reason}", file.display()) }
    }
    /// A line of a file that cannot be taken.
    pub fn line(file: &str, line: usize, reason: impl fmt::Display) -> Trouble {
        Trouble { status: NOT_TAKEN, sentence: format!("{file}, line {line}: {reason}") }
    }
    /// What the library refused.
    pub fn refused(sentence: impl Into<String>) -> Trouble {
        Trouble { status: REFUSED, sentence: sentence.into() }
    }
    pub fn stopped(sentence: impl Into<String>) -> Trouble {
        Trouble { status: STOPPED, sentence: sentence.into() }
    }
}

impl fmt::Display for Trouble {
    fn fmt(&self, f: &mut fmt::Formatter<'_>) -> fmt::Result {
        f.write_str(&self.sentence)
    }
}
