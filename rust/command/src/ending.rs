//! How the command ends: its exit status, and the sentence that goes with a failure.

use std::fmt;
use std::io::{self, Write};

/// What was asked is done, or is refused.
#[derive(Clone, Copy, Debug, PartialEq, Eq)]
pub enum Ending {
    Accepted,
    Refused,
}

/// Something could not be read or written. A failure without a sentence is one that nobody is left to hear of.
#[derive(Debug)]
pub struct Failure(pub String);

pub type Ended = Result<Ending, Failure>;

/// The exit status: 0 accepted, 1 refused, 2 could not read or write.
pub fn status(ended: Ended) -> i32 {
    match ended {
        Ok(Ending::Accepted) => 0,
        Ok(Ending::Refused) => 1,
        Err(Failure(sentence)) => {
            if !sentence.is_empty() {
                say(sentence);
            }
            2
        }
    }
}

/// One line on standard error, with the command's name.
pub fn say(sentence: impl fmt::Display) {
    complain(&format!("citronreef: {sentence}\n"));
}

/// Text on standard error. Where nobody can read it there is nobody to tell.
pub fn complain(text: &str) {
    let _ = io::stderr().write_all(text.as_bytes());
}
