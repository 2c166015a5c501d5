//! The readable text of a day file: `made` turns a text into the parts of a file, `shown` writes the text of any bytes. The text and its
//! grammar are described in docs/TEXT.md. Whether the records pass the checks is not looked at here.

mod draft;
mod layout;
mod lines;
mod making;
mod names;
mod places;
mod showing;
#[cfg(test)]
mod tests;
mod words;

pub use making::made;
pub use places::Lines;
pub use showing::shown;

use std::error::Error;
use std::fmt;

/// The parts of the file that a text describes, and where its records stand in the text.
#[derive(Clone, Debug, PartialEq, Eq)]
pub struct Made {
    pub header: Vec<u8>,
    /// The bytes of the marks, the corrections and the positions.
    pub lists: [Vec<u8>; 3],
    /// Further bytes.
    pub rest: Vec<u8>,
    pub lines: Lines,
}

impl Made {
    /// The bytes of the file, which may be refused.
    pub fn bytes(&self) -> Vec<u8> {
        let [marks, corrections, positions] = &self.lists;
        [&self.header[..], marks, corrections, positions, &self.rest].concat()
    }

    /// Whether the text says more than its three lists: a header, or further bytes.
    pub fn has_own_layout(&self) -> bool {
        self.lines.header.is_some() || !self.lines.rest.is_empty()
    }
}

/// What is wrong with a line of a text. The words start with the field, as in `field 4: ..`, where one field is wrong; the line's
/// first word is field 1.
#[derive(Clone, Debug, PartialEq, Eq)]
pub struct Mistake {
    pub line: usize,
    pub says: String,
}

impl Mistake {
    fn at(line: usize, field: usize, says: String) -> Mistake {
        Mistake { line, says: format!("field {field}: {says}") }
    }
}

impl fmt::Display for Mistake {
    fn fmt(&self, out: &mut fmt::Formatter) -> fmt::Result {
        let mark = if self.says.starts_with("field ") { ',' } else { ':' };
        write!(out, "line {}{mark} {}", self.line, self.says)
    }
}

impl Error for Mistake {}
