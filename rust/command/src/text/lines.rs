//! The lines of a text, and the fields of a line.

use super::Mistake;
use crate::money::whole_text;

/// No line has more bytes. The fields of a line take many times its length, so a longer one is turned away before it is parted.
const LINE_LIMIT: usize = 65_536;

const BYTE_ORDER_MARK: &[u8] = "\u{feff}".as_bytes();

/// A line that says something: its place in the text, from 1, and its fields, the first word among them.
pub struct Line<'a> {
    pub place: usize,
    pub fields: Vec<&'a str>,
}

/// The lines of a text that say something. One that cannot be read stands there as what is wrong with it.
pub fn lines(text: &[u8]) -> impl Iterator<Item = Result<Line<'_>, Mistake>> {
    let text = text.strip_prefix(BYTE_ORDER_MARK).unwrap_or(text);
    let all = text.split(|&byte| byte == b'\n').enumerate().map(|(above, bytes)| line_of(above + 1, bytes));
    all.filter(|line| !matches!(line, Ok(line) if line.fields.is_empty()))
}

fn line_of(place: usize, bytes: &[u8]) -> Result<Line<'_>, Mistake> {
    let bytes = bytes.strip_suffix(b"\r").unwrap_or(bytes);
    let mistake = |says: String| Mistake { line: place, says };
    if bytes.len() > LINE_LIMIT {
        return Err(mistake(format!("the line has more than {} bytes: write several lines", whole_text(LINE_LIMIT as i64))));
    }
    let text =
        std::str::from_utf8(bytes).map_err(|_| mistake("these bytes are not UTF-8: save the text as UTF-8".to_string()))?;
    if let Some(control) = text.chars().find(|&c| c.is_control() && c != '\t') {
        return Err(mistake(format!("a control character, {}, stands in the line", control.escape_unicode())));
    }
    let said = text.split('#').next().unwrap_or("");
    Ok(Line { place, fields: said.split_whitespace().collect() })
}

impl Line<'_> {
    /// The first word, which says what the line holds.
    pub fn kind(&self) -> &str {
        self.fields[0]
    }

    /// What is wrong with the line as a whole.
    pub fn mistake(&self, says: String) -> Mistake {
        Mistake { line: self.place, says }
    }

    /// A field as it is read, by its number from 1.
    pub fn field<T>(&self, number: usize, read: impl Fn(&str) -> Result<T, String>) -> Result<T, Mistake> {
        read(self.fields[number - 1]).map_err(|says| Mistake::at(self.place, number, says))
    }
}
