//! `citronreef explain`: the settlement of a day file for people, or why the file is refused.

mod csv;
mod fields;
mod header;
mod refused;
mod settlement;
mod table;

use crate::ending::{complain, Ended, Ending};
use crate::input::{self, Kind};
use crate::output;
use crate::readable;
use crate::sheet::INPUT_LIMIT;
pub use refused::refusal_text;
use settlement::Settlement;
use std::path::Path;

/// Explains a day file, or the day file of a readable text. A refusal is explained where the settlement would stand; a spreadsheet gets one
/// row there that says so.
pub fn run(file: Option<&Path>, is_text: bool, csv: bool, out: Option<&Path>) -> Ended {
    let (bytes, lines) = match is_text {
        true => match readable::made(file)? {
            Some(made) => (made.bytes(), Some(made.lines)),
            None => return Ok(Ending::Refused),
        },
        false => (input::read(file, Kind::DayFile, INPUT_LIMIT + 1)?, None),
    };
    let refusal = match Settlement::of(&bytes) {
        Ok(settlement) => {
            let text = if csv { csv::csv_text(&settlement) } else { table::table_text(&settlement) };
            output::write(text.as_bytes(), out)?;
            return Ok(Ending::Accepted);
        }
        Err(refusal) => refusal,
    };
    let mut text = refusal_text(&bytes, refusal, lines.as_ref());
    if !is_text && looks_like_text(&bytes) {
        text.push_str("\nThis looks like a readable text: try --text.\n");
    }
    if csv {
        complain(&text);
        text = csv::refusal_row(refusal);
    }
    output::write(text.as_bytes(), out)?;
    Ok(Ending::Refused)
}

/// No byte is zero, and the first line is one that can be read. A day file has a zero byte in each of its offsets.
fn looks_like_text(file: &[u8]) -> bool {
    let start = file.strip_prefix(b"\xef\xbb\xbf").unwrap_or(file);
    let line = start.split(|&byte| byte == b'\n').next().unwrap_or_default();
    let is_readable = |&byte: &u8| byte >= b' ' || byte == b'\t' || byte == b'\r';
    !start.is_empty() && !file.contains(&0) && line.iter().all(is_readable)
}
