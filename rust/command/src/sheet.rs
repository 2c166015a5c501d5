//! `citronreef sheet`: the sheet of a day file.

use crate::ending::{Ended, Ending};
use crate::input::{self, Kind};
use crate::output;
use citronreef::records::MAX_POSITIONS;
use citronreef::{write_sheet, FILE_SIZE, SHEET_SIZE};
use std::path::Path;

/// How much is read of a day file, as by the Rattle program `sheet`. It is more than any file has that is accepted; of a longer one it
/// makes no difference how long it is, since the counts and offsets are in the header and no layout has this length.
pub const INPUT_LIMIT: usize = 65_536;
const _: () = assert!(FILE_SIZE < INPUT_LIMIT);

/// How the sheet of a file starts that is refused. The sheet of any other file starts with a digit or with `total`.
const REFUSED: &[u8] = b"refused ";

/// Writes what the program `sheet` prints.
pub fn run(file: Option<&Path>, out: Option<&Path>) -> Ended {
    let file = input::read(file, Kind::DayFile, INPUT_LIMIT)?;
    let mut sheet = vec![0; SHEET_SIZE];
    let length = write_sheet(&file, &mut vec![0; MAX_POSITIONS], &mut sheet);
    let sheet = &sheet[..length];
    output::write(sheet, out)?;
    Ok(if sheet.starts_with(REFUSED) { Ending::Refused } else { Ending::Accepted })
}
