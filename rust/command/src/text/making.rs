//! From a text to the parts of a file.

use super::draft::{Draft, Header, Naming, NAMING_FIELD};
use super::names::Names;
use super::words::Named;
use super::{Made, Mistake};
use citronreef::records::{header, Correction, Mark, Position};

/// The file that a text describes: the header, the marks, the corrections and the positions, each in the order of their lines,
/// and then further bytes where the text has any. Names are looked up when all marks are known, so that a mark may stand below
/// the records that name it.
pub fn made(text: &[u8]) -> Result<Made, Mistake> {
    let draft = Draft::of(text)?;
    let header = header_bytes(&draft)?;
    let lists = list_bytes(&draft)?;
    Ok(Made { header, lists, rest: draft.rest, lines: draft.lines })
}

/// The bytes of the three lists.
fn list_bytes(draft: &Draft) -> Result<[Vec<u8>; 3], Mistake> {
    let marks = draft.marks.iter().flat_map(Mark::bytes).collect();
    let (mut corrections, mut positions) = (Vec::new(), Vec::new());
    let names = Names::of(&draft.marks);
    for (naming, &line) in draft.corrections.iter().zip(&draft.lines.corrections) {
        let mark = index_of(naming, line, &names, draft)?;
        corrections.extend(Correction { mark, ..naming.record }.bytes());
    }
    for (naming, &line) in draft.positions.iter().zip(&draft.lines.positions) {
        let mark = index_of(naming, line, &names, draft)?;
        positions.extend(Position { mark, ..naming.record }.bytes());
    }
    Ok([marks, corrections, positions])
}

/// The index of the mark that a record of this line names.
fn index_of<T>(naming: &Naming<T>, line: usize, names: &Names, draft: &Draft) -> Result<u32, Mistake> {
    match naming.mark {
        Named::Index(index) => Ok(index),
        Named::Contract(contract) => {
            names.index_of(contract, &draft.lines.marks).map_err(|says| Mistake::at(line, NAMING_FIELD, says))
        }
    }
}

/// The header as the text gives it, with the layout's numbers where it gives none.
fn header_bytes(draft: &Draft) -> Result<Vec<u8>, Mistake> {
    let (line, wanted) = draft.header.unwrap_or((1, Header::Numbers([None; 6])));
    let given = match wanted {
        Header::Missing => return Ok(Vec::new()),
        Header::Numbers(given) => given,
    };
    let usual = header(draft.marks.len(), draft.corrections.len(), draft.positions.len());
    let mut bytes = Vec::new();
    for (given, usual) in given.iter().zip(usual) {
        let number = given.map_or_else(|| u32::try_from(usual), Ok);
        let number = number.map_err(|_| Mistake { line, says: format!("the header cannot hold the number {usual}") })?;
        bytes.extend(number.to_le_bytes());
    }
    Ok(bytes)
}
