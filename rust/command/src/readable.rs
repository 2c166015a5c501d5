//! `citronreef make` and `show`: day files of readable texts, and readable texts of day files.

use crate::day::day_of;
use crate::ending::{complain, say, Ended, Ending, Failure};
use crate::explain;
use crate::input::{self, Kind};
use crate::output;
use crate::text::{self, Made};
use citronreef::records::MAX_POSITIONS;
use citronreef::{Refusal, FILE_SIZE};
use std::path::Path;

/// No text is read that is longer.
const TEXT_LIMIT: usize = 16 << 20;

/// No file is shown that is longer. A day file has a seventeenth of this at most, and the text that shows so many bytes is within the limit
/// of a text.
const SHOWN_LIMIT: usize = 1 << 20;

/// The file of a readable text, with the line of each record. None where the text says nothing that can be made: that is told.
pub fn made(file: Option<&Path>) -> Result<Option<Made>, Failure> {
    let bytes = input::read_whole(file, Kind::Text, TEXT_LIMIT)?;
    match text::made(&bytes) {
        Ok(made) => Ok(Some(made)),
        Err(wrong) => {
            say(format!("{}, {wrong}", input::name(file)));
            Ok(None)
        }
    }
}

/// The file that the library makes of three lists.
fn file_of([marks, corrections, positions]: &[Vec<u8>; 3]) -> Result<Vec<u8>, Refusal> {
    let mut file = vec![0; FILE_SIZE];
    let length = citronreef::make(marks, corrections, positions, &mut file)?;
    file.truncate(length);
    Ok(file)
}

/// The file that the library makes of a text's lists. Where the text has a header or further bytes, the library judges its bytes first, and
/// the lists are those of the file that passes.
fn checked(made: &Made) -> Result<Vec<u8>, Refusal> {
    if !made.has_own_layout() {
        return file_of(&made.lists);
    }
    let bytes = made.bytes();
    citronreef::settle(&bytes, &mut vec![0; MAX_POSITIONS])?;
    file_of(&day_of(&bytes).lists())
}

/// Writes the file that the library makes of a text. Of a text that it refuses nothing is written, or with `anyway` the text's bytes as they
/// stand.
pub fn make(file: Option<&Path>, anyway: bool, out: Option<&Path>) -> Ended {
    if output::is_terminal(out) {
        let name = output::name(out);
        return Err(Failure(format!("{name} is a terminal, and a day file is no text: name a file with -o")));
    }
    let made = match made(file)? {
        Some(made) => made,
        None => return Ok(Ending::Refused),
    };
    match checked(&made) {
        Ok(file) => output::write(&file, out)?,
        Err(refusal) if anyway => {
            output::write(&made.bytes(), out)?;
            say(format!("written all the same: {refusal}"));
        }
        Err(refusal) => {
            complain(&explain::refusal_text(&made.bytes(), refusal, Some(&made.lines)));
            say("nothing is written; --anyway writes the file all the same");
            return Ok(Ending::Refused);
        }
    }
    Ok(Ending::Accepted)
}

/// Shows any bytes as a text.
pub fn show(file: Option<&Path>, out: Option<&Path>) -> Ended {
    let bytes = input::read_whole(file, Kind::DayFile, SHOWN_LIMIT)?;
    output::write(text::shown(&bytes).as_bytes(), out)?;
    Ok(Ending::Accepted)
}

#[cfg(test)]
mod tests {
    use super::*;
    use oracles::days::{damage_bytes, damage_record, day};
    use oracles::random::Random;

    fn made_of(text: &str) -> Made {
        text::made(text.as_bytes()).unwrap_or_else(|mistake| panic!("{mistake}, in {text}"))
    }

    /// Whether a text is accepted. What the library makes of it is its bytes as they stand, and it is refused as they are.
    fn is_accepted(text: &str) -> bool {
        let made = made_of(text);
        let judged = citronreef::settle(&made.bytes(), &mut vec![0; MAX_POSITIONS]);
        assert_eq!(checked(&made), judged.map(|_| made.bytes()), "{text}");
        judged.is_ok()
    }

    #[test]
    fn texts_of_damaged_files() {
        let mut random = Random::new(1_103_515_245);
        let (mut accepted, mut refused, mut broken) = (0, 0, 0);
        for _ in 0..10_000 {
            let mut day = day(&mut random);
            (0..random.below(3)).for_each(|_| damage_record(&mut random, &mut day));
            let mut file = day.bytes();
            if random.one_in(4) {
                damage_bytes(&mut random, &mut file);
            }
            let text = text::shown(&file);
            let (accepts, has_own_layout) = (is_accepted(&text), made_of(&text).has_own_layout());
            match (accepts, has_own_layout) {
                (true, _) => accepted += 1,
                (false, false) => refused += 1,
                (false, true) => broken += 1,
            }
            if !has_own_layout {
                assert_eq!(is_accepted(&format!("{text}header _ _ _ _ _ _")), accepts);
            }
        }
        let counts = [accepted, refused, broken];
        assert!(counts.iter().all(|&count| count > 1_000), "accepted, refused, with a layout of their own: {counts:?}");
    }

    /// The header makes a position of further bytes, a correction of a position, and a position of a correction.
    #[test]
    fn headers_that_make_other_records() {
        let marks = "mark IR 3 27 95.00 95.01\nmark BB 3 27 95.00 95.02\n";
        for (header, line) in [
            ("2 24 0 48 1 48", "bytes 0b000000 00000000 05000000"),
            ("2 24 1 48 0 60", "position 7 @0 950000"),
            ("2 24 0 48 1 48", "correction 7 @0 0.0005"),
        ] {
            assert!(is_accepted(&format!("header {header}\n{marks}{line}\n")));
        }
    }
}
