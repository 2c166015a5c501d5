//! The records of a text as its lines give them, in which marks may still be named by their contracts.

use super::lines::{lines, Line};
use super::words::*;
use super::{Lines, Mistake};
use crate::quoted::{code_of, price_of, told};
use citronreef::records::{Correction, Mark, Position};

/// The field in which a correction or a position names its mark.
pub const NAMING_FIELD: usize = 3;

/// A record, but for its mark's index, and what it names the mark by.
pub struct Naming<T> {
    pub record: T,
    pub mark: Named,
}

/// The header that a text asks for. A number that is not given is the layout's.
#[derive(Clone, Copy)]
pub enum Header {
    Missing,
    Numbers([Option<u32>; 6]),
}

/// What the lines of a text say.
#[derive(Default)]
pub struct Draft {
    pub header: Option<(usize, Header)>,
    pub marks: Vec<Mark>,
    pub corrections: Vec<Naming<Correction>>,
    pub positions: Vec<Naming<Position>>,
    /// Bytes after the last record.
    pub rest: Vec<u8>,
    pub lines: Lines,
}

impl Draft {
    pub fn of(text: &[u8]) -> Result<Draft, Mistake> {
        let mut draft = Draft::default();
        for line in lines(text) {
            draft.add(&line?)?;
        }
        Ok(draft)
    }

    fn add(&mut self, line: &Line) -> Result<(), Mistake> {
        match line.kind() {
            "mark" => self.add_mark(line),
            "correction" => self.add_correction(line),
            "position" => self.add_position(line),
            "header" => self.add_header(line),
            "bytes" => self.add_bytes(line),
            _ => {
                line.field(1, |word| Err(format!("{} is none of mark, correction, position, header and bytes", told(word))))
            }
        }
    }

    fn add_mark(&mut self, line: &Line) -> Result<(), Mistake> {
        expect(line, "mark CODE MONTH YEAR PREVIOUS TODAY")?;
        self.marks.push(Mark {
            code: line.field(2, code_of)?,
            month: line.field(3, month_of)?,
            year: line.field(4, year_of)?,
            previous: line.field(5, price_of)?,
            today: line.field(6, price_of)?,
        });
        self.lines.marks.push(line.place);
        Ok(())
    }

    fn add_correction(&mut self, line: &Line) -> Result<(), Mistake> {
        expect(line, "correction NUMBER MARK PRICE")?;
        let (number, mark) = (line.field(2, correction_number_of)?, line.field(NAMING_FIELD, named_of)?);
        let price = line.field(4, price_of)?;
        self.corrections.push(Naming { record: Correction { number, mark: 0, price }, mark });
        self.lines.corrections.push(line.place);
        Ok(())
    }

    fn add_position(&mut self, line: &Line) -> Result<(), Mistake> {
        expect(line, "position ACCOUNT MARK LOTS")?;
        let (account, mark) = (line.field(2, account_of)?, line.field(NAMING_FIELD, named_of)?);
        let lots = line.field(4, lots_of)?;
        self.positions.push(Naming { record: Position { account, mark: 0, lots }, mark });
        self.lines.positions.push(line.place);
        Ok(())
    }

    fn add_header(&mut self, line: &Line) -> Result<(), Mistake> {
        if let Some((first, _)) = self.header {
            return Err(line.mistake(format!("line {first} has a header already")));
        }
        let header = header_of(line)?;
        self.header = Some((line.place, header));
        self.lines.header = Some(line.place);
        self.lines.headless = matches!(header, Header::Missing);
        Ok(())
    }

    fn add_bytes(&mut self, line: &Line) -> Result<(), Mistake> {
        if line.fields.len() == 1 {
            return Err(line.mistake("bytes are written as two hexadecimal digits for each: bytes 00 ff".to_string()));
        }
        self.lines.rest.push((self.rest.len(), line.place));
        for number in 2..=line.fields.len() {
            self.rest.extend(line.field(number, hexadecimal_of)?);
        }
        Ok(())
    }
}

/// Asks that a line has as many fields as the form of its kind.
fn expect(line: &Line, form: &str) -> Result<(), Mistake> {
    let (wanted, here) = (form.split(' ').count(), line.fields.len());
    if wanted == here {
        return Ok(());
    }
    Err(line.mistake(format!("a {} has {wanted} fields, {form}, and here are {here}", line.kind())))
}

fn header_of(line: &Line) -> Result<Header, Mistake> {
    if line.fields[1..] == ["none"] {
        return Ok(Header::Missing);
    }
    if line.fields.len() != 7 {
        let form = "header M OFFSET C OFFSET N OFFSET";
        return Err(
            line.mistake(format!("a header has 7 fields, {form}, or is header none, and here are {}", line.fields.len()))
        );
    }
    let mut numbers = [None; 6];
    for (place, number) in numbers.iter_mut().enumerate() {
        *number = line.field(place + 2, header_number_of)?;
    }
    Ok(Header::Numbers(numbers))
}
