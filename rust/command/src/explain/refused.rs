//! Why a day file is refused: the check in words, the record with its place, and what else is wrong with the file.

use super::fields::{correction_fields, mark_fields, position_fields, Field};
use super::header::header_text;
use crate::day::{day_of, offset_of, Section};
use crate::findings::findings;
use crate::quoted::contract_text;
use crate::text::Lines;
use citronreef::records::{Correction, Day, RECORD_SIZE};
use citronreef::{words, Refusal};

const OTHERS: &str = "Other conditions that hold, each with its first record. One may vanish when the first is mended.";

/// A refused file, and the lines of its records where it was made of a text.
struct Refused<'a> {
    file: &'a [u8],
    day: Day,
    lines: Option<&'a Lines>,
}

/// The whole explanation of a refusal.
pub fn refusal_text(file: &[u8], refusal: Refusal, lines: Option<&Lines>) -> String {
    let refused = Refused { file, day: day_of(file), lines };
    let what = match Section::of_check(refusal.number) {
        Some(section) => refused.records_text(section, refusal),
        None => header_text(file, refusal.number, lines),
    };
    format!("{refusal}\n\n{what}{}", refused.others_text(refusal.number))
}

impl Refused<'_> {
    /// The record that is refused; for a clash the earlier one first.
    fn records_text(&self, section: Section, refusal: Refusal) -> String {
        match self.clashing(refusal.number, refusal.index) {
            Some(earlier) => {
                let first = self.record_text(section, earlier, refusal.number, Some(refusal.index));
                first + "\n" + &self.record_text(section, refusal.index, refusal.number, Some(earlier))
            }
            None => self.record_text(section, refusal.index, refusal.number, None),
        }
    }

    /// The first earlier record that the record clashes with, for checks 8, 11 and 16.
    fn clashing(&self, check: u32, index: usize) -> Option<usize> {
        let (marks, corrections, positions) = (&self.day.marks, &self.day.corrections, &self.day.positions);
        match check {
            8 => {
                let mark = marks.get(index)?;
                let contract = (mark.code, mark.month, mark.year);
                marks[..index].iter().position(|earlier| (earlier.code, earlier.month, earlier.year) == contract)
            }
            11 => {
                let correction = corrections.get(index)?;
                let clashes = |earlier: &Correction| earlier.number == correction.number && earlier != correction;
                corrections[..index].iter().position(clashes)
            }
            16 => {
                let position = positions.get(index)?;
                let holding = (position.account, position.mark);
                positions[..index].iter().position(|earlier| (earlier.account, earlier.mark) == holding)
            }
            _ => None,
        }
    }

    /// A record and its place. Of two that clash, `other` is the one beside it.
    fn record_text(&self, section: Section, index: usize, check: u32, other: Option<usize>) -> String {
        let (marks, corrections, positions) = (&self.day.marks, &self.day.corrections, &self.day.positions);
        let other = other.and_then(|other| corrections.get(other));
        let fields = match section {
            Section::Marks => marks.get(index).map(|mark| mark_fields(mark, check)),
            Section::Corrections => corrections.get(index).map(|record| correction_fields(record, marks, check, other)),
            Section::Positions => positions.get(index).map(|position| position_fields(position, marks, check)),
        };
        let place = self.place(section, index, &format!("{RECORD_SIZE} bytes from "));
        let head = format!("  {}, {place}\n", self.counted(section, index));
        head + &fields_text(&fields.unwrap_or_default())
    }

    /// A record's index, and which one it is for people, who count from 1.
    fn counted(&self, section: Section, index: usize) -> String {
        let count = match section {
            Section::Marks => self.day.marks.len(),
            Section::Corrections => self.day.corrections.len(),
            Section::Positions => self.day.positions.len(),
        };
        format!("{} {index} (the {} of {count})", section.record_name(), ordinal(index + 1))
    }

    /// Where a record stands in the text and in the file.
    fn place(&self, section: Section, index: usize, from: &str) -> String {
        let byte = offset_of(self.file, section, index);
        let line = self.lines.and_then(|lines| lines.at(byte));
        let line = line.map_or_else(String::new, |line| format!("line {line} of the text, "));
        format!("{line}{from}byte {byte} of the file")
    }

    /// What a record is called: a mark by its contract, a correction by its number, a position by its account.
    fn called(&self, section: Section, index: usize) -> Option<String> {
        match section {
            Section::Marks => self.day.marks.get(index).map(contract_text),
            Section::Corrections => {
                self.day.corrections.get(index).map(|correction| format!("number {}", correction.number))
            }
            Section::Positions => self.day.positions.get(index).map(|position| format!("account {}", position.account)),
        }
    }

    /// The other checks whose condition holds somewhere, a line for each.
    fn others_text(&self, refused: u32) -> String {
        let others = findings(self.file).into_iter().filter(|&(check, _)| check != refused);
        let lines: Vec<String> = others.map(|(check, index)| self.other_line(check, index)).collect();
        match lines.is_empty() {
            true => String::new(),
            false => format!("\n{OTHERS}\n{}", lines.concat()),
        }
    }

    fn other_line(&self, check: u32, index: usize) -> String {
        let record = Section::of_check(check).map(|section| {
            let kind = section.record_name();
            let called = self.called(section, index).map_or_else(String::new, |name| format!(", {name}"));
            let earlier = self.clashing(check, index).map_or_else(String::new, |earlier| format!(", as {kind} {earlier}"));
            format!(" ({kind} {index}{called}{earlier}; {})", self.place(section, index, ""))
        });
        format!("{check:>4} at {index}: {}{}\n", words(check), record.unwrap_or_default())
    }
}

/// The fields under each other, with an arrow at what is wrong.
fn fields_text(fields: &[Field]) -> String {
    let widest = fields.iter().map(|field| field.holds.len()).max().unwrap_or(0);
    let line = |field: &Field| {
        let why = field.why.as_ref().map_or_else(String::new, |why| format!("  <-- {why}"));
        format!("    {:<14}  {:<widest$}{why}", field.name, field.holds).trim_end().to_string() + "\n"
    };
    fields.iter().map(line).collect()
}

fn ordinal(number: usize) -> String {
    let ending = match (number % 10, number % 100) {
        (_, 11..=13) => "th",
        (1, _) => "st",
        (2, _) => "nd",
        (3, _) => "rd",
        _ => "th",
    };
    format!("{number}{ending}")
}
