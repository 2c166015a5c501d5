//! The records of a day file, read by the layout as far as the file has them, and where each stands.

use citronreef::records::{u32_at, Correction, Day, Mark, Position, HEADER_SIZE, RECORD_SIZE};

#[derive(Clone, Copy, Debug, PartialEq, Eq)]
pub enum Section {
    Marks,
    Corrections,
    Positions,
}

impl Section {
    /// The section whose records a check's index counts; none for a check that looks at no single record.
    pub fn of_check(number: u32) -> Option<Section> {
        match number {
            4..=8 => Some(Section::Marks),
            9..=11 => Some(Section::Corrections),
            12..=13 | 16 => Some(Section::Positions),
            _ => None,
        }
    }

    /// One record of it, in words.
    pub fn record_name(self) -> &'static str {
        match self {
            Section::Marks => "mark",
            Section::Corrections => "correction",
            Section::Positions => "position",
        }
    }
}

/// The six header numbers; all zero where the file is too short to have them.
pub fn header_of(file: &[u8]) -> [usize; 6] {
    match file.len() < HEADER_SIZE {
        true => [0; 6],
        false => std::array::from_fn(|place| u32_at(file, 4 * place) as usize),
    }
}

/// Where a section's records start by the layout.
fn start_of(file: &[u8], section: Section) -> usize {
    let [marks, _, corrections, ..] = header_of(file);
    match section {
        Section::Marks => HEADER_SIZE,
        Section::Corrections => HEADER_SIZE + RECORD_SIZE * marks,
        Section::Positions => HEADER_SIZE + RECORD_SIZE * (marks + corrections),
    }
}

/// Where a record starts, in bytes from the file's start.
pub fn offset_of(file: &[u8], section: Section, index: usize) -> usize {
    start_of(file, section) + RECORD_SIZE * index
}

fn records(file: &[u8], section: Section, count: usize) -> impl Iterator<Item = &[u8]> {
    file.get(start_of(file, section)..).unwrap_or_default().chunks_exact(RECORD_SIZE).take(count)
}

/// The three lists. A file that is too short for its counts has fewer records than they say.
pub fn day_of(file: &[u8]) -> Day {
    let [marks, _, corrections, _, positions, _] = header_of(file);
    Day {
        marks: records(file, Section::Marks, marks).map(Mark::read).collect(),
        corrections: records(file, Section::Corrections, corrections).map(Correction::read).collect(),
        positions: records(file, Section::Positions, positions).map(Position::read).collect(),
    }
}
