//! From the bytes of a file to its text.

use super::layout::{counted, Parts};
use super::names::Names;
use crate::quoted::{code_text, price_text};
use citronreef::records::HEADER_SIZE;
use std::fmt::Write;

const BYTES_A_LINE: usize = 12;

/// A line of the text, and what its comment says.
type Said = (String, String);

/// The text of any bytes: `made` turns it into the same bytes. Comments number the records and tell what is wrong with the layout.
pub fn shown(file: &[u8]) -> String {
    match Parts::of(file) {
        Some(parts) => shown_parts(file, &parts),
        None => {
            let length = counted(file.len(), "byte");
            let fault = format!("the file has {length}, and a header has {HEADER_SIZE}");
            format!("# {length}\n# layout: {fault}\n\nheader none\n") + &aligned(&[bytes_lines(file, 0)])
        }
    }
}

fn shown_parts(file: &[u8], parts: &Parts) -> String {
    let mut head = format!("# {}: {}\n", counted(file.len(), "byte"), parts.counts());
    for fault in parts.faults() {
        head += &format!("# layout: {fault}\n");
    }
    if !parts.usual_header() {
        let numbers: Vec<String> = parts.header.iter().map(usize::to_string).collect();
        head += &format!("\nheader {}\n", numbers.join(" "));
    }
    let rest = bytes_lines(parts.rest, file.len() - parts.rest.len());
    let [marks, corrections, positions] = record_lines(parts);
    head + &aligned(&[marks, corrections, positions, rest])
}

/// A line for each record, in three sections.
fn record_lines(parts: &Parts) -> [Vec<Said>; 3] {
    let names = Names::of(&parts.marks);
    let marks = parts.marks.iter().map(|mark| {
        let (code, previous, today) = (code_text(mark.code), price_text(mark.previous), price_text(mark.today));
        format!("mark {code} {} {} {previous} {today}", mark.month, mark.year)
    });
    let corrections = parts.corrections.iter().map(|correction| {
        let (mark, price) = (names.name_of(correction.mark), price_text(correction.price));
        format!("correction {} {mark} {price}", correction.number)
    });
    let positions = parts.positions.iter().map(|position| {
        let mark = names.name_of(position.mark);
        format!("position {} {mark} {}", position.account, position.lots)
    });
    [numbered(marks, "mark"), numbered(corrections, "correction"), numbered(positions, "position")]
}

/// Lines with comments that count them from 0.
fn numbered(lines: impl Iterator<Item = String>, section: &str) -> Vec<Said> {
    lines.enumerate().map(|(index, line)| (line, format!("{section} {index}"))).collect()
}

/// Bytes in hexadecimal, a few to a line, with the place of each line's first one in the file.
fn bytes_lines(bytes: &[u8], start: usize) -> Vec<Said> {
    let rows = bytes.chunks(BYTES_A_LINE).enumerate();
    let line = |row: &[u8]| row.iter().fold("bytes".to_string(), |line, byte| format!("{line} {byte:02x}"));
    rows.map(|(above, row)| (line(row), format!("byte {}", start + above * BYTES_A_LINE))).collect()
}

/// The sections with an empty line above each, and all comments in one column.
fn aligned(sections: &[Vec<Said>]) -> String {
    let width = sections.iter().flatten().map(|(line, _)| line.len()).max().unwrap_or(0);
    let mut text = String::new();
    for section in sections.iter().filter(|section| !section.is_empty()) {
        text.push('\n');
        for (line, comment) in section {
            writeln!(text, "{line:<width$}  # {comment}").expect("a string takes every line");
        }
    }
    text
}
