//! What a file's header and length are against what they have to be: checks 1 to 3.

use crate::day::header_of;
use crate::money::whole_text;
use crate::sheet::INPUT_LIMIT;
use crate::text::Lines;
use citronreef::records::{header, HEADER_SIZE, MAX_CORRECTIONS, MAX_MARKS, MAX_POSITIONS, RECORD_SIZE};

const LIMITS: [usize; 3] = [MAX_MARKS, MAX_CORRECTIONS, MAX_POSITIONS];
const COUNTS: [&str; 3] = ["marks", "corrections", "positions"];
const OFFSETS: [&str; 3] = ["offset of the marks", "offset of the corrections", "offset of the positions"];

const UNREAD: &str = "  The records are not looked at: other mistakes may be there.\n";

/// A line: a name, where it stands, what the file has, what it has to have, and a word where that is wrong.
fn line(name: &str, byte: &str, has: &str, ought: &str, wrong: &str) -> String {
    format!("  {name:<25}  {byte:>7}  {has:>13}  {ought:>13}{wrong}").trim_end().to_string() + "\n"
}

/// A line for a header number, which is counted from 0.
fn header_line(name: &str, place: usize, has: usize, ought: &str, wrong: &str) -> String {
    line(name, &(4 * place).to_string(), &number(has), ought, wrong)
}

fn number(number: usize) -> String {
    whole_text(number as i64)
}

/// How many bytes were read; of a longer file the rest is not.
fn length_text(file: &[u8]) -> String {
    match file.len() > INPUT_LIMIT {
        true => format!("over {}", number(INPUT_LIMIT)),
        false => number(file.len()),
    }
}

/// What check 1, 2 or 3 looks at, and where the text has it. After the first two nothing is looked at any more.
pub fn header_text(file: &[u8], check: u32, lines: Option<&Lines>) -> String {
    let text = match check {
        1 => format!("  The file has {} bytes, and its header alone has {HEADER_SIZE}.\n", file.len()),
        2 => counts_text(file),
        _ => layout_text(file),
    };
    let line = lines.and_then(|lines| lines.header).map(|line| format!("  The header is line {line} of the text.\n"));
    let parts = [line.as_deref(), (check < 3).then_some(UNREAD)];
    parts.into_iter().flatten().fold(text, |text, part| text + "\n" + part)
}

fn counts_text(file: &[u8]) -> String {
    let numbers = header_of(file);
    let mut text = line("", "at byte", "the file has", "at most", "");
    for (section, (name, limit)) in COUNTS.into_iter().zip(LIMITS).enumerate() {
        let count = numbers[2 * section];
        let word = if count > limit { "  <-- above the limit" } else { "" };
        text += &header_line(name, 2 * section, count, &number(limit), word);
    }
    text
}

fn layout_text(file: &[u8]) -> String {
    let numbers = header_of(file);
    let [marks, _, corrections, _, positions, _] = numbers;
    let layout = header(marks, corrections, positions);
    let word = |differs: bool| if differs { "  <-- differs" } else { "" };
    let mut text = line("", "at byte", "the file has", "by its counts", "");
    for section in 0..3 {
        let (count, offset, ought) = (numbers[2 * section], numbers[2 * section + 1], layout[2 * section + 1]);
        text += &header_line(COUNTS[section], 2 * section, count, "", "");
        text += &header_line(OFFSETS[section], 2 * section + 1, offset, &number(ought), word(offset != ought));
    }
    let ought = layout[5] + RECORD_SIZE * positions;
    text + &line("length in bytes", "", &length_text(file), &number(ought), word(file.len() != ought))
}
