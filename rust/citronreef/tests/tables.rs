//! The words of the checks, the version and the limits that this package names, against docs/REFUSALS.md, include/citronreef.h and
//! what the library answers.

use std::fs;
use std::path::Path;

use citronreef::records::{
    Correction, Day, Mark, Position, MAX_CORRECTIONS, MAX_LOTS, MAX_MARKS, MAX_POSITIONS, PRICE_LIMIT, UNITS_PER_POINT,
};
use citronreef::{make, settle, tick_value, value, words, write_sheet, Refusal, FILE_SIZE, SHEET_SIZE, VERSION};

fn text_of(name: &str) -> String {
    let root = Path::new(env!("CARGO_MANIFEST_DIR")).ancestors().nth(2).expect("the package stands in the repository");
    fs::read_to_string(root.join(name)).expect(name)
}

/// The number and the words of a row of the table of refusals.
fn row(line: &str) -> Option<(u32, &str)> {
    let mut cells = line.strip_prefix('|')?.split('|').map(str::trim);
    Some((cells.next()?.parse().ok()?, cells.next()?))
}

#[test]
fn words_are_those_of_the_table() {
    let text = text_of("docs/REFUSALS.md");
    let rows: Vec<_> = text.lines().filter_map(row).collect();
    let numbers: Vec<u32> = rows.iter().map(|&(number, _)| number).collect();
    assert_eq!(numbers, [1, 2, 3, 4, 5, 6, 7, 8, 9, 10, 11, 12, 13, 16, 14, 15, 17]);
    for (number, said) in rows {
        assert_eq!(words(number), said);
    }
    for number in [0, 18, u32::MAX] {
        assert_eq!(words(number), "");
    }
}

/// What the header has for a macro.
fn macro_of(header: &str, name: &str) -> String {
    let start = format!("#define CITRONREEF_{name} ");
    header.lines().find_map(|line| line.strip_prefix(&start)).expect(name).to_string()
}

#[test]
fn header_has_the_same_version_and_limits() {
    let header = text_of("include/citronreef.h");
    let number = |name: &str| macro_of(&header, name).parse::<usize>().expect(name);
    let parts = ["VERSION_MAJOR", "VERSION_MINOR", "VERSION_PATCH"].map(|part| macro_of(&header, part));
    assert_eq!(parts.join("."), VERSION);
    assert_eq!(macro_of(&header, "VERSION"), format!("\"{VERSION}\""));
    assert_eq!(number("MAX_MARKS"), MAX_MARKS);
    assert_eq!(number("MAX_CORRECTIONS"), MAX_CORRECTIONS);
    assert_eq!(number("MAX_POSITIONS"), MAX_POSITIONS);
    assert_eq!(number("MAX_LOTS"), MAX_LOTS as usize);
    assert_eq!(number("PRICE_LIMIT"), PRICE_LIMIT as usize);
    assert_eq!(number("UNITS_PER_POINT"), UNITS_PER_POINT as usize);
    assert_eq!(number("FILE_SIZE"), FILE_SIZE);
    assert_eq!(number("SHEET_SIZE"), SHEET_SIZE);
}

#[test]
fn price_limit() {
    assert_eq!(value(*b"IR", PRICE_LIMIT), Ok(100_000_000));
    assert_eq!(value(*b"IR", PRICE_LIMIT + 1), Err(Refusal::of(6)));
    assert_eq!(value(*b"IB", PRICE_LIMIT + 50), Err(Refusal::of(6)));
    assert_eq!(tick_value(*b"IR", PRICE_LIMIT), Err(Refusal::of(15)));
    assert_eq!(PRICE_LIMIT, 100 * UNITS_PER_POINT);
}

/// A contract of its own for each index.
fn mark(index: usize) -> Mark {
    Mark { code: *b"IB", month: (index % 12 + 1) as u8, year: (index / 12) as u8, previous: 950_000, today: 950_100 }
}

fn day(marks: usize, corrections: usize, positions: usize) -> Day {
    Day {
        marks: (0..marks).map(mark).collect(),
        corrections: (0..corrections).map(|k| Correction { number: k as u32, mark: 0, price: 950_200 }).collect(),
        positions: (1..=positions).map(|account| Position { account: account as u32, mark: 0, lots: 1 }).collect(),
    }
}

/// The number that a day is refused with; 0 where it is accepted.
fn refused(day: &Day) -> u32 {
    settle(&day.bytes(), &mut vec![0; day.positions.len()]).map_or_else(|refusal| refusal.number, |_| 0)
}

#[test]
fn limits_of_the_counts() {
    assert_eq!(refused(&day(MAX_MARKS, MAX_CORRECTIONS, MAX_POSITIONS)), 0);
    assert_eq!(refused(&day(MAX_MARKS + 1, 0, 0)), 2);
    assert_eq!(refused(&day(1, MAX_CORRECTIONS + 1, 0)), 2);
    assert_eq!(refused(&day(1, 0, MAX_POSITIONS + 1)), 2);
}

#[test]
fn size_of_a_file() {
    let full = day(MAX_MARKS, MAX_CORRECTIONS, MAX_POSITIONS);
    let [marks, corrections, positions] = full.lists();
    let mut out = vec![0; FILE_SIZE];
    assert_eq!(make(&marks, &corrections, &positions, &mut out[1..]), Err(Refusal::of(17)));
    assert_eq!(make(&marks, &corrections, &positions, &mut out), Ok(FILE_SIZE));
    assert_eq!(out, full.bytes());
}

#[test]
fn limit_of_the_lots() {
    let lots = |lots| refused(&Day { positions: vec![Position { account: 1, mark: 0, lots }], ..day(1, 0, 0) });
    assert_eq!([MAX_LOTS, -MAX_LOTS, 1, -1].map(lots), [0; 4]);
    assert_eq!([MAX_LOTS + 1, -MAX_LOTS - 1, 0, i32::MIN].map(lots), [13; 4]);
}

#[test]
fn size_of_a_sheet() {
    let file = day(1, 0, 1).bytes();
    let mut amounts = [7];
    assert_eq!(write_sheet(&file, &mut amounts, &mut vec![0; SHEET_SIZE - 1]), 0);
    assert_eq!(amounts, [7]);
    let mut out = vec![0; SHEET_SIZE];
    let length = write_sheet(&file, &mut amounts, &mut out);
    assert_eq!(&out[..length], b"1 IB 1 0 2466 AUD\ntotal AUD 2466\ntotal NZD 0\nresent 0\n");
}
