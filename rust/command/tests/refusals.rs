//! Every refusal with its explanation: the check in the words of the table, the record, its place, and the field that is wrong.

mod days;
mod process;
mod table;

use citronreef::records::*;
use citronreef::{settle, Refusal};
use days::{damaged, sample};
use oracles::plain::{read, same_contract, same_holding};
use oracles::products::YEAR_LIMIT;
use oracles::random::Random;
use process::{run, Ran};

/// The explanation of a file that is refused with this number at this record: its first line, and all of it.
fn explained(file: &[u8], number: u32, index: usize) -> String {
    let Ran { status, out, err } = run(&["explain"], file);
    let words = &table::words()[number as usize - 1];
    assert_eq!((status, err.as_str()), (1, ""));
    assert_eq!(out.lines().next(), Some(format!("refused {number} at {index}: {words}").as_str()));
    out
}

/// The sample day after an edit is refused with this number at this record, and the explanation has these lines.
fn edited(edit: impl Fn(&mut Day), number: u32, index: usize, lines: &[&str]) {
    let mut day = sample();
    edit(&mut day);
    has_lines(&explained(&day.bytes(), number, index), lines);
}

fn has_lines(text: &str, lines: &[&str]) {
    for line in lines {
        assert!(text.lines().any(|told| told == *line), "no line `{line}` in\n{text}");
    }
}

/// The sample day's bytes with another header number, which is counted from 0.
fn with_header(place: usize, number: u32) -> Vec<u8> {
    let mut file = sample().bytes();
    file[4 * place..4 * place + 4].copy_from_slice(&number.to_le_bytes());
    file
}

const UNREAD: &str = "  The records are not looked at: other mistakes may be there.";

#[test]
fn header_and_length() {
    has_lines(&explained(&[7; 23], 1, 0), &["  The file has 23 bytes, and its header alone has 24.", UNREAD]);
    has_lines(
        &explained(&with_header(0, MAX_MARKS as u32 + 1), 2, 0),
        &[
            "                             at byte   the file has        at most",
            "  marks                            0            257            256  <-- above the limit",
            "  positions                       16              7          4,096",
            UNREAD,
        ],
    );
    has_lines(
        &explained(&with_header(3, 97), 3, 0),
        &[
            "  offset of the corrections       12             97             96  <-- differs",
            "  offset of the positions         20            144            144",
            "  length in bytes                               228            228",
        ],
    );
    let mut longer = sample().bytes();
    longer.push(0);
    let text = explained(&longer, 3, 0);
    has_lines(&text, &["  length in bytes                               229            228  <-- differs"]);
    assert!(!text.contains(UNREAD), "{text}");
}

#[test]
fn marks() {
    let head = "  mark 3 (the 4th of 6), 12 bytes from byte 60 of the file";
    edited(|day| day.marks[3].code = *b"YZ", 4, 3, &[head, "    code            YZ      <-- not in the product table"]);
    edited(|day| day.marks[3].code = *b"yt", 4, 3, &["    code            0x7974 (\"yt\")  <-- not in the product table"]);
    edited(
        |day| day.marks[3].month = 2,
        5,
        3,
        &[head, "    month           2       <-- not one of YT's months: 3, 6, 9, 12"],
    );
    edited(
        |day| day.marks[2].month = 13,
        5,
        2,
        &["    month           13      <-- not one of IB's months: 1, 2, 3, 4, 5, 6, 7, 8, 9, 10, 11, 12"],
    );
    edited(|day| day.marks[3].year = YEAR_LIMIT + 1, 5, 3, &[head, "    year            100     <-- above 99"]);
    edited(|day| day.marks[3].previous = PRICE_LIMIT + 50, 6, 3, &[head, "    previous price  100.005  <-- above 100.0000"]);
    edited(
        |day| day.marks[3].today = 956_425,
        7,
        3,
        &[head, "    previous price  95.61", "    today's price   95.6425  <-- no multiple of 0.005, the tick of YT"],
    );
}

#[test]
fn two_marks_of_one_contract() {
    edited(
        |day| day.marks[5] = Mark { today: 0, ..day.marks[1] },
        8,
        5,
        &[
            "  mark 1 (the 2nd of 6), 12 bytes from byte 36 of the file",
            "    code            BB     <-- the same in both",
            "    month           3      <-- the same in both",
            "    year            27     <-- the same in both",
            "  mark 5 (the 6th of 6), 12 bytes from byte 84 of the file",
            "    today's price   0.00",
        ],
    );
}

#[test]
fn corrections() {
    let head = "  correction 2 (the 3rd of 4), 12 bytes from byte 120 of the file";
    edited(
        |day| day.corrections[2].mark = 6,
        9,
        2,
        &[head, "    number          15", "    mark            6      <-- the file has 6 marks, with indices 0 to 5"],
    );
    edited(
        |day| day.corrections[2].price = 954_150,
        10,
        2,
        &[
            head,
            "    mark            1, BB Mar 27",
            "    price           95.415        <-- no multiple of 0.01, the tick of BB",
        ],
    );
    edited(
        |day| day.corrections[2].price = PRICE_LIMIT + 100,
        10,
        2,
        &[head, "    price           100.01        <-- above 100.0000"],
    );
}

#[test]
fn two_corrections_of_one_number() {
    edited(
        |day| day.corrections[3] = Correction { number: 31, mark: 3, price: 953_450 },
        11,
        3,
        &[
            "  correction 0 (the 1st of 4), 12 bytes from byte 96 of the file",
            "    number          31            <-- the same in both",
            "    mark            4, XT Mar 27  <-- differs",
            "    price           95.345",
            "  correction 3 (the 4th of 4), 12 bytes from byte 132 of the file",
            "    mark            3, YT Mar 27  <-- differs",
        ],
    );
}

#[test]
fn positions() {
    let head = "  position 4 (the 5th of 7), 12 bytes from byte 192 of the file";
    edited(
        |day| day.positions[4].mark = 4_294_967_295,
        12,
        4,
        &[head, "    mark            4294967295  <-- the file has 6 marks, with indices 0 to 5"],
    );
    for (lots, line) in [
        (0, "    lots            0             <-- no lots"),
        (MAX_LOTS + 1, "    lots            1,000,001     <-- above 1,000,000"),
        (-MAX_LOTS - 1, "    lots            -1,000,001    <-- below -1,000,000"),
    ] {
        edited(|day| day.positions[4].lots = lots, 13, 4, &[head, "    account         1003", line]);
    }
}

#[test]
fn two_positions_of_one_account_and_mark() {
    edited(
        |day| day.positions[5] = Position { lots: 7, ..day.positions[1] },
        16,
        5,
        &[
            "  position 1 (the 2nd of 7), 12 bytes from byte 156 of the file",
            "    account         1001          <-- the same in both",
            "    mark            4, XT Mar 27  <-- the same in both",
            "    lots            -40",
            "  position 5 (the 6th of 7), 12 bytes from byte 204 of the file",
            "    lots            7",
        ],
    );
}

/// The records that an explanation shows: the index and the byte of each.
fn shown(text: &str) -> Vec<(usize, usize)> {
    let heads = text.lines().filter(|line| line.contains(" (the "));
    let numbers = heads.map(|line| {
        let index = line.split_whitespace().nth(1).expect("an index");
        let byte = line.strip_suffix(" of the file").and_then(|line| line.rsplit(' ').next()).expect("a byte");
        (index.parse().expect("a number"), byte.parse().expect("a number"))
    });
    numbers.collect()
}

/// The records that have to be shown: for a clash the first earlier one that the record clashes with, and the record.
fn involved(day: &Day, Refusal { number, index }: Refusal) -> Vec<(usize, usize)> {
    let starts = header(day.marks.len(), day.corrections.len(), day.positions.len());
    let (start, earlier) = match number {
        8 => (starts[1], (0..index).find(|&other| same_contract(&day.marks[other], &day.marks[index]))),
        4..=7 => (starts[1], None),
        11 => {
            let record = day.corrections[index];
            let clashes = |other: &Correction| other.number == record.number && *other != record;
            (starts[3], (0..index).find(|&other| clashes(&day.corrections[other])))
        }
        9..=10 => (starts[3], None),
        16 => (starts[5], (0..index).find(|&other| same_holding(&day.positions[other], &day.positions[index]))),
        _ => (starts[5], None),
    };
    earlier.into_iter().chain([index]).map(|index| (index, start + RECORD_SIZE * index)).collect()
}

/// Each is refused as the library refuses it, with its records and an arrow at what is wrong.
#[test]
fn damaged_files() {
    let mut random = Random::new(3_039_177_861);
    let mut met = [0; 17];
    for _ in 0..1_500 {
        let file = damaged(&mut random);
        if let Err(refusal) = settle(&file, &mut [0; MAX_POSITIONS]) {
            let text = explained(&file, refusal.number, refusal.index);
            assert!(refusal.number == 1 || text.contains("  <-- "), "{text}");
            let records = read(&file).map_or_else(|_| vec![], |day| involved(&day, refusal));
            assert_eq!(shown(&text), records, "{text}");
            met[refusal.number as usize] += 1;
        }
    }
    assert!((1..=13).chain([16]).all(|number| met[number] > 2), "refused by checks 1 to 13 and 16: {met:?}");
}
