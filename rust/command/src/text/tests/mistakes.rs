//! Texts that say nothing that can be made: the line, the field, and what to write instead.

use super::{made, wrong_with};

/// Texts, and what is said of each.
const MISTAKES: &[(&str, &str)] = &[
    ("marks IR 3 18 95.00 95.02", "line 1, field 1: marks is none of mark, correction, position, header and bytes"),
    ("\n\n Mark", "line 3, field 1: Mark is none of mark, correction, position, header and bytes"),
    ("mark IR 3 18 95.00", "line 1: a mark has 6 fields, mark CODE MONTH YEAR PREVIOUS TODAY, and here are 5"),
    ("mark IR 3 18 95.00 95.02 1", "line 1: a mark has 6 fields, mark CODE MONTH YEAR PREVIOUS TODAY, and here are 7"),
    ("correction 7 @0", "line 1: a correction has 4 fields, correction NUMBER MARK PRICE, and here are 3"),
    ("position 1 XT 3 27 5", "line 1: a position has 4 fields, position ACCOUNT MARK LOTS, and here are 6"),
    ("position # 1 @0 5", "line 1: a position has 4 fields, position ACCOUNT MARK LOTS, and here are 1"),
    // Codes
    (
        "mark IRX 3 18 0.0 0.0",
        "line 1, field 2: IRX is no code: write two capital letters, as in IR, or 0x and four hexadecimal digits",
    ),
    (
        "mark ir 3 18 0.0 0.0",
        "line 1, field 2: ir is no code: write two capital letters, as in IR, or 0x6972 for these bytes",
    ),
    ("mark é 3 18 0.0 0.0", "line 1, field 2: é is no code: write two capital letters, as in IR, or 0xc3a9 for these bytes"),
    (
        "mark 0x+12 3 18 0.0 0.0",
        "line 1, field 2: 0x+12 is no code: write two capital letters, as in IR, or 0x and four hexadecimal digits",
    ),
    // Months and years
    ("mark IR 256 18 0.0 0.0", "line 1, field 3: 256 is no month: write a whole number from 0 to 255"),
    ("mark IR Mar 18 0.0 0.0", "line 1, field 3: Mar is no month: write a whole number from 0 to 255"),
    ("mark IR 3 256 0.0 0.0", "line 1, field 4: 256 is no year (27 stands for 2027): write a whole number from 0 to 255"),
    ("mark IR 3 -1 0.0 0.0", "line 1, field 4: -1 is no year (27 stands for 2027): write a whole number from 0 to 255"),
    // Prices
    ("mark IR 3 18 100 95.02", "line 1, field 5: 100 has no decimal point: write 100.00, or 100u for units of 0.0001"),
    (
        "mark IR 3 18 95.00 950200",
        "line 1, field 6: 950200 has no decimal point: write 950200.00, or 950200u for units of 0.0001",
    ),
    ("mark IR 3 18 95,00 95.02", "line 1, field 5: 95,00 is no price: write digits with a point, as in 95.01"),
    ("mark IR 3 18 -1.0 95.02", "line 1, field 5: -1.0 is no price: write digits with a point, as in 95.01"),
    ("correction 7 @0 95.00001", "line 1, field 4: 95.00001 is no price: it has one to four decimals, as in 95.01"),
    ("correction 7 @0 95.", "line 1, field 4: 95. is no price: write digits with a point, as in 95.01"),
    ("correction 7 @0 429496.7296", "line 1, field 4: 429496.7296 is no price: the largest is 429496.7295"),
    ("correction 7 @0 4294967296u", "line 1, field 4: 4294967296u is no number of units: write digits and u, as in 950100u"),
    // Numbers that do not fit
    (
        "correction 4294967296 @0 95.0",
        "line 1, field 2: 4294967296 is no number of a correction: write a whole number from 0 to 4294967295",
    ),
    ("correction -7 @0 95.0", "line 1, field 2: -7 is no number of a correction: write a whole number from 0 to 4294967295"),
    ("position 4294967296 @0 1", "line 1, field 2: 4294967296 is no account: write a whole number from 0 to 4294967295"),
    (
        "position 1 @0 3000000000",
        "line 1, field 4: 3000000000 is no number of lots: write a whole number from -2147483648 to 2147483647",
    ),
    (
        "position 1 @0 -2147483649",
        "line 1, field 4: -2147483649 is no number of lots: write a whole number from -2147483648 to 2147483647",
    ),
    ("position 1 @0 +-3", "line 1, field 4: +-3 is no number of lots: write a whole number from -2147483648 to 2147483647"),
    ("position 1 @0 -", "line 1, field 4: - is no number of lots: write a whole number from -2147483648 to 2147483647"),
    ("position 1 @0 2.5", "line 1, field 4: 2.5 is no number of lots: write a whole number from -2147483648 to 2147483647"),
    ("position -0 @0 1", "line 1, field 2: -0 is no account: write a whole number from 0 to 4294967295"),
    // Marks that are named
    ("position 1001 4 -40", "line 1, field 3: 4 is a bare index: write @4, or the contract's name, as in XT/3/27"),
    ("correction 31 0 95.0", "line 1, field 3: 0 is a bare index: write @0, or the contract's name, as in XT/3/27"),
    ("position 1 @ 5", "line 1, field 3: @ is no index of a mark: write @ and a whole number from 0 to 4294967295"),
    (
        "position 1 @4294967296 5",
        "line 1, field 3: @4294967296 is no index of a mark: write @ and a whole number from 0 to 4294967295",
    ),
    ("position 1 XT/Mar/27 5", "line 1, field 3: XT/Mar/27 is no contract's name: write code/month/year, as in XT/3/27"),
    ("position 1 XT/3/2027 5", "line 1, field 3: XT/3/2027 is no contract's name: write code/month/year, as in XT/3/27"),
    ("position 1 XT/3 5", "line 1, field 3: XT/3 is no contract's name: write code/month/year, as in XT/3/27"),
    ("position 1 XT/3/27/1 5", "line 1, field 3: XT/3/27/1 is no contract's name: write code/month/year, as in XT/3/27"),
    (
        "position 1 xt/3/27 5",
        "line 1, field 3: xt is no code: write two capital letters, as in IR, or 0x7874 for these bytes",
    ),
    // Headers and bytes
    ("header 1 2 3", "line 1: a header has 7 fields, header M OFFSET C OFFSET N OFFSET, or is header none, and here are 4"),
    (
        "header none none",
        "line 1: a header has 7 fields, header M OFFSET C OFFSET N OFFSET, or is header none, and here are 3",
    ),
    ("header 1 2 3 4 5 x", "line 1, field 7: x is no header number, nor _: write a whole number from 0 to 4294967295"),
    (
        "header 4294967296 _ _ _ _ _",
        "line 1, field 2: 4294967296 is no header number, nor _: write a whole number from 0 to 4294967295",
    ),
    ("header none\n\nheader none", "line 3: line 1 has a header already"),
    ("bytes", "line 1: bytes are written as two hexadecimal digits for each: bytes 00 ff"),
    ("bytes 0", "line 1, field 2: 0 is no row of bytes: write two hexadecimal digits for each, as in 00 ff"),
    ("bytes 00 0g", "line 1, field 3: 0g is no row of bytes: write two hexadecimal digits for each, as in 00 ff"),
    // Characters
    ("\nmark\rmark", "line 2: a control character, \\u{d}, stands in the line"),
    ("# \u{1b}[2J", "line 1: a control character, \\u{1b}, stands in the line"),
    ("\n\u{feff}mark", "line 2, field 1: \\u{feff}mark is none of mark, correction, position, header and bytes"),
];

#[test]
fn mistakes_are_told_with_line_and_field() {
    for (text, said) in MISTAKES {
        assert_eq!(wrong_with(text), *said, "of {text:?}");
    }
}

#[test]
fn lines_are_counted_with_comments_and_empty_ones() {
    for (text, said) in MISTAKES.iter().filter(|(text, _)| !text.contains('\n')) {
        let below = format!("\u{feff}# a comment\r\n\r\n{text}\r\nmark");
        assert_eq!(wrong_with(below), said.replacen("line 1", "line 3", 1));
    }
}

#[test]
fn bytes_that_are_not_utf_8() {
    assert_eq!(wrong_with(b"# one\n# caf\xe9\n"), "line 2: these bytes are not UTF-8: save the text as UTF-8");
    assert_eq!(wrong_with(b"\xff\xfem\0a\0"), "line 1: these bytes are not UTF-8: save the text as UTF-8");
}

#[test]
fn long_words_are_cut() {
    let said = wrong_with("x".repeat(65_536));
    assert_eq!(
        said,
        format!("line 1, field 1: {}.. is none of mark, correction, position, header and bytes", "x".repeat(40))
    );
    assert!(wrong_with(format!("mark IR 3 18 {} 0.0", "9".repeat(65_000))).len() < 200);
    assert!(wrong_with(format!("position 1 {} 0", "/".repeat(65_000))).len() < 200);
}

/// The end of the line, which may be CR LF, is not counted.
#[test]
fn long_lines_are_not_read() {
    let comment = "#".repeat(65_536);
    assert!(made(format!("{comment}\r\n{comment}\n").as_bytes()).is_ok());
    let said = "line 2: the line has more than 65,536 bytes: write several lines";
    assert_eq!(wrong_with(format!("{comment}\n#{comment}\n")), said);
}

#[test]
fn the_first_line_with_a_mistake_is_told() {
    assert_eq!(&wrong_with("mark IR 3 18 95.00 95.02\nposition 1 0 1\nposition 1 @0 x\n")[..15], "line 2, field 3");
}
