//! The forms that a text may have, and the files that break the layout on purpose.

use super::{bytes_of, case, made, shown};
use citronreef::records::{Day, MAX_MARKS};

const CASE: &str =
    "mark IR 3 18 95.00 95.02\ncorrection 7 @0 95.01\ncorrection 7 @0 95.01\nposition 11 @0 10\nposition 12 @0 -4\n";

#[test]
fn a_text_of_nothing_is_a_day_of_nothing() {
    for text in ["", "\n", "# nothing", "\u{feff}", "\r\n \t\r\n"] {
        assert_eq!(bytes_of(text), Day::default().bytes(), "{text:?}");
    }
}

#[test]
fn line_ends_spaces_and_comments() {
    let wanted = case().bytes();
    assert_eq!(bytes_of(CASE), wanted);
    assert_eq!(bytes_of(CASE.trim_end()), wanted);
    assert_eq!(bytes_of(&CASE.replace('\n', "\r\n")), wanted);
    assert_eq!(bytes_of(&format!("\u{feff}{}", CASE.replace('\n', "\r\n"))), wanted);
    assert_eq!(bytes_of(CASE.replace('\n', "\r\n").strip_suffix('\n').unwrap()), wanted);
    assert_eq!(bytes_of(&CASE.replace(' ', "\t  ").replace('\n', " # and so on # ü\n\n")), wanted);
    assert_eq!(bytes_of(&CASE.replace('\n', "# and so on\n")), wanted);
    assert_eq!(bytes_of(&CASE.replace(' ', "\u{a0}")), wanted);
}

#[test]
fn kinds_may_stand_in_any_order() {
    let mut lines: Vec<&str> = CASE.lines().collect();
    lines.rotate_left(3);
    assert_eq!(bytes_of(&lines.join("\n")), case().bytes());
}

#[test]
fn prices_as_quoted_and_in_units() {
    for (written, units) in
        [("0.0", 0), ("0u", 0), ("95.5", 955_000), ("95.0001", 950_001), ("100.00", 1_000_000), ("1u", 1)]
    {
        assert_eq!(bytes_of(&format!("correction 7 @0 {written}"))[32..], u32::to_le_bytes(units), "{written}");
    }
    assert_eq!(bytes_of("correction 7 @0 429496.7295")[32..], [0xff; 4]);
    assert_eq!(bytes_of("correction 7 @0 4294967295u")[32..], [0xff; 4]);
}

#[test]
fn numbers_at_the_ends_of_their_fields() {
    let text = "mark 0xFF00 255 0 0.0 0.0\ncorrection 4294967295 @0 0.0\nposition 4294967295 @0 -2147483648\nposition 0 @0 2147483647";
    let file = bytes_of(text);
    assert_eq!(file[24..28], [0xff, 0, 0xff, 0]);
    assert_eq!(file[36..40], [0xff; 4]);
    assert_eq!(file[48..60], [0xff, 0xff, 0xff, 0xff, 0, 0, 0, 0, 0, 0, 0, 0x80]);
    assert_eq!(file[60..], [0, 0, 0, 0, 0, 0, 0, 0, 0xff, 0xff, 0xff, 0x7f]);
}

#[test]
fn headers_as_they_are_written() {
    let usual = case().bytes();
    assert_eq!(bytes_of(&format!("header _ _ _ _ _ _\n{CASE}")), usual);
    assert_eq!(bytes_of(&format!("{CASE}header 1 24 2 36 2 60")), usual);
    assert_eq!(bytes_of(&format!("{CASE}header none")), usual[24..]);
    let file = bytes_of(&format!("header _ _ 513 _ _ 4294967295\n{CASE}"));
    assert_eq!(file[..24], [1, 0, 0, 0, 24, 0, 0, 0, 1, 2, 0, 0, 36, 0, 0, 0, 2, 0, 0, 0, 255, 255, 255, 255]);
    assert_eq!(file[24..], usual[24..]);
}

#[test]
fn further_bytes_stand_at_the_end() {
    let file = bytes_of(&format!("bytes 00 ff\n{CASE}bytes 0aA0 7f # three"));
    assert_eq!(file, [&case().bytes()[..], &[0x00, 0xff, 0x0a, 0xa0, 0x7f]].concat());
}

#[test]
fn the_day_is_not_judged() {
    for text in ["mark ZZ 13 100 200.0001 0.0001", "correction 1 @9 0.0\ncorrection 1 @8 0.0", "position 1 @7 0"] {
        assert!(made(text.as_bytes()).is_ok());
    }
    let count = MAX_MARKS + 1;
    let marks = "mark IR 3 18 95.00 95.02\n".repeat(count);
    let told = format!("# layout: {count} marks are above the limit of {MAX_MARKS}\n");
    assert!(shown(&bytes_of(&marks)).contains(&told));
}
