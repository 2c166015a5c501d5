//! Where a refusal of a text's file stands in the text.

mod process;

use citronreef::records::MAX_MARKS;
use process::run;

fn has_lines(text: &str, lines: &[&str]) {
    for line in lines {
        assert!(text.lines().any(|told| told == *line), "no line `{line}` in\n{text}");
    }
}

/// What `explain --text` and `make` say of a text, in these lines.
fn told(text: &str, lines: &[&str]) {
    let explained = run(&["explain", "--text"], text.as_bytes());
    assert_eq!(explained.status, 1);
    has_lines(&explained.out, lines);
    let made = run(&["make"], text.as_bytes());
    assert_eq!((made.status, made.out.as_str()), (1, ""));
    has_lines(&made.err, lines);
    has_lines(&made.err, &["citronreef: nothing is written; --anyway writes the file all the same"]);
}

#[test]
fn a_text_is_told_by_its_lines() {
    let text = include_str!("../../../samples/day.txt").replace("1002 BB/3/27 -120", "1002 BB/3/27 0");
    let line = 1 + text.lines().position(|line| line.starts_with("position 1002 BB")).expect("the position");
    let head = format!("  position 2 (the 3rd of 7), line {line} of the text, 12 bytes from byte 168 of the file");
    told(&text, &["refused 13 at 2: a position's lots are 0, below -1,000,000 or above 1,000,000", &head]);
    let forgotten = run(&["explain"], text.as_bytes());
    assert_eq!(forgotten.status, 1);
    has_lines(&forgotten.out, &["This looks like a readable text: try --text."]);
}

/// One line names the mark by its contract, the other by its index.
#[test]
fn an_account_that_is_keyed_twice() {
    let text = "mark IR 3 27 95.00 95.01\nposition 1001 IR/3/27 250\nposition 1002 @0 250\n# again\nposition 1001 @0 250\n";
    told(
        text,
        &[
            "refused 16 at 2: two positions agree in account and mark",
            "  position 0 (the 1st of 3), line 2 of the text, 12 bytes from byte 36 of the file",
            "  position 2 (the 3rd of 3), line 5 of the text, 12 bytes from byte 60 of the file",
            "    account         1001          <-- the same in both",
            "    mark            0, IR Mar 27  <-- the same in both",
        ],
    );
}

/// The header counts other records than the text has: the second mark is cut as a correction, and the correction as a position.
#[test]
fn a_header_that_counts_otherwise() {
    let marks = "mark IR 3 27 95.00 95.01\nmark BB 3 27 95.00 95.02\n";
    let text = format!("header 1 24 1 36 2 48\n{marks}correction 7 @0 95.00\nposition 1 @0 0\n");
    told(
        &text,
        &[
            "refused 9 at 0: a correction names no mark",
            "  correction 0 (the 1st of 1), line 3 of the text, 12 bytes from byte 36 of the file",
            "  13 at 1: a position's lots are 0, below -1,000,000 or above 1,000,000 (position 1, account 1; line 5 of the text, byte 60 of the file)",
        ],
    );
}

/// The position is cut as a mark, and the further bytes as a position.
#[test]
fn a_record_among_further_bytes() {
    let text = "header 2 24 0 48 1 48\nmark IR 3 27 95.00 95.01\nbytes 01 00 00 00 00 00\nbytes 00 00 00 00 00 00\nposition 1 @0 5\n";
    told(
        text,
        &[
            "refused 4 at 1: a mark's code is not in the product table",
            "  mark 1 (the 2nd of 2), line 5 of the text, 12 bytes from byte 36 of the file",
            "  13 at 0: a position's lots are 0, below -1,000,000 or above 1,000,000 (position 0, account 1; line 3 of the text, byte 48 of the file)",
        ],
    );
    let one = "header 2 24 0 48 1 48\nmark IR 3 27 95.00 95.01\nbytes 000000000000000000000000\nposition 1 @0 5\n";
    told(one, &["  mark 1 (the 2nd of 2), line 4 of the text, 12 bytes from byte 36 of the file"]);
}

#[test]
fn a_header_line_is_told() {
    let line = "  The header is line 2 of the text.";
    let above = format!("{} 24 0 24 0 24", MAX_MARKS + 1);
    for numbers in [above.as_str(), "0 25 0 24 0 24", "0 24 0 24 1 24", "none"] {
        told(&format!("# a day\nheader {numbers}\n"), &[line]);
    }
    let ran = run(&["explain", "--text"], b"bytes 00\n");
    assert!(ran.out.starts_with("refused 3 at 0") && !ran.out.contains("The header is line"), "{}", ran.out);
}
