//! Marks that are named by their contracts.

use super::super::{made, Lines};
use super::{bytes_of, shown, wrong_with};
use citronreef::records::{Day, Mark, Position, MAX_POSITIONS};

fn mark(code: &[u8; 2], month: u8, year: u8) -> Mark {
    Mark { code: *code, month, year, previous: 950_000, today: 950_200 }
}

fn day(marks: &[Mark], named: &[u32]) -> Day {
    let position = |&mark: &u32| Position { account: 1001, mark, lots: 250 };
    Day { marks: marks.to_vec(), corrections: Vec::new(), positions: named.iter().map(position).collect() }
}

#[test]
fn a_mark_may_stand_below_the_records_that_name_it() {
    let text = "position 1001 XT/3/27 250\nmark IR 3 27 95.0 95.02\nposition 1001 @0 250\nmark XT 3 27 95.0 95.02\n";
    assert_eq!(bytes_of(text), day(&[mark(b"IR", 3, 27), mark(b"XT", 3, 27)], &[1, 0]).bytes());
}

#[test]
fn a_mark_put_above_another_moves_no_position() {
    let below = "mark XT 3 27 95.0 95.02\nposition 1001 XT/3/27 250\n";
    let above = "mark IR 3 27 95.0 95.02\n";
    assert_eq!(bytes_of(below), day(&[mark(b"XT", 3, 27)], &[0]).bytes());
    assert_eq!(bytes_of(&format!("{above}{below}")), day(&[mark(b"IR", 3, 27), mark(b"XT", 3, 27)], &[1]).bytes());
}

#[test]
fn a_name_is_read_by_what_it_means() {
    let wanted = day(&[mark(b"IR", 3, 7)], &[0]).bytes();
    for name in ["IR/3/7", "IR/03/07", "0x4952/3/7", "0x4952/003/7", "@0", "@00"] {
        assert_eq!(bytes_of(&format!("mark IR 3 7 95.0 95.02\nposition 1001 {name} 250")), wanted, "{name}");
    }
}

#[test]
fn an_index_may_be_one_that_no_mark_has() {
    assert_eq!(bytes_of("position 1001 @0 250\nposition 1001 @4294967295 250"), day(&[], &[0, u32::MAX]).bytes());
}

#[test]
fn a_name_that_no_mark_has() {
    let text = "mark IR 3 27 95.0 95.02\n\nposition 1001 IR/3/27 250\ncorrection 7 IR/6/27 95.0\nposition 1 XT/3/27 1\n";
    assert_eq!(wrong_with(text), "line 4, field 3: no mark has the name IR/6/27; marks of this code are IR/3/27 (line 1)");
    assert_eq!(wrong_with("position 1 XT/3/27 1"), "line 1, field 3: no mark has the name XT/3/27");
    assert_eq!(wrong_with("position 1 0x2023/3/27 1"), "line 1, field 3: no mark has the name 0x2023/3/27");
}

#[test]
fn a_name_that_more_than_one_mark_has() {
    let marks = "mark IR 3 27 95.0 95.02\nmark XT 3 27 95.0 95.02\n# again\nmark IR 3 27 96.0 96.02\n";
    let said = "line 5, field 3: more than one mark has the name IR/3/27: write the index of one, @0 (line 1), @2 (line 4)";
    assert_eq!(wrong_with(format!("{marks}position 1001 IR/3/27 250")), said);
    assert_eq!(bytes_of(&format!("{marks}position 1001 XT/3/27 250"))[24 + 36 + 4], 1);
    let many = "mark IR 3 27 95.0 95.02\n".repeat(100_000) + "correction 1 IR/3/27 95.0";
    assert!(wrong_with(many).ends_with("@0 (line 1), @1 (line 2), @2 (line 3), @3 (line 4), .."));
}

#[test]
fn a_mark_is_shown_by_its_name_where_no_other_has_it() {
    let marks = [mark(b"IR", 3, 27), mark(b"XT", 3, 27), mark(b"IR", 3, 27), mark(b"a#", 0, 255), mark(b"IR", 3, 28)];
    let text = shown(&day(&marks, &[0, 1, 2, 3, 4, 5, u32::MAX]).bytes());
    let named: Vec<&str> = text.lines().filter_map(|line| line.strip_prefix("position 1001 ")?.split(' ').next()).collect();
    assert_eq!(named, ["@0", "XT/3/27", "@2", "0x6123/0/255", "IR/3/28", "@5", "@4294967295"]);
}

#[test]
fn the_lines_of_the_records() {
    let text =
        "\u{feff}# head\r\nposition 1 IR/3/27 1\r\n\r\nmark XT 3 27 0.0 0.0\r\ncorrection 1 @0 0.0\r\nmark IR 3 27 0.0 0.0";
    let lines = Lines { marks: vec![4, 6], corrections: vec![5], positions: vec![2], ..Lines::default() };
    assert_eq!(made(text.as_bytes()).map(|made| made.lines), Ok(lines));
}

/// So many names would take minutes if each were looked for among all marks.
#[test]
fn names_are_looked_up_without_a_search() {
    let marks: String = (0..65_536).map(|k| format!("mark 0x{k:04x} 3 27 0.0 0.0\n")).collect();
    let positions: String = (0..65_536).map(|k| format!("position 1 0x{:04x}/3/27 1\n", 65_535 - k)).collect();
    let file = bytes_of(&(marks + &positions));
    assert!(file.len() > 12 * 16 * MAX_POSITIONS && bytes_of(&shown(&file)) == file);
}
