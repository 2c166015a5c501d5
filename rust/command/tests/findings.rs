//! What else is wrong with a refused file, against an independent search for each check by itself.

mod conditions;
mod days;
mod process;
mod table;

use citronreef::records::MAX_POSITIONS;
use citronreef::settle;
use days::{damaged, sample};
use oracles::random::Random;
use process::run;

/// The number and the index of each further check that an explanation tells, whose words have to be the table's.
fn told(explanation: &str, words: &[String]) -> Vec<(u32, usize)> {
    let lines = explanation.lines().skip_while(|line| !line.starts_with("Other conditions that hold")).skip(1);
    let numbers = lines.map(|line| {
        let (numbers, says) = line.split_once(": ").expect("numbers and words");
        let (number, index) = numbers.trim_start().split_once(" at ").expect("two numbers");
        let number: u32 = number.parse().expect("a number");
        assert!(says.starts_with(&words[number as usize - 1]), "{line}");
        (number, index.parse().expect("an index"))
    });
    numbers.collect()
}

#[test]
fn every_further_check_is_told_with_its_first_record() {
    let words = table::words();
    let mut random = Random::new(6_364_136_223);
    let mut met = [0; 17];
    for _ in 0..3_000 {
        let file = damaged(&mut random);
        if let Err(refusal) = settle(&file, &mut [0; MAX_POSITIONS]) {
            let found = (1..=13).chain([16]).filter_map(|number| Some((number, conditions::first(&file, number)?)));
            let found: Vec<(u32, usize)> = found.collect();
            assert_eq!(found[0], (refusal.number, refusal.index));
            let others = told(&run(&["explain"], &file).out, &words);
            assert_eq!(others, found[1..]);
            others.iter().for_each(|&(number, _)| met[number as usize] += 1);
        }
    }
    assert!((3..=13).chain([16]).all(|number| met[number] > 2), "found after another, 3 to 13 and 16: {met:?}");
}

#[test]
fn three_mistakes_in_one_day() {
    let mut day = sample();
    day.marks[0].today = 957_150;
    day.corrections[2].mark = 9;
    day.positions[4].lots = 0;
    let ran = run(&["explain"], &day.bytes());
    assert_eq!(ran.status, 1);
    let expected = "
Other conditions that hold, each with its first record. One may vanish when the first is mended.
   9 at 2: a correction names no mark (correction 2, number 15; byte 120 of the file)
  13 at 4: a position's lots are 0, below -1,000,000 or above 1,000,000 (position 4, account 1003; byte 192 of the file)
";
    assert!(ran.out.starts_with("refused 7 at 0: ") && ran.out.ends_with(expected), "{}", ran.out);
}

/// Both records of a clash are named, although another check refuses the file.
#[test]
fn clashes_name_both_records() {
    let text = "mark IR 3 27 95.005 95.01\nmark BB 3 27 95.00 95.02\n# the same again\nmark BB 3 27 95.00 95.03\n\
                correction 15 @1 95.00\ncorrection 15 @1 95.01\nposition 7 @0 5\nposition 7 @0 -2\n";
    let ran = run(&["explain", "--text"], text.as_bytes());
    assert_eq!(ran.status, 1);
    let expected = "
   8 at 2: two marks agree in code, month and year (mark 2, BB Mar 27, as mark 1; line 4 of the text, byte 48 of the file)
  11 at 1: two corrections agree in number but differ in mark or price (correction 1, number 15, as correction 0; line 6 of the text, byte 72 of the file)
  16 at 1: two positions agree in account and mark (position 1, account 7, as position 0; line 8 of the text, byte 96 of the file)
";
    assert!(ran.out.starts_with("refused 7 at 0: ") && ran.out.ends_with(expected), "{}", ran.out);
}
