//! Settles a million small files with many clashes, and compares number, index, totals, resent count, amounts and the places after
//! them with the independent build's pair loops.
//!
//!   cargo run --release --example clashes

use citronreef::records::{Day, Position};
use citronreef::settle;
use oracles::days::{damage_record, day_of};
use oracles::plain;
use oracles::random::Random;

const FILES: usize = 1_000_000;
const PLACES: usize = 12;
const UNTOUCHED: i64 = i64::MIN + 5;

/// Few numbers for many corrections, and now and then a mark or a position like another one.
fn crowded(random: &mut Random) -> Day {
    let counts = [1 + random.below(6), random.below(14), random.below(10)];
    let mut day = day_of(random, counts[0], counts[1], counts[2]);
    for index in 0..day.corrections.len() {
        let other = day.corrections[random.below(day.corrections.len())];
        match random.below(12) {
            0 => day.corrections[index].number = other.number,
            1..=5 => day.corrections[index] = other,
            _ => {}
        }
    }
    if random.one_in(8) {
        let (from, to) = (random.below(day.marks.len()), random.below(day.marks.len()));
        day.marks[to] = day.marks[from];
    }
    if random.one_in(4) && !day.positions.is_empty() {
        let (from, to) = (random.below(day.positions.len()), random.below(day.positions.len()));
        day.positions[to] = Position { lots: day.positions[to].lots, ..day.positions[from] };
    }
    if random.one_in(4) {
        damage_record(random, &mut day);
    }
    day
}

fn main() {
    let mut random = Random::new(41_421_356_237);
    let mut met = [0usize; 17];
    for _ in 0..FILES {
        let day = crowded(&mut random);
        let file = day.bytes();
        let (mut ours, mut theirs) = ([UNTOUCHED; PLACES], [UNTOUCHED; PLACES]);
        let answer = settle(&file, &mut ours);
        assert_eq!(answer, plain::settle(&file, &mut theirs), "file {file:?}");
        assert_eq!(ours, theirs, "file {file:?}");
        met[answer.map_or_else(|refusal| refusal.number as usize, |_| 0)] += 1;
    }
    let numbers = [0, 8, 11, 16];
    let [accepted, contracts, corrections, positions] = numbers.map(|number| met[number]);
    assert!(numbers.iter().all(|&number| met[number] > 0), "no file was accepted, or none met check 8, 11 or 16: {met:?}");
    println!(
        "{FILES} files agree; accepted {accepted}, refused by check 8 {contracts}, by 11 {corrections}, by 16 {positions}"
    );
}
