//! Days for the tests: one with every product, random ones, and damaged ones.
#![allow(dead_code)]

use citronreef::records::{Correction, Day, Mark, Position};
use oracles::days::{damage_bytes, damage_record, day};
use oracles::random::Random;
use std::collections::HashSet;

fn mark(code: &[u8; 2], month: u8, previous: u32, today: u32) -> Mark {
    Mark { code: *code, month, year: 27, previous, today }
}

/// The day of samples/day.txt.
pub fn sample() -> Day {
    let correction = |number, mark, price| Correction { number, mark, price };
    let position = |account, mark, lots| Position { account, mark, lots };
    Day {
        marks: vec![
            mark(b"IR", 3, 956_800, 957_100),
            mark(b"BB", 3, 954_200, 954_000),
            mark(b"IB", 2, 957_750, 957_800),
            mark(b"YT", 3, 956_100, 956_450),
            mark(b"XT", 3, 952_900, 953_350),
            mark(b"XX", 3, 949_050, 949_300),
        ],
        corrections: vec![
            correction(31, 4, 953_450),
            correction(12, 4, 953_200),
            correction(15, 1, 954_100),
            correction(31, 4, 953_450),
        ],
        positions: vec![
            position(1001, 0, 250),
            position(1001, 4, -40),
            position(1002, 1, -120),
            position(1002, 2, 75),
            position(1003, 3, 30),
            position(1003, 4, 15),
            position(1003, 5, -8),
        ],
    }
}

/// A random day that passes every check, in which accounts come more than once.
pub fn accepted(random: &mut Random) -> Day {
    let mut day = day(random);
    let accounts = 1 + random.below(6);
    for position in day.positions.iter_mut().filter(|position| position.account % 8 != 0) {
        position.account %= accounts as u32;
    }
    let mut seen = HashSet::new();
    day.positions.retain(|position| seen.insert((position.account, position.mark)));
    day
}

/// A random file with some damage, or none.
pub fn damaged(random: &mut Random) -> Vec<u8> {
    let mut day = day(random);
    (0..random.below(4)).for_each(|_| damage_record(random, &mut day));
    let mut file = day.bytes();
    if random.one_in(4) {
        damage_bytes(random, &mut file);
    }
    file
}
