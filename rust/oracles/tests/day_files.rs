//! The settlement of random day files, valid and damaged, against the independent builds.

mod lent;

use citronreef::records::{Correction, Day, Mark, Position, MAX_CORRECTIONS, MAX_MARKS, MAX_POSITIONS};
use citronreef::{settle, write_sheet, Refusal, Settled, SHEET_SIZE};
use lent::{agreed, settled_into};
use oracles::days::{damage_bytes, damage_record, day, day_of};
use oracles::random::Random;
use oracles::sheet::sheet;

/// As many places as there are positions, or a few more, or too few.
fn places(random: &mut Random, positions: usize) -> usize {
    match random.below(6) {
        0 => positions.saturating_sub(1 + random.below(3)),
        1 => positions + random.below(20),
        _ => positions,
    }
}

/// The case of document 01.
fn day_of_document_01() -> Day {
    let correction = Correction { number: 7, mark: 0, price: 950_100 };
    Day {
        marks: vec![Mark { code: *b"IR", month: 3, year: 18, previous: 950_000, today: 950_200 }],
        corrections: vec![correction; 2],
        positions: vec![Position { account: 11, mark: 0, lots: 10 }, Position { account: 12, mark: 0, lots: -4 }],
    }
}

#[test]
fn case_of_document_01() {
    let (answer, amounts) = settled_into(settle, &day_of_document_01().bytes(), 2);
    assert_eq!(answer, Ok(Settled { positions: 2, aud: 14_436, nzd: 0, resent: 1 }));
    assert_eq!(amounts, [24_060, -9_624]);
}

#[test]
fn sheet_of_document_01() {
    let printed = "11 IR 3 18 24060 AUD\n12 IR 3 18 -9624 AUD\ntotal AUD 14436\ntotal NZD 0\nresent 1\n";
    let file = day_of_document_01().bytes();
    for (places, expected) in [(2, printed), (1, "refused 14 at 0\n")] {
        let mut out = vec![0; SHEET_SIZE];
        let length = write_sheet(&file, &mut vec![0; places], &mut out);
        assert_eq!(String::from_utf8_lossy(&out[..length]), expected);
        assert_eq!(sheet(&file, &mut vec![0; places]), expected);
    }
}

#[test]
fn valid_files() {
    let mut random = Random::new(362_436_069);
    for _ in 0..5_000 {
        let day = day(&mut random);
        let settled = agreed(&day.bytes(), day.positions.len()).expect("every check passes");
        assert_eq!(settled.positions, day.positions.len());
    }
}

#[test]
fn damaged_files_meet_every_check() {
    let mut random = Random::new(88_172_645_463_325_252);
    let mut met = [0; 17];
    for _ in 0..200_000 {
        let mut day = day(&mut random);
        (0..random.below(4)).for_each(|_| damage_record(&mut random, &mut day));
        let mut file = day.bytes();
        if random.one_in(4) {
            damage_bytes(&mut random, &mut file);
        }
        match agreed(&file, places(&mut random, day.positions.len())) {
            Ok(_) => met[0] += 1,
            Err(refusal) => met[refusal.number as usize] += 1,
        }
    }
    let enough = (0..=14).chain([16]).all(|number| met[number] > 50);
    assert!(enough, "accepted, and refused by checks 1 to 14 and 16: {met:?}");
}

#[test]
fn every_truncation() {
    let mut random = Random::new(521_288_629);
    let files = [day_of_document_01().bytes(), day_of(&mut random, 3, 4, 5).bytes()];
    for file in files {
        for length in 0..file.len() {
            let refusal = agreed(&file[..length], 8).expect_err("a part of a file");
            assert_eq!(refusal, Refusal::of(if length < 24 { 1 } else { 3 }));
        }
        for more in 1..30 {
            let longer = [&file[..], &vec![0; more]].concat();
            assert_eq!(agreed(&longer, 8), Err(Refusal::of(3)));
        }
    }
}

#[test]
fn every_flipped_bit() {
    let mut random = Random::new(5_783_321);
    for file in [day_of_document_01().bytes(), day_of(&mut random, 6, 7, 8).bytes()] {
        for bit in 0..8 * file.len() {
            let mut flipped = file.clone();
            flipped[bit / 8] ^= 1 << (bit % 8);
            let _ = agreed(&flipped, 8);
        }
    }
}

#[test]
fn header_numbers_of_every_size() {
    let mut random = Random::new(6_615_241);
    let file = day_of(&mut random, 3, 4, 5).bytes();
    let limit = MAX_POSITIONS as u32;
    let numbers = (0..600).chain([limit - 1, limit, limit + 1, 65_536]).chain((0..32).flat_map(|k| [1 << k, u32::MAX >> k]));
    for number in numbers {
        for at in (0..24).step_by(4) {
            let mut edited = file.clone();
            edited[at..at + 4].copy_from_slice(&number.to_le_bytes());
            let _ = agreed(&edited, 8);
            let _ = agreed(&edited[..24], 8);
        }
    }
}

#[test]
fn counts_at_the_limits_and_above() {
    let mut random = Random::new(77_777);
    let full = day_of(&mut random, MAX_MARKS, MAX_CORRECTIONS, MAX_POSITIONS);
    assert!(agreed(&full.bytes(), MAX_POSITIONS).is_ok());
    assert_eq!(agreed(&full.bytes(), MAX_POSITIONS - 1), Err(Refusal::of(14)));
    let counts = [(MAX_MARKS + 1, 1, 1), (1, MAX_CORRECTIONS + 1, 1), (1, 1, MAX_POSITIONS + 1)];
    for (marks, corrections, positions) in counts {
        let file = day_of(&mut random, marks, corrections, positions).bytes();
        assert_eq!(agreed(&file, MAX_POSITIONS + 1), Err(Refusal::of(2)));
    }
}

#[test]
fn any_bytes() {
    let mut random = Random::new(9_192_631_770);
    for _ in 0..20_000 {
        let length = random.below(120);
        let file: Vec<u8> = (0..length).map(|_| random.number() as u8 & random.number() as u8).collect();
        assert!(agreed(&file, random.below(4)).is_err());
    }
}
