//! What is shown of any bytes makes the same bytes, and a fault of the layout is told of exactly those that checks 1 to 3 refuse.

use super::{bytes_of, case, shown};
use citronreef::records::{Day, HEADER_SIZE, MAX_CORRECTIONS, MAX_MARKS, MAX_POSITIONS};
use citronreef::settle;
use oracles::days::{damage_bytes, damage_record, day, day_of};
use oracles::random::Random;

/// Checks one file, and answers whether a fault of its layout is told.
fn comes_back(file: &[u8]) -> bool {
    let text = shown(file);
    assert!(bytes_of(&text) == file, "the text of {file:?} is\n{text}");
    let told = text.lines().any(|line| line.starts_with("# layout: "));
    let refused = settle(file, &mut vec![0; MAX_POSITIONS]).map_or_else(|refusal| refusal.number <= 3, |_| false);
    assert_eq!(told, refused, "{text}");
    told
}

/// Gives some marks the same contract, or a code that is not two capital letters.
fn damage_names(random: &mut Random, day: &mut Day) {
    for at in 0..day.marks.len() {
        let other = day.marks[random.below(day.marks.len())];
        match random.below(8) {
            0 => day.marks[at] = other,
            1 => day.marks[at].code = random.pick(&[*b"ir", *b"# ", *b"\r\n", *b"//", *b"0x", *b"@1", [0, 0], [0xc3, 0xa9]]),
            2 => day.marks[at].code = (random.number() as u16).to_le_bytes(),
            3 => (day.marks[at].month, day.marks[at].year) = (random.number() as u8, random.number() as u8),
            _ => {}
        }
    }
}

#[test]
fn a_hundred_thousand_damaged_files() {
    let mut random = Random::new(2_463_534_242);
    let (mut told, mut passed) = (0, 0);
    for _ in 0..100_000 {
        let mut day = day(&mut random);
        (0..random.below(4)).for_each(|_| damage_record(&mut random, &mut day));
        if random.one_in(3) {
            damage_names(&mut random, &mut day);
        }
        let mut file = day.bytes();
        (0..random.below(3)).for_each(|_| damage_bytes(&mut random, &mut file));
        match comes_back(&file) {
            true => told += 1,
            false => passed += 1,
        }
    }
    assert!(told > 10_000 && passed > 10_000, "{told} with a fault of the layout, {passed} without");
}

#[test]
fn any_bytes() {
    let mut random = Random::new(9_192_631_770);
    for _ in 0..20_000 {
        let length = random.below(200);
        let mut file: Vec<u8> = (0..length).map(|_| random.number() as u8).collect();
        comes_back(&file);
        for at in (0..length.min(HEADER_SIZE)).filter(|at| at % 4 != 0) {
            file[at] = 0;
        }
        comes_back(&file);
    }
    assert!(comes_back(b""));
}

#[test]
fn every_part_and_every_flipped_bit() {
    let mut random = Random::new(5_783_321);
    for file in [case().bytes(), day_of(&mut random, 3, 4, 5).bytes()] {
        assert!(!comes_back(&file));
        for length in 0..file.len() {
            assert!(comes_back(&file[..length]));
        }
        for more in 1..30 {
            assert!(comes_back(&[&file[..], &vec![b'#'; more]].concat()));
        }
        for bit in 0..8 * file.len() {
            let mut flipped = file.clone();
            flipped[bit / 8] ^= 1 << (bit % 8);
            assert_eq!(comes_back(&flipped), bit < 8 * HEADER_SIZE);
        }
    }
}

/// A file with these header numbers, and these bytes after them.
fn with_header(numbers: [u32; 6], rest: &[u8]) -> Vec<u8> {
    let mut file: Vec<u8> = numbers.iter().flat_map(|number| number.to_le_bytes()).collect();
    file.extend(rest);
    file
}

#[test]
fn headers_that_break_the_layout() {
    let whole = case().bytes();
    let rest = &whole[HEADER_SIZE..];
    let most = u32::MAX;
    let refused = [
        vec![0xff; 23],
        with_header([most, 24, most, 12, most, 0], &[]),
        with_header([most, most, most, most, most, most], rest),
        with_header([357_913_942, 24, 0, 32, 0, 32], &[0; 8]),
        with_header([1, 25, 2, 36, 2, 60], rest),
        with_header([1, 24, 2, 24, 2, 60], rest),
        with_header([1, 24, 2, 36, 2, most], rest),
        with_header([1, 24, 2, 36, 1, 60], rest),
        with_header([1, 24, 2, 36, 3, 60], rest),
        with_header([1, 0, MAX_CORRECTIONS as u32 + 1, 36, 2, 60], rest),
        with_header([0, 24, 0, 24, 0, 24], rest),
        with_header([1, 24, 2, 36, 2, 72], &[rest, &[0; 12]].concat()),
    ];
    assert!(refused.iter().all(|file| comes_back(file)));
    assert!(!comes_back(&with_header([0, 24, 0, 24, 0, 24], &[])));
    let limit = MAX_POSITIONS as u32;
    let numbers = (0..600).chain([limit - 1, limit, limit + 1, 65_536]).chain((0..32).flat_map(|k| [1 << k, u32::MAX >> k]));
    for number in numbers {
        for at in (0..HEADER_SIZE).step_by(4) {
            let mut file = whole.clone();
            file[at..at + 4].copy_from_slice(&number.to_le_bytes());
            comes_back(&file);
            comes_back(&file[..HEADER_SIZE]);
        }
    }
}

#[test]
fn counts_at_the_limits_and_above() {
    let mut random = Random::new(77_777);
    assert!(!comes_back(&day_of(&mut random, MAX_MARKS, MAX_CORRECTIONS, MAX_POSITIONS).bytes()));
    for (marks, corrections, positions) in [(MAX_MARKS + 1, 1, 1), (1, MAX_CORRECTIONS + 1, 1), (1, 1, MAX_POSITIONS + 1)] {
        assert!(comes_back(&day_of(&mut random, marks, corrections, positions).bytes()));
    }
}
