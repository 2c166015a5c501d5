//! The making of day files from random lists, valid and damaged, against the independent builds; and the way back from each file that
//! is made, and from each that is accepted.

mod lent;
mod makers;

use citronreef::records::*;
use citronreef::{Refusal, Settled, FILE_SIZE};
use makers::{agreed, assert_made_of_its_lists, length_of, made_into, sections, settled, Lists};
use oracles::days::{damage_bytes, damage_record, day, day_of};
use oracles::random::Random;
use std::fs;
use std::path::Path;

/// As many bytes as the file has, or a few less or more, or any number of them, and once in a while many more.
fn room(random: &mut Random, length: usize) -> usize {
    match random.below(400) {
        0 => length + random.below(100_000),
        1..=50 => random.below(length + 1),
        51..=100 => length.saturating_sub(1 + random.below(3)),
        101..=150 => length + 1 + random.below(40),
        151..=200 => random.pick(&[0, 1, 23, 24, 25]),
        _ => length,
    }
}

/// The lists are refused so, whatever the room.
fn assert_refused(lists: &Lists, refusal: Refusal) {
    for room in [0, 24, length_of(lists), 65_536] {
        assert_eq!(agreed(lists, room), Err(refusal));
    }
}

/// Bytes are cut off a list or added to it.
fn damage_length(random: &mut Random, list: &mut Vec<u8>) {
    match random.below(2) {
        0 => list.truncate(random.below(list.len() + 1)),
        _ => list.resize(list.len() + 1 + random.below(3 * RECORD_SIZE), 0),
    }
}

/// The lists of a day with damaged records, then with damaged lengths.
fn damaged(random: &mut Random) -> Lists {
    let mut day = day(random);
    (0..random.below(4)).for_each(|_| damage_record(random, &mut day));
    let mut lists = day.lists();
    if random.one_in(4) {
        let list = random.below(3);
        damage_length(random, &mut lists[list]);
    }
    if random.one_in(100) {
        let list = &mut lists[random.below(3)];
        list.resize(RECORD_SIZE * random.pick(&[257, 513, 4_097]) + random.below(RECORD_SIZE), 1);
    }
    lists
}

#[test]
fn case_of_document_01() {
    let marks = b"IR\x03\x12\xF0\x7E\x0E\0\xB8\x7F\x0E\0".to_vec();
    let corrections = b"\x07\0\0\0\0\0\0\0\x54\x7F\x0E\0".repeat(2);
    let positions = b"\x0B\0\0\0\0\0\0\0\x0A\0\0\0\x0C\0\0\0\0\0\0\0\xFC\xFF\xFF\xFF".to_vec();
    let header = b"\x01\0\0\0\x18\0\0\0\x02\0\0\0\x24\0\0\0\x02\0\0\0\x3C\0\0\0";
    let file = [&header[..], &marks, &corrections, &positions].concat();
    assert_eq!(agreed(&[marks, corrections, positions], 84), Ok(file));
}

#[test]
fn lists_of_nothing() {
    let header = b"\0\0\0\0\x18\0\0\0\0\0\0\0\x18\0\0\0\0\0\0\0\x18\0\0\0";
    assert_eq!(agreed(&Lists::default(), 24), Ok(header.to_vec()));
    assert_eq!(agreed(&Lists::default(), 23), Err(Refusal::of(17)));
    assert_eq!(agreed(&Lists::default(), 0), Err(Refusal::of(17)));
}

#[test]
fn valid_lists() {
    let mut random = Random::new(1_013_904_223);
    for _ in 0..5_000 {
        let day = day(&mut random);
        let length = length_of(&day.lists());
        let room = room(&mut random, length);
        let expected = if room < length { Err(Refusal::of(17)) } else { Ok(day.bytes()) };
        assert_eq!(agreed(&day.lists(), room), expected);
    }
}

#[test]
fn damaged_lists_meet_every_check() {
    let mut random = Random::new(2_862_933_555);
    let mut met = [0; 18];
    for _ in 0..100_000 {
        let lists = damaged(&mut random);
        let room = room(&mut random, length_of(&lists));
        match agreed(&lists, room) {
            Ok(_) => met[0] += 1,
            Err(refusal) => met[refusal.number as usize] += 1,
        }
    }
    let enough = [0, 16, 17].into_iter().chain(2..=13).all(|number| met[number] > 50);
    assert!(enough, "accepted, and refused by checks 2 to 13, 16 and 17: {met:?}");
    assert_eq!([1, 14, 15].map(|number| met[number]), [0; 3]);
}

/// Damaged files that are accepted all the same, and others: each accepted one is made of its lists, and each that is refused by a check
/// of its records is refused alike by the maker, whatever the room.
#[test]
fn files_that_were_made_otherwise() {
    let mut random = Random::new(3_935_559_000);
    let (mut accepted, mut refused) = (0, 0);
    for _ in 0..50_000 {
        let mut day = day(&mut random);
        (0..random.below(3)).for_each(|_| damage_record(&mut random, &mut day));
        let mut file = day.bytes();
        if random.one_in(4) {
            damage_bytes(&mut random, &mut file);
        }
        match settled(&file) {
            Ok(_) => {
                assert_made_of_its_lists(&file);
                accepted += 1;
            }
            Err(refusal) if refusal.number > 3 => {
                let room = room(&mut random, file.len());
                assert_eq!(made_into(citronreef::make, sections(&file), room), Err(refusal));
                refused += 1;
            }
            Err(_) => {}
        }
    }
    assert!(accepted > 10_000 && refused > 10_000, "accepted {accepted}, refused {refused}");
}

#[test]
fn stored_files() {
    let folder = Path::new(env!("CARGO_MANIFEST_DIR")).join("../../crates/cases/data");
    let mut accepted = 0;
    for entry in fs::read_dir(folder).expect("the stored day files") {
        let file = fs::read(entry.expect("a day file").path()).expect("a day file");
        if settled(&file).is_ok() {
            assert_made_of_its_lists(&file);
            accepted += 1;
        }
    }
    assert!(accepted > 30, "accepted {accepted}");
}

/// Copies of corrections, put anywhere, are taken, and the file settles as without them but for the resent count.
#[test]
fn corrections_sent_again() {
    let mut random = Random::new(741_103_597);
    let mut compared = 0;
    while compared < 2_000 {
        let first = day(&mut random);
        if first.corrections.is_empty() {
            continue;
        }
        let mut again = first.clone();
        let copies = random.below((MAX_CORRECTIONS - first.corrections.len()).min(12) + 1);
        for _ in 0..copies {
            again.corrections.insert(random.below(again.corrections.len() + 1), random.pick(&first.corrections));
        }
        let [file, longer] =
            [first, again].map(|day| agreed(&day.lists(), length_of(&day.lists())).expect("every check passes"));
        let (answer, amounts) = settled(&file).expect("every check passes");
        assert_eq!(settled(&longer), Ok((Settled { resent: answer.resent + copies, ..answer }, amounts)));
        compared += 1;
    }
}

#[test]
fn every_room() {
    let lists = day_of(&mut Random::new(1_181_783_497), 3, 4, 5).lists();
    let length = length_of(&lists);
    assert_eq!(length, 24 + 12 * 12);
    for room in (0..length + 40).chain([1_000, 65_536, 1 << 20]) {
        let expected = if room < length { Err(Refusal::of(17)) } else { Ok(length) };
        assert_eq!(agreed(&lists, room).map(|file| file.len()), expected);
    }
}

#[test]
fn every_length_of_a_list() {
    let whole = day_of(&mut Random::new(2_147_001_325), 3, 4, 5).lists();
    for list in 0..3 {
        for length in 0..whole[list].len() + 3 * RECORD_SIZE {
            let mut lists = whole.clone();
            lists[list].resize(length, 7);
            let answer = agreed(&lists, 1_000);
            assert_eq!(answer == Err(Refusal::of(3)), length % RECORD_SIZE != 0, "{length} bytes of list {list}");
        }
    }
}

#[test]
fn every_flipped_bit() {
    let whole = day_of(&mut Random::new(715_225_739), 6, 7, 8).lists();
    for list in 0..3 {
        for bit in 0..8 * whole[list].len() {
            let mut lists = whole.clone();
            lists[list][bit / 8] ^= 1 << (bit % 8);
            let _ = agreed(&lists, length_of(&lists));
        }
    }
}

#[test]
fn any_bytes() {
    let mut random = Random::new(9_876_543_211);
    for _ in 0..20_000 {
        let lists: Lists = std::array::from_fn(|_| {
            let part = random.pick(&[1, RECORD_SIZE]);
            (0..random.below(60) / part * part).map(|_| random.number() as u8 & random.number() as u8).collect()
        });
        let _ = agreed(&lists, random.below(200));
    }
}

/// A count is a list's length over that of a record, rounded down, and is looked at before any list is asked for whole records.
#[test]
fn counts_at_the_limits_and_above() {
    let full = day_of(&mut Random::new(77_777), MAX_MARKS, MAX_CORRECTIONS, MAX_POSITIONS).lists();
    let length = length_of(&full);
    assert_eq!(length, FILE_SIZE);
    assert!(agreed(&full, length).is_ok());
    assert_eq!(agreed(&full, length - 1), Err(Refusal::of(17)));
    for list in 0..3 {
        for more in 1..=2 * RECORD_SIZE {
            let refusal = Refusal::of(if more < RECORD_SIZE { 3 } else { 2 });
            let mut lists = full.clone();
            lists[list].resize(full[list].len() + more, 0);
            assert_refused(&lists, refusal);
            lists[(list + 1) % 3].pop();
            assert_refused(&lists, refusal);
            lists[list].clear();
            assert_refused(&lists, Refusal::of(3));
        }
    }
}

/// 3 comes before the records are looked at, and 17 after.
#[test]
fn places_of_3_and_17_among_the_checks() {
    let mut day = day_of(&mut Random::new(69_069), 2, 0, 2);
    day.marks[1].code = *b"ZZ";
    let mut lists = day.lists();
    assert_refused(&lists, Refusal { number: 4, index: 1 });
    lists[2].pop();
    assert_refused(&lists, Refusal::of(3));
    let mut day = day_of(&mut Random::new(69_069), 1, 0, 2);
    day.positions[1] = Position { lots: 5, ..day.positions[0] };
    assert_refused(&day.lists(), Refusal { number: 16, index: 1 });
    day.positions.pop();
    assert_eq!(agreed(&day.lists(), 47), Err(Refusal::of(17)));
}

#[test]
fn lists_of_many_megabytes() {
    let long = vec![1; 40 << 20];
    for list in 0..3 {
        for length in [40 << 20, (40 << 20) / RECORD_SIZE * RECORD_SIZE] {
            let mut lists: [&[u8]; 3] = [&[], &[], &[]];
            lists[list] = &long[..length];
            for room in [0, 100, FILE_SIZE] {
                assert_eq!(made_into(citronreef::make, lists, room), Err(Refusal::of(2)));
            }
        }
    }
    assert_eq!(made_into(citronreef::make, [&long, &long, &long], 0), Err(Refusal::of(2)));
}
