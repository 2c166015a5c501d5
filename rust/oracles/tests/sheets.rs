//! The sheet of random day files, valid and damaged, against the independent build's text.

use citronreef::records::{MAX_CORRECTIONS, MAX_MARKS, MAX_POSITIONS};
use citronreef::{write_sheet, SHEET_SIZE};
use oracles::days::{damage_bytes, damage_record, day, day_of};
use oracles::random::Random;
use oracles::sheet::sheet;

const UNTOUCHED: u8 = 0xEE;
const GUARDS: usize = 8;
const GUARD: i64 = i64::MIN + 77;

/// The library's sheet, and the amounts. What stands around both slices, and after the sheet, must stay as it was.
fn written(file: &[u8], places: usize) -> (Vec<u8>, Vec<i64>) {
    let mut out = vec![UNTOUCHED; SHEET_SIZE + 2 * GUARDS];
    let mut amounts = vec![GUARD; places + 2 * GUARDS];
    let length = write_sheet(file, &mut amounts[GUARDS..GUARDS + places], &mut out[GUARDS..GUARDS + SHEET_SIZE]);
    assert!(out[..GUARDS].iter().chain(&out[GUARDS + length..]).all(|&byte| byte == UNTOUCHED), "a byte beside the sheet");
    assert!(amounts[..GUARDS].iter().chain(&amounts[GUARDS + places..]).all(|&amount| amount == GUARD), "an amount outside");
    (out[GUARDS..GUARDS + length].to_vec(), amounts[GUARDS..GUARDS + places].to_vec())
}

/// Both builds write the same sheet, and leave the same amounts.
fn agree(file: &[u8], places: usize) {
    let (text, amounts) = written(file, places);
    let mut theirs = vec![GUARD; places];
    assert_eq!(String::from_utf8_lossy(&text), sheet(file, &mut theirs), "file {file:?}");
    assert_eq!(amounts, theirs);
}

#[test]
fn valid_and_damaged_files() {
    let mut random = Random::new(1_597_334_677);
    for _ in 0..20_000 {
        let mut day = day(&mut random);
        let places = day.positions.len();
        (0..random.below(3)).for_each(|_| damage_record(&mut random, &mut day));
        let mut file = day.bytes();
        if random.one_in(8) {
            damage_bytes(&mut random, &mut file);
        }
        agree(&file, places);
    }
}

#[test]
fn full_size_files() {
    let mut random = Random::new(3_812_015_801);
    for _ in 0..20 {
        let day = day_of(&mut random, MAX_MARKS, MAX_CORRECTIONS, MAX_POSITIONS);
        agree(&day.bytes(), MAX_POSITIONS);
    }
}

#[test]
fn too_little_room_writes_nothing() {
    let mut random = Random::new(2_654_435_769);
    let file = day_of(&mut random, 3, 4, 5).bytes();
    for room in [0, 1, 100, SHEET_SIZE - 1] {
        let (mut amounts, mut out) = ([-5; 5], vec![UNTOUCHED; room]);
        assert_eq!(write_sheet(&file, &mut amounts, &mut out), 0);
        assert_eq!(amounts, [-5; 5]);
        assert!(out.iter().all(|&byte| byte == UNTOUCHED));
    }
    let mut out = vec![UNTOUCHED; SHEET_SIZE];
    assert!(write_sheet(&file, &mut [0; 5], &mut out) > 0);
}
