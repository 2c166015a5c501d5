//! What `find` looks at, and how the two meanings of 4 and of 12 are told apart.

use citronreef::records::{Day, Mark, Position, MAX_MARKS};
use citronreef::{bracket, find, mark, settle, value, Refusal};

const MARK: Mark = Mark { code: *b"IR", month: 3, year: 27, previous: 950_000, today: 950_100 };
const GOOD: Position = Position { account: 1, mark: 0, lots: 1 };
const AGAIN: Position = Position { account: 1, mark: 0, lots: 5 };
const NO_LOTS: Position = Position { account: 2, mark: 0, lots: 0 };
const NO_MARK: Position = Position { account: 1, mark: 7, lots: 1 };

fn file(positions: &[Position]) -> Vec<u8> {
    Day { marks: vec![MARK], corrections: vec![], positions: positions.to_vec() }.bytes()
}

/// All that is found, by number and index.
fn found(file: &[u8]) -> Vec<(u32, usize)> {
    (0..40).chain([u32::MAX]).filter_map(|check| Some((check, find(file, check)?))).collect()
}

#[test]
fn shorter_than_its_header() {
    assert_eq!(found(&[]), [(1, 0)]);
    assert_eq!(found(&[0xFF; 23]), [(1, 0)]);
}

#[test]
fn count_above_its_limit() {
    let mut whole = file(&[NO_LOTS]);
    whole[..4].copy_from_slice(&(MAX_MARKS as u32 + 1).to_le_bytes());
    assert_eq!(found(&whole), [(2, 0), (3, 0)]);
}

#[test]
fn sections_by_the_counts() {
    for offset in [4, 12, 20] {
        let mut whole = file(&[GOOD, NO_LOTS]);
        whole[offset] ^= 0xFF;
        assert_eq!(found(&whole), [(3, 0), (13, 1)]);
    }
}

#[test]
fn whole_records_alone() {
    let whole = file(&[GOOD, NO_LOTS]);
    assert_eq!(found(&whole), [(13, 1)]);
    assert_eq!(found(&whole[..whole.len() - 1]), [(3, 0)]);
    assert_eq!(found(&[&whole[..], &[0; 12]].concat()), [(3, 0), (13, 1)]);
}

#[test]
fn positions_of_one_account_and_mark() {
    assert_eq!(found(&file(&[GOOD, AGAIN])), [(16, 1)]);
    assert_eq!(found(&file(&[GOOD, NO_LOTS, AGAIN, NO_LOTS])), [(13, 1), (16, 2)]);
    assert_eq!(found(&file(&[NO_MARK, GOOD, NO_MARK, AGAIN])), [(12, 0), (16, 2)]);
    let whole = file(&[GOOD, AGAIN]);
    assert_eq!(found(&whole[..whole.len() - 1]), [(3, 0)]);
    assert_eq!(found(&[&whole[..], &[0]].concat()), [(3, 0), (16, 1)]);
    assert_eq!(settle(&whole, &mut []), Err(Refusal { number: 16, index: 1 }));
    assert_eq!(mark(&whole, 0), Err(Refusal { number: 16, index: 1 }));
}

#[test]
fn meanings_of_12() {
    assert_eq!(mark(&file(&[GOOD]), 99), Err(Refusal { number: 12, index: 99 }));
    assert_eq!(find(&file(&[GOOD]), 12), None);
    let refused = settle(&file(&[GOOD, NO_MARK]), &mut [0; 2]).unwrap_err();
    assert_eq!(mark(&file(&[GOOD, NO_MARK]), 99), Err(refused));
    assert_eq!((refused.number, find(&file(&[GOOD, NO_MARK]), 12)), (12, Some(refused.index)));
}

#[test]
fn meanings_of_4() {
    assert_eq!((bracket(*b"IR", 950_000), value(*b"IR", 950_000).is_ok()), (Err(Refusal::of(4)), true));
    assert_eq!((bracket(*b"ZZ", 950_000), value(*b"ZZ", 950_000)), (Err(Refusal::of(4)), Err(Refusal::of(4))));
}
