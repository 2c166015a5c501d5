//! Check 16: the first position that agrees with an earlier one in account and mark, by itself and among the other checks, against
//! the independent builds.

mod lent;

use citronreef::records::{Day, Position, MAX_MARKS, MAX_POSITIONS};
use citronreef::{find, settle, Refusal};
use lent::agreed;
use oracles::days::{damage_bytes, damage_record, day, day_of};
use oracles::plain::{check_pairs, read, same_holding};
use oracles::random::Random;

/// A position: account, mark and lots.
type Holding = (u32, u32, i32);

/// A day with as many marks and these positions.
fn day_with(marks: usize, positions: &[Holding]) -> Day {
    let position = |&(account, mark, lots): &Holding| Position { account, mark, lots };
    Day { positions: positions.iter().map(position).collect(), ..day_of(&mut Random::new(16), marks, 0, 0) }
}

/// What a day is refused with, by number and index; nothing where it is accepted.
fn refused(day: &Day, places: usize) -> Option<(u32, usize)> {
    agreed(&day.bytes(), places).err().map(|refusal| (refusal.number, refusal.index))
}

/// The first position that repeats an earlier one, by the pair loop.
fn first_repeated(positions: &[Position]) -> Option<usize> {
    check_pairs(16, positions, same_holding).err().map(|refusal| refusal.index)
}

#[test]
fn account_and_mark_alone_count() {
    assert_eq!(refused(&day_with(2, &[(1, 0, 5), (1, 1, 5), (2, 0, 5), (2, 1, 5)]), 4), None);
    assert_eq!(refused(&day_with(2, &[(1, 0, 5), (1, 1, 5), (1, 0, 5)]), 3), Some((16, 2)));
    assert_eq!(refused(&day_with(2, &[(1, 0, 5), (1, 0, -5), (1, 0, 7)]), 3), Some((16, 1)));
    assert_eq!(refused(&day_with(2, &[(0, 1, 5), (1, 0, 5), (1, 0, 6), (0, 1, 6)]), 4), Some((16, 2)));
}

/// It stands after 13 and before 14, wherever their records stand.
#[test]
fn place_among_the_checks() {
    let repeated = [(7, 0, 1), (7, 0, 2)];
    let with = |further: Holding| day_with(1, &[&repeated[..], &[further]].concat());
    assert_eq!(refused(&with((8, 1, 1)), 3), Some((12, 2)));
    assert_eq!(refused(&with((8, 0, 0)), 3), Some((13, 2)));
    assert_eq!(refused(&with((8, 0, 1)), 3), Some((16, 1)));
    assert_eq!([0, 1, 2].map(|places| refused(&day_with(1, &repeated), places)), [Some((16, 1)); 3]);
    assert_eq!(refused(&day_with(1, &repeated[..1]), 0), Some((14, 0)));
    let mut corrected = day_of(&mut Random::new(11), 1, 2, 0);
    corrected.corrections[1] = corrected.corrections[0];
    corrected.corrections[1].mark = 1;
    corrected.positions = day_with(1, &repeated).positions;
    assert_eq!(refused(&corrected, 2), Some((9, 1)));
}

/// In lists around the sizes of the library's arrays, a position takes the account and mark of any earlier one.
#[test]
fn any_two_places() {
    let mut random = Random::new(1_664_525);
    for count in [2, 3, 8, 9, 31, 32, 33, 128, 129, 512, 513, 1_024, 1_025, 4_095, MAX_POSITIONS] {
        for marks in [1, 2, MAX_MARKS] {
            let whole = day_of(&mut random, marks, 0, count);
            assert_eq!(refused(&whole, count), None);
            for ends in [(0, 1), (0, count - 1), (count - 2, count - 1)] {
                let later = 1 + random.below(count - 1);
                for (earlier, later) in [ends, (random.below(later), later)] {
                    let mut day = whole.clone();
                    day.positions[later] = Position { lots: day.positions[later].lots, ..day.positions[earlier] };
                    assert_eq!(refused(&day, count), Some((16, later)));
                }
            }
        }
    }
}

/// Few accounts and marks, so that many positions repeat others: the first is told.
#[test]
fn crowded_days() {
    let mut random = Random::new(22_695_477);
    for _ in 0..20_000 {
        let (marks, count, accounts) = (1 + random.below(4), random.below(40), 1 + random.below(60));
        let mut day = day_of(&mut random, marks, 0, count);
        day.positions.iter_mut().for_each(|position| position.account = random.below(accounts) as u32);
        assert_eq!(refused(&day, count), first_repeated(&day.positions).map(|index| (16, index)));
    }
}

/// Accounts and marks that differ in one bit.
#[test]
fn every_bit_counts() {
    let ones = |bits: u32| (0..bits).map(|bit| 1 << bit).chain([0]);
    let holdings: Vec<Holding> = ones(32).flat_map(|account| ones(8).map(move |mark| (account, mark, 1))).collect();
    assert_eq!(refused(&day_with(MAX_MARKS, &holdings), holdings.len()), None);
    for &holding in &holdings {
        let longer = day_with(MAX_MARKS, &[&holdings[..], &[holding]].concat());
        assert_eq!(refused(&longer, holdings.len()), Some((16, holdings.len())));
    }
}

/// How long a list may be for each size of the library's arrays.
const SIZES: [usize; 5] = [32, 128, 512, 1_024, MAX_POSITIONS];

/// The library's factors of account and mark for a position's first place. For its second place they are changed about.
const LOWER: u32 = 2_654_435_761;
const UPPER: u32 = 1_973_900_851;

/// A position whose first place in the library's first sifting goes by a number: 0 is the first of all places, and the
/// highest of 32 bits the last.
fn at_place(number: u32, mark: u32) -> Holding {
    (number.wrapping_sub(mark.wrapping_mul(UPPER)).wrapping_mul(244_002_641), mark, 1)
}

/// The number that its second place goes by.
fn second_number((account, mark, _): Holding) -> u32 {
    account.wrapping_mul(UPPER).wrapping_add(mark.wrapping_mul(LOWER))
}

/// A position whose two places are one and the same, since account and mark are equal. It goes by four times a number.
fn at_one_place(number: u32) -> Holding {
    let account = number.wrapping_mul(3_575_291_465);
    (account, account, 1)
}

/// A position that takes account and mark of an earlier one.
fn repeat(day: &mut Day, earlier: usize, later: usize) {
    day.positions[later] = Position { lots: 2, ..day.positions[earlier] };
}

/// All have one first place: all but the first go to their second, and a few find that taken too.
#[test]
fn one_place() {
    let holding = |index: u32| at_place(index / 256 << 12, index % 256);
    let holdings: Vec<Holding> = (0..MAX_POSITIONS as u32).map(holding).collect();
    for count in SIZES {
        let whole = day_with(MAX_MARKS, &holdings[..count]);
        assert_eq!(refused(&whole, count), None);
        for earlier in [0, 1, count / 2, count - 2] {
            let mut day = whole.clone();
            repeat(&mut day, earlier, count - 1);
            assert_eq!(refused(&day, count), Some((16, count - 1)));
        }
    }
}

/// Each first place has two: the first half stays there, and the second half goes to its second places. A position
/// that repeats one of the first half is found at its first place, and one that repeats one of the second half at its
/// second; the earlier of both is told.
#[test]
fn two_at_each_place() {
    for count in SIZES {
        let half = count / 2;
        let holding = |index: usize| at_place((index % half * (1 << 32) / half) as u32, (index / half) as u32);
        let whole = day_with(2, &(0..count).map(holding).collect::<Vec<_>>());
        assert_eq!(refused(&whole, count), None);
        let (stays, goes, [next, last]) = (half / 2, half, [count - 2, count - 1]);
        for (earlier, later) in [(stays, last), (goes, last), (goes, goes + 1), (next, last)] {
            let mut day = whole.clone();
            repeat(&mut day, earlier, later);
            assert_eq!(refused(&day, count), Some((16, later)));
        }
        for [first, second] in [[stays, goes], [goes, stays]] {
            let mut day = whole.clone();
            repeat(&mut day, first, next);
            repeat(&mut day, second, last);
            assert_eq!(refused(&day, count), Some((16, next)));
        }
    }
}

/// As many positions as a file may have, of 16 marks. Both places go by numbers below a bound, so that few stay.
fn crowded(below: u32) -> Vec<Holding> {
    let holding = |step: u32| at_place((step / 16).wrapping_mul(2_246_822_519) % below, step % 16);
    (0..).map(holding).filter(|&holding| second_number(holding) < below).take(MAX_POSITIONS).collect()
}

/// A crowded list in which some are ordinary positions, of another mark.
fn mixed(crowded: &[Holding], is_ordinary: impl Fn(usize) -> bool) -> Vec<Holding> {
    let holding = |index: usize| if is_ordinary(index) { (index as u32, 16, 1) } else { crowded[index] };
    (0..crowded.len()).map(holding).collect()
}

/// The position that a day is refused with by check 16; no other check refuses it.
fn told(day: &Day) -> Option<usize> {
    let (number, index) = refused(day, day.positions.len())?;
    assert_eq!(number, 16);
    Some(index)
}

/// Of these positions none repeats another; where one is made to, or two are, the first of them is answered.
fn assert_first(holdings: &[Holding]) {
    let whole = day_with(MAX_MARKS, holdings);
    let with = |repeats: &[(usize, usize)]| {
        let mut day = whole.clone();
        repeats.iter().for_each(|&(earlier, later)| repeat(&mut day, earlier, later));
        told(&day)
    };
    assert_eq!(with(&[]), None);
    let middle = holdings.len() / 2;
    let [late, next, last] = [3, 2, 1].map(|back| holdings.len() - back);
    for earlier in [0, 1, middle, late, next] {
        assert_eq!(with(&[(earlier, last)]), Some(last));
    }
    for earlier in [0, 1, middle - 1] {
        assert_eq!(with(&[(earlier, middle)]), Some(middle));
    }
    for [first, second] in [[0, late], [late, 0], [middle, late], [late, middle]] {
        assert_eq!(with(&[(first, next), (second, last)]), Some(next));
    }
}

/// Few stay: all are sifted anew by a seed, or in a short list those that are left.
#[test]
fn both_places_crowded() {
    for crowded in [1 << 22, 1 << 26].map(crowded) {
        for count in SIZES {
            assert_first(&crowded[..count]);
        }
    }
}

/// Ordinary positions stay, between crowded ones or before them. The more there are, the fewer are left, and the later:
/// all are sifted anew where many are left early; or those that are left are, where these are few by fewer places.
#[test]
fn crowded_among_ordinary() {
    for crowded in [1 << 22, 1 << 26].map(crowded) {
        for count in SIZES {
            assert_first(&mixed(&crowded[..count], |index| index % 2 == 0));
            for ordinary in [count * 3 / 16, count * 5 / 16, count / 3, count / 2, count * 7 / 8] {
                assert_first(&mixed(&crowded[..count], |index| index < ordinary));
            }
        }
    }
}

/// Later siftings go by a seed, which all the positions that are left make. Of many short lists that are crowded in the
/// first, some leave a few in each of the next ones too. Some positions repeat others.
#[test]
fn short_lists_anew() {
    let (mut random, crowded) = (Random::new(134_775_813), crowded(1 << 22));
    for _ in 0..40_000 {
        let (count, start) = (9 + random.below(40), random.below(MAX_POSITIONS - 64));
        let mut day = day_with(MAX_MARKS, &crowded[start..start + count]);
        for _ in 0..random.below(3) {
            let later = 1 + random.below(count - 1);
            repeat(&mut day, random.below(later), later);
        }
        assert_eq!(told(&day), first_repeated(&day.positions));
    }
}

/// Positions of which 256 at a time agree in the lower forty bits of account and mark. All together have 256 places.
fn agreeing() -> Vec<Holding> {
    let is_low = |account: u32, factor| account.wrapping_mul(factor) % (1 << 24) < 1 << 18;
    let accounts = (0..).filter(|&account| is_low(account, LOWER) && is_low(account, UPPER));
    accounts.take(MAX_POSITIONS / 256).flat_map(|account| (0..256).map(move |mark| (account, mark << 24, 1))).collect()
}

/// Marks that no file has, up to the highest number: 12 refuses them, and 16 is found by itself. Account and mark
/// together have more than forty bits. All have one first place, or up to sixteen have and up to 256 agree in their
/// lower forty bits; then the same with both places. In pairs or in a square, they differ in the highest bits of account
/// and mark alone.
#[test]
fn marks_of_all_sizes() {
    let list = |holding: fn(u32) -> Holding| (0..MAX_POSITIONS as u32).map(holding).collect::<Vec<_>>();
    let scattered = list(|index| at_place(0, index.wrapping_mul(2_246_822_519)));
    let at_sixteen = list(|index| (at_place(index / 256 << 12, 0).0, index % 256 << 24, 1));
    let in_pairs =
        list(|index| ((index / 2).wrapping_mul(LOWER) ^ index << 31, (index / 2).wrapping_mul(LOWER) ^ index << 31, 1));
    let in_a_square = list(|index| (12_345 + (index / 64 << 26), index % 64 << 26, 1));
    for holdings in [scattered, at_sixteen, list(at_one_place), agreeing(), in_pairs, in_a_square] {
        for count in SIZES {
            let whole = day_with(1, &holdings[..count]);
            assert_eq!((refused(&whole, count), find(&whole.bytes(), 16)), (Some((12, 1)), None));
            for (earlier, later) in [(1, count - 1), (count / 2, count - 1), (count / 4, count / 2)] {
                let mut day = whole.clone();
                repeat(&mut day, earlier, later);
                assert_eq!(find(&day.bytes(), 16), Some(later));
            }
        }
    }
}

/// Looked for by itself, whatever else is wrong with the positions; the settlement answers it where all before it pass.
#[test]
fn found_by_itself() {
    let mut random = Random::new(3_141_592_653);
    let (mut met, mut behind) = (0, 0);
    for _ in 0..50_000 {
        let mut day = day(&mut random);
        (0..random.below(5)).for_each(|_| damage_record(&mut random, &mut day));
        let mut file = day.bytes();
        if random.one_in(8) {
            damage_bytes(&mut random, &mut file);
        }
        let found = find(&file, 16);
        if let Ok(day) = read(&file) {
            assert_eq!(found, first_repeated(&day.positions), "file {file:?}");
        }
        match (settle(&file, &mut [0; MAX_POSITIONS]), found) {
            (Err(Refusal { number: 16, index }), _) => {
                assert_eq!(found, Some(index));
                met += 1;
            }
            (Ok(_), _) => assert_eq!(found, None),
            (Err(_), Some(_)) => behind += 1,
            (Err(_), None) => {}
        }
    }
    assert!(met > 1_000 && behind > 1_000, "refused by it {met}, found behind another {behind}");
}
