//! What is said of each mark of random day files, valid and damaged, against the independent build and the amounts.

mod lent;

use citronreef::records::{Day, MAX_POSITIONS};
use citronreef::{mark, settle, MarkPrices, Refusal};
use lent::settled_into;
use oracles::days::{damage_bytes, damage_record, day};
use oracles::plain;
use oracles::products::product;
use oracles::random::Random;

/// The prices of each mark of a day that passes every check, by the independent build.
fn expected(day: &Day) -> Vec<MarkPrices> {
    let prices = |(index, (mark, final_price)): (usize, (&citronreef::records::Mark, u32))| {
        let product = product(mark.code).expect("a code of the table");
        let naming = day.corrections.iter().filter(|correction| correction.mark as usize == index);
        MarkPrices {
            previous: mark.previous,
            final_price,
            corrected_by: naming.map(|correction| correction.number).max(),
            change: product.value_at(final_price) as i64 - product.value_at(mark.previous) as i64,
        }
    };
    day.marks.iter().zip(plain::final_prices(day)).enumerate().map(prices).collect()
}

#[test]
fn marks_of_valid_files() {
    let mut random = Random::new(2_463_534_242);
    let (mut corrected, mut uncorrected) = (0, 0);
    for _ in 0..3_000 {
        let day = day(&mut random);
        let file = day.bytes();
        let marks: Vec<MarkPrices> =
            (0..day.marks.len()).map(|index| mark(&file, index).expect("a mark of the file")).collect();
        assert_eq!(marks, expected(&day));
        corrected += marks.iter().filter(|prices| prices.corrected_by.is_some()).count();
        uncorrected += marks.iter().filter(|prices| prices.corrected_by.is_none()).count();
        let (answer, amounts) = settled_into(settle, &file, day.positions.len());
        answer.expect("every check passes");
        for (position, amount) in day.positions.iter().zip(amounts) {
            assert_eq!(i64::from(position.lots) * marks[position.mark as usize].change, amount);
        }
        for beyond in [day.marks.len(), day.marks.len() + random.below(1_000), usize::MAX] {
            assert_eq!(mark(&file, beyond), Err(Refusal { number: 12, index: beyond }));
        }
    }
    assert!(corrected > 1_000 && uncorrected > 1_000, "both kinds of marks: {corrected}, {uncorrected}");
}

#[test]
fn damaged_files_are_refused_as_by_the_settlement() {
    let mut random = Random::new(1_812_433_253);
    let mut refused = 0;
    for _ in 0..50_000 {
        let mut day = day(&mut random);
        (0..random.below(4)).for_each(|_| damage_record(&mut random, &mut day));
        let mut file = day.bytes();
        if random.one_in(4) {
            damage_bytes(&mut random, &mut file);
        }
        if let Err(refusal) = settled_into(settle, &file, MAX_POSITIONS).0 {
            assert_eq!(mark(&file, random.below(4)), Err(refusal));
            refused += 1;
        }
    }
    assert!(refused > 10_000, "refused {refused}");
}
