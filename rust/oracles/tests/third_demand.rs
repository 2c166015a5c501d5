//! What is promised of every accepted file: the distance of each amount from the exact one, its sign after a rise, and that
//! corrections that are sent again change nothing but the resent count.

mod lent;

use citronreef::records::{Correction, Day, MAX_CORRECTIONS, MAX_LOTS, MAX_MARKS, MAX_POSITIONS};
use citronreef::{settle, Settled};
use lent::settled_into;
use oracles::days::{day, day_of, product_of};
use oracles::exact::is_near;
use oracles::plain::final_prices;
use oracles::products::{Product, PRICE_LIMIT, PRODUCTS, YEAR_LIMIT};
use oracles::random::Random;

/// The answer to an accepted day, and its amounts.
fn settled(day: &Day) -> (Settled, Vec<i64>) {
    let (answer, amounts) = settled_into(settle, &day.bytes(), day.positions.len());
    (answer.expect("every check passes"), amounts)
}

/// A position's product, its previous and final price, its lots and its amount.
struct Held {
    product: &'static Product,
    previous: u32,
    last: u32,
    lots: i64,
    amount: i64,
}

fn held(day: &Day) -> Vec<Held> {
    let (_, amounts) = settled(day);
    let last = final_prices(day);
    let of = |(position, &amount): (&citronreef::records::Position, &i64)| {
        let mark = &day.marks[position.mark as usize];
        Held {
            product: product_of(mark),
            previous: mark.previous,
            last: last[position.mark as usize],
            lots: i64::from(position.lots),
            amount,
        }
    };
    day.positions.iter().zip(&amounts).map(of).collect()
}

#[test]
fn distances() {
    let mut random = Random::new(1_234_567_891);
    let mut compared = 0;
    while compared < 20_000 {
        for h in held(&day_of(&mut random, 12, 20, 40)) {
            let near = is_near(h.product, h.previous, h.last, h.lots, h.amount);
            assert!(near, "{:?} from {} to {}, {} lots: {}", h.product.code, h.previous, h.last, h.lots, h.amount);
            compared += 1;
        }
    }
}

/// The distance is small enough to notice an amount that is wrong by a few cents for each lot.
#[test]
fn a_wrong_amount_is_not_near() {
    let most = i64::from(MAX_LOTS);
    for product in &PRODUCTS {
        let (previous, last) = (950_000, 950_100);
        let change = product.value_at(last) as i64 - product.value_at(previous) as i64;
        let wrong_by = product.accuracy as i64 / 500 + 1;
        for lots in [1, -1, most, -most] {
            assert!(is_near(product, previous, last, lots, lots * change));
            assert!(!is_near(product, previous, last, lots, lots * (change + wrong_by)));
            assert!(!is_near(product, previous, last, lots, lots * (change - wrong_by)));
            assert!(!is_near(product, previous, last, lots, -lots * change));
        }
    }
}

#[test]
fn signs_after_a_rise_and_a_fall() {
    let mut random = Random::new(40_692);
    for _ in 0..3_000 {
        for h in held(&day(&mut random)) {
            let gain = h.amount * h.lots.signum();
            match h.last.cmp(&h.previous) {
                std::cmp::Ordering::Greater => assert!(gain >= 0),
                std::cmp::Ordering::Equal => assert_eq!(h.amount, 0),
                std::cmp::Ordering::Less => assert!(gain <= 0),
            }
        }
    }
}

/// One tick is the smallest rise: at every price of every product that is on the tick, in files of as many marks as fit.
#[test]
fn signs_after_one_tick() {
    let mut random = Random::new(65_539);
    for product in &PRODUCTS {
        let prices: Vec<u32> = (0..PRICE_LIMIT).step_by(product.tick as usize).collect();
        for chunk in prices.chunks(MAX_MARKS) {
            let mut day = day_of(&mut random, chunk.len(), 0, 0);
            let contracts = product.months.iter().flat_map(|&month| (0..=YEAR_LIMIT).map(move |year| (month, year)));
            for ((mark, &price), (month, year)) in day.marks.iter_mut().zip(chunk).zip(contracts) {
                (mark.code, mark.month, mark.year) = (product.code, month, year);
                (mark.previous, mark.today) = (price, price + product.tick);
            }
            let position = |mark| citronreef::records::Position { account: mark, mark, lots: 1 };
            day.positions = (0..chunk.len() as u32).map(position).collect();
            assert!(settled(&day).1.iter().all(|&amount| amount >= 0));
        }
    }
}

/// The list with copies of its corrections put anywhere; those there keep their order.
fn sent_again(random: &mut Random, list: &[Correction], copies: usize) -> Vec<Correction> {
    let mut longer = list.to_vec();
    for _ in 0..copies {
        longer.insert(random.below(longer.len() + 1), random.pick(list));
    }
    longer
}

fn assert_resend(random: &mut Random, first: &Day, copies: usize) {
    let again = Day { corrections: sent_again(random, &first.corrections, copies), ..first.clone() };
    let (answer, amounts) = settled(first);
    let (answer_again, amounts_again) = settled(&again);
    assert_eq!(amounts_again, amounts);
    assert_eq!(answer_again, Settled { resent: answer.resent + copies, ..answer });
}

#[test]
fn resend() {
    let mut random = Random::new(16_807);
    let mut compared = 0;
    while compared < 10_000 {
        let first = day(&mut random);
        if first.corrections.is_empty() {
            continue;
        }
        let most = (MAX_CORRECTIONS - first.corrections.len()).min(if random.one_in(50) { MAX_CORRECTIONS } else { 12 });
        let copies = random.below(most + 1);
        assert_resend(&mut random, &first, copies);
        compared += 1;
    }
}

#[test]
fn resend_up_to_the_limit() {
    let mut random = Random::new(48_271);
    for corrections in [1, 2, 100, MAX_CORRECTIONS - 1, MAX_CORRECTIONS] {
        let first = day_of(&mut random, MAX_MARKS, corrections, MAX_POSITIONS);
        assert_resend(&mut random, &first, MAX_CORRECTIONS - corrections);
    }
}

/// A final price does not depend on where a correction stands.
#[test]
fn order_of_corrections() {
    let mut random = Random::new(69_621);
    for _ in 0..2_000 {
        let first = day(&mut random);
        let mut shuffled = first.clone();
        for i in (1..shuffled.corrections.len()).rev() {
            shuffled.corrections.swap(i, random.below(i + 1));
        }
        assert_eq!(settled(&first), settled(&shuffled));
    }
}

/// A total equals the sum of the amounts of its currency.
#[test]
fn totals_are_sums_of_amounts() {
    let mut random = Random::new(1_583_458_089);
    for _ in 0..2_000 {
        let day = day(&mut random);
        let sum = |currency| -> i128 {
            held(&day).iter().filter(|h| h.product.currency == currency).map(|h| i128::from(h.amount)).sum()
        };
        let (answer, _) = settled(&day);
        assert_eq!(i128::from(answer.aud), sum(oracles::products::Currency::Aud));
        assert_eq!(i128::from(answer.nzd), sum(oracles::products::Currency::Nzd));
    }
}
