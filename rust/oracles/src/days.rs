//! Random days that pass every check, and ways to damage their files.

use crate::products::{Product, PRICE_LIMIT, PRODUCTS, YEAR_LIMIT};
use crate::random::Random;
use citronreef::records::*;
use std::collections::{HashMap, HashSet};

/// A price that a product allows: any, or one near the last place where most days trade.
pub fn price(random: &mut Random, product: &Product) -> u32 {
    let ticks = PRICE_LIMIT / product.tick;
    let tick = match random.below(4) {
        0 => random.below(ticks as usize + 1) as u32,
        1 => random.pick(&[0, 1, ticks - 1, ticks]),
        _ => ticks - random.below(ticks as usize / 8) as u32,
    };
    tick * product.tick
}

fn mark(random: &mut Random, products: &[Product]) -> Mark {
    let product = &products[random.below(products.len())];
    Mark {
        code: product.code,
        month: random.pick(product.months),
        year: random.below(usize::from(YEAR_LIMIT) + 1) as u8,
        previous: price(random, product),
        today: price(random, product),
    }
}

/// Marks of different contracts.
fn marks(random: &mut Random, products: &[Product], count: usize) -> Vec<Mark> {
    let mut seen = HashSet::new();
    let mut marks = Vec::with_capacity(count);
    while marks.len() < count {
        let mark = mark(random, products);
        if seen.insert((mark.code, mark.month, mark.year)) {
            marks.push(mark);
        }
    }
    marks
}

pub fn product_of(mark: &Mark) -> &'static Product {
    crate::products::product(mark.code).expect("a listed code")
}

/// Corrections with numbers in no order, some of them copies of earlier ones.
fn corrections(random: &mut Random, marks: &[Mark], count: usize) -> Vec<Correction> {
    let mut made = HashMap::new();
    let mut corrections = Vec::with_capacity(count);
    while corrections.len() < count {
        let number = if random.one_in(3) { random.number() as u32 } else { random.below(2 * count) as u32 };
        let mark = random.below(marks.len());
        let price = price(random, product_of(&marks[mark]));
        corrections.push(*made.entry(number).or_insert(Correction { number, mark: mark as u32, price }));
    }
    corrections
}

/// Lots that pass check 13: few, many, or as many as are allowed.
fn lots(random: &mut Random) -> i32 {
    let most = random.pick(&[10, 1_000, MAX_LOTS]);
    let lots = if random.one_in(8) { most } else { 1 + random.below(most as usize) as i32 };
    if random.one_in(2) {
        lots
    } else {
        -lots
    }
}

/// Positions of different accounts or marks. Some accounts have more than one.
fn positions(random: &mut Random, marks: usize, count: usize) -> Vec<Position> {
    let mut seen = HashSet::new();
    let mut positions = Vec::with_capacity(count);
    while positions.len() < count {
        let account = if random.one_in(3) { random.number() as u32 } else { random.below(count) as u32 };
        let mark = random.below(marks) as u32;
        if seen.insert((account, mark)) {
            positions.push(Position { account, mark, lots: lots(random) });
        }
    }
    positions
}

/// A day with these counts that passes every check. Without marks it has no corrections and no positions.
pub fn day_of(random: &mut Random, mark_count: usize, correction_count: usize, position_count: usize) -> Day {
    day_of_products(random, &PRODUCTS, [mark_count, correction_count, position_count])
}

/// The same, with marks of some products only.
pub fn day_of_products(random: &mut Random, products: &[Product], counts: [usize; 3]) -> Day {
    let [mark_count, correction_count, position_count] = counts;
    let marks = marks(random, products, mark_count);
    if marks.is_empty() {
        return Day::default();
    }
    let corrections = corrections(random, &marks, correction_count);
    let positions = positions(random, mark_count, position_count);
    Day { marks, corrections, positions }
}

/// A small day that passes every check, and once in a while a large one.
pub fn day(random: &mut Random) -> Day {
    let (m, c, n) = if random.one_in(100) { (MAX_MARKS, MAX_CORRECTIONS, MAX_POSITIONS) } else { (8, 12, 16) };
    let (m, c, n) = (random.below(m + 1), random.below(c + 1), random.below(n + 1));
    day_of(random, m, c, n)
}

/// A record's place in a list, if it has any.
fn some_index<T>(random: &mut Random, list: &[T]) -> Option<usize> {
    (!list.is_empty()).then(|| random.below(list.len()))
}

const ODD_NUMBERS: [u32; 12] = [0, 1, 23, 24, 25, 36, 255, 1_000_000, 1_000_001, 0x7FFF_FFFF, 0x8000_0000, 0xFFFF_FFFF];

fn damage_mark(random: &mut Random, day: &mut Day) -> Option<()> {
    let index = some_index(random, &day.marks)?;
    let other = day.marks[random.below(day.marks.len())];
    let mark = &mut day.marks[index];
    match random.below(7) {
        0 => mark.code = random.pick(&[*b"ZZ", *b"ir", *b"RI", [0, 0], *b"XI"]),
        1 => mark.month = random.pick(&[0, 1, 2, 4, 13, 16, 32, 255]),
        2 => mark.year = random.pick(&[YEAR_LIMIT, YEAR_LIMIT + 1, 128, 255]),
        3 => mark.previous = random.pick(&[PRICE_LIMIT + 1, PRICE_LIMIT + 50, PRICE_LIMIT + 100, u32::MAX]),
        4 => mark.today = random.pick(&[PRICE_LIMIT, PRICE_LIMIT + 1, PRICE_LIMIT + 100, u32::MAX]),
        5 => mark.previous = mark.previous.wrapping_add(random.pick(&[1, 25, 50, u32::MAX])),
        _ => *mark = Mark { today: mark.today, ..other },
    }
    Some(())
}

fn damage_correction(random: &mut Random, day: &mut Day) -> Option<()> {
    let index = some_index(random, &day.corrections)?;
    let other = day.corrections[random.below(day.corrections.len())];
    let marks = day.marks.len() as u32;
    let correction = &mut day.corrections[index];
    match random.below(4) {
        0 => correction.mark = random.pick(&[0, marks - 1, marks, marks + 1, u32::MAX]),
        1 => correction.price = random.pick(&[0, PRICE_LIMIT, PRICE_LIMIT + 1, PRICE_LIMIT + 100, u32::MAX]),
        2 => correction.price = correction.price.wrapping_add(random.pick(&[1, 25, 50, 100, u32::MAX])),
        _ => correction.number = other.number,
    }
    Some(())
}

fn damage_position(random: &mut Random, day: &mut Day) -> Option<()> {
    let index = some_index(random, &day.positions)?;
    let other = day.positions[random.below(day.positions.len())];
    let marks = day.marks.len() as u32;
    let position = &mut day.positions[index];
    match random.below(4) {
        0 => position.mark = random.pick(&[0, marks - 1, marks, marks + 1, u32::MAX]),
        1 => position.lots = random.pick(&[0, MAX_LOTS, MAX_LOTS + 1, -MAX_LOTS, -MAX_LOTS - 1, i32::MIN, i32::MAX]),
        2 => position.account = other.account,
        _ => *position = Position { lots: random.pick(&[position.lots, other.lots]), ..other },
    }
    Some(())
}

/// Puts a fault into a record, or something that only looks like one.
pub fn damage_record(random: &mut Random, day: &mut Day) {
    let _ = match random.below(3) {
        0 => damage_mark(random, day),
        1 => damage_correction(random, day),
        _ => damage_position(random, day),
    };
}

/// Changes a header number, the length, or any one bit.
pub fn damage_bytes(random: &mut Random, file: &mut Vec<u8>) {
    match random.below(4) {
        0 if file.len() >= HEADER_SIZE => {
            let at = 4 * random.below(6);
            let number =
                if random.one_in(2) { random.pick(&ODD_NUMBERS) } else { u32_at(file, at) ^ (1 << random.below(32)) };
            file[at..at + 4].copy_from_slice(&number.to_le_bytes());
        }
        1 => file.truncate(random.below(file.len() + 1)),
        2 => file.resize(file.len() + 1 + random.below(2 * RECORD_SIZE), 0),
        _ if !file.is_empty() => {
            let at = random.below(file.len());
            file[at] ^= 1 << random.below(8);
        }
        _ => {}
    }
}
