//! The same job with hash tables in place of pair loops, so that no part of it is quadratic.

use crate::plain;
use crate::products::Product;
use citronreef::records::{Correction, Day, Mark, Position};
use citronreef::{Refusal, Settled};
use std::collections::hash_map::Entry;
use std::collections::{HashMap, HashSet};
use std::hash::{BuildHasherDefault, Hash, Hasher};

/// A quick hash of one number: a product with an odd constant, its high bits folded onto the low ones.
#[derive(Default)]
pub struct NumberHasher(u64);

impl Hasher for NumberHasher {
    fn write(&mut self, bytes: &[u8]) {
        bytes.iter().for_each(|&byte| self.write_u64(u64::from(byte)));
    }

    fn write_u32(&mut self, number: u32) {
        self.write_u64(u64::from(number));
    }

    fn write_u64(&mut self, number: u64) {
        self.0 = (self.0 ^ number).wrapping_mul(0x9E37_79B9_7F4A_7C15);
    }

    fn finish(&self) -> u64 {
        self.0 ^ (self.0 >> 32)
    }
}

type Quick = BuildHasherDefault<NumberHasher>;

fn contract(mark: &Mark) -> u32 {
    u32::from_le_bytes([mark.code[0], mark.code[1], mark.month, mark.year])
}

fn holding(position: &Position) -> u64 {
    u64::from(position.account) | u64::from(position.mark) << 32
}

/// Check `number` over a list: the first record with the key of an earlier one.
fn check_keys<T, K: Eq + Hash>(number: u32, records: &[T], key: impl Fn(&T) -> K) -> Result<(), Refusal> {
    let mut seen: HashSet<K, Quick> = HashSet::with_capacity_and_hasher(records.len(), Quick::default());
    plain::check(number, records, |record| !seen.insert(key(record)))
}

/// Check 11, and the resent count of corrections that pass it. Those before the first that clashes agree with the first of
/// their number, so comparing with that one is enough.
fn check_numbers(corrections: &[Correction]) -> Result<usize, Refusal> {
    let mut first: HashMap<u32, &Correction, Quick> = HashMap::with_capacity_and_hasher(corrections.len(), Quick::default());
    let mut resent = 0;
    for (index, correction) in corrections.iter().enumerate() {
        match first.entry(correction.number) {
            Entry::Occupied(held) if *held.get() != correction => return Err(Refusal { number: 11, index }),
            Entry::Occupied(_) => resent += 1,
            Entry::Vacant(free) => {
                free.insert(correction);
            }
        }
    }
    Ok(resent)
}

/// Checks 4 to 13 and 16, each mark's product, and the resent count.
fn check_day(day: &Day) -> Result<(Vec<&'static Product>, usize), Refusal> {
    let products = plain::check_marks(&day.marks)?;
    check_keys(8, &day.marks, contract)?;
    plain::check_corrections(&day.corrections, &products)?;
    let resent = check_numbers(&day.corrections)?;
    plain::check_positions(&day.positions, day.marks.len())?;
    check_keys(16, &day.positions, holding)?;
    Ok((products, resent))
}

/// Settles a day file.
pub fn settle(file: &[u8], amounts: &mut [i64]) -> Result<Settled, Refusal> {
    let day = plain::read(file)?;
    let (products, resent) = check_day(&day)?;
    plain::check_places(day.positions.len(), amounts.len())?;
    Ok(plain::pay(&day, &products, resent, amounts))
}

/// Makes a day file of three lists.
pub fn make(marks: &[u8], corrections: &[u8], positions: &[u8], out: &mut [u8]) -> Result<usize, Refusal> {
    let lists = [marks, corrections, positions];
    check_day(&plain::listed(lists)?)?;
    plain::write_file(lists, out)
}
