//! The settlement of a day file, and the making of one, in plain Rust, written from document 01: checks over the records one after
//! the other, and a clash looked for among all earlier records.

use crate::products::{product, Currency, Product, PRICE_LIMIT, YEAR_LIMIT};
use citronreef::records::*;
use citronreef::{Refusal, Settled};

/// Check 2.
fn check_counts([marks, corrections, positions]: [usize; 3]) -> Result<(), Refusal> {
    match marks > MAX_MARKS || corrections > MAX_CORRECTIONS || positions > MAX_POSITIONS {
        true => Err(Refusal::of(2)),
        false => Ok(()),
    }
}

/// Checks 1, 2 and 3, and the records of a file that passes them.
pub fn read(file: &[u8]) -> Result<Day, Refusal> {
    if file.len() < HEADER_SIZE {
        return Err(Refusal::of(1));
    }
    let numbers: [usize; 6] = std::array::from_fn(|i| u32_at(file, 4 * i) as usize);
    let [marks, _, corrections, _, positions, positions_start] = numbers;
    check_counts([marks, corrections, positions])?;
    if numbers != header(marks, corrections, positions) || file.len() != positions_start + RECORD_SIZE * positions {
        return Err(Refusal::of(3));
    }
    let mut records = file[HEADER_SIZE..].chunks_exact(RECORD_SIZE);
    Ok(Day {
        marks: records.by_ref().take(marks).map(Mark::read).collect(),
        corrections: records.by_ref().take(corrections).map(Correction::read).collect(),
        positions: records.map(Position::read).collect(),
    })
}

fn records<T>(list: &[u8], read: fn(&[u8]) -> T) -> Vec<T> {
    list.chunks_exact(RECORD_SIZE).map(read).collect()
}

/// Checks 2 and 3 of lent lists, and their records.
pub fn listed(lists: [&[u8]; 3]) -> Result<Day, Refusal> {
    check_counts(lists.map(|list| list.len() / RECORD_SIZE))?;
    if lists.iter().any(|list| list.len() % RECORD_SIZE != 0) {
        return Err(Refusal::of(3));
    }
    let [marks, corrections, positions] = lists;
    Ok(Day {
        marks: records(marks, Mark::read),
        corrections: records(corrections, Correction::read),
        positions: records(positions, Position::read),
    })
}

/// Check `number` over a list: the first record that fails it.
pub fn check<T>(number: u32, records: &[T], fails: impl FnMut(&T) -> bool) -> Result<(), Refusal> {
    match records.iter().position(fails) {
        Some(index) => Err(Refusal { number, index }),
        None => Ok(()),
    }
}

/// Check `number` over a list: the first record that clashes with an earlier one.
pub fn check_pairs<T>(number: u32, records: &[T], clash: impl Fn(&T, &T) -> bool) -> Result<(), Refusal> {
    for (index, record) in records.iter().enumerate() {
        if records[..index].iter().any(|earlier| clash(record, earlier)) {
            return Err(Refusal { number, index });
        }
    }
    Ok(())
}

/// Checks 4 to 7, and each mark's product.
pub fn check_marks(marks: &[Mark]) -> Result<Vec<&'static Product>, Refusal> {
    check(4, marks, |mark| product(mark.code).is_none())?;
    let products: Vec<&Product> = marks.iter().filter_map(|mark| product(mark.code)).collect();
    let listed: Vec<(&Mark, &Product)> = marks.iter().zip(products.iter().copied()).collect();
    check(5, &listed, |(mark, product)| !product.months.contains(&mark.month) || mark.year > YEAR_LIMIT)?;
    check(6, &listed, |(mark, _)| mark.previous > PRICE_LIMIT || mark.today > PRICE_LIMIT)?;
    check(7, &listed, |(mark, product)| product.is_off_tick(mark.previous) || product.is_off_tick(mark.today))?;
    Ok(products)
}

pub fn same_contract(mark: &Mark, other: &Mark) -> bool {
    mark.code == other.code && mark.month == other.month && mark.year == other.year
}

/// Checks 9 and 10.
pub fn check_corrections(corrections: &[Correction], products: &[&Product]) -> Result<(), Refusal> {
    check(9, corrections, |c| c.mark as usize >= products.len())?;
    check(10, corrections, |c| c.price > PRICE_LIMIT || products[c.mark as usize].is_off_tick(c.price))
}

/// Checks 12 and 13.
pub fn check_positions(positions: &[Position], marks: usize) -> Result<(), Refusal> {
    check(12, positions, |p| p.mark as usize >= marks)?;
    check(13, positions, |p| p.lots == 0 || p.lots < -MAX_LOTS || p.lots > MAX_LOTS)
}

/// Whether two positions are of one account and one mark. Their lots may differ.
pub fn same_holding(position: &Position, other: &Position) -> bool {
    position.account == other.account && position.mark == other.mark
}

/// Checks 4 to 13 and 16, and each mark's product.
fn check_day(day: &Day) -> Result<Vec<&'static Product>, Refusal> {
    let products = check_marks(&day.marks)?;
    check_pairs(8, &day.marks, same_contract)?;
    check_corrections(&day.corrections, &products)?;
    check_pairs(11, &day.corrections, |c, other| c.number == other.number && c != other)?;
    check_positions(&day.positions, day.marks.len())?;
    check_pairs(16, &day.positions, same_holding)?;
    Ok(products)
}

/// Check 14.
pub fn check_places(positions: usize, places: usize) -> Result<(), Refusal> {
    match places < positions {
        true => Err(Refusal::of(14)),
        false => Ok(()),
    }
}

/// The final price of each mark: that of the highest-numbered correction that names it, today's where none does.
pub fn final_prices(day: &Day) -> Vec<u32> {
    let mut highest: Vec<Option<&Correction>> = vec![None; day.marks.len()];
    for correction in &day.corrections {
        let held = &mut highest[correction.mark as usize];
        if held.map_or(true, |other| other.number < correction.number) {
            *held = Some(correction);
        }
    }
    let today = day.marks.iter().map(|mark| mark.today);
    highest.iter().zip(today).map(|(held, today)| held.map_or(today, |c| c.price)).collect()
}

/// How many corrections bear a number that an earlier one bears.
fn resent_count(corrections: &[Correction]) -> usize {
    let is_resent = |i: &usize| corrections[..*i].iter().any(|earlier| earlier.number == corrections[*i].number);
    (0..corrections.len()).filter(is_resent).count()
}

/// The change in value of each mark, in cents.
fn changes(day: &Day, products: &[&Product]) -> Vec<i64> {
    let prices = day.marks.iter().zip(final_prices(day));
    let change = |(product, (mark, last)): (&&Product, (&Mark, u32))| {
        product.value_at(last) as i64 - product.value_at(mark.previous) as i64
    };
    products.iter().zip(prices).map(change).collect()
}

/// A currency's total: the sum over its marks of net lots times the change in value.
fn total(currency: Currency, products: &[&Product], net_lots: &[i64], changes: &[i64]) -> i64 {
    let marks = products.iter().zip(net_lots).zip(changes);
    marks.filter(|((product, _), _)| product.currency == currency).map(|((_, net), change)| net * change).sum()
}

/// Writes the amounts of a day that passes every check, and answers for it.
pub fn pay(day: &Day, products: &[&Product], resent: usize, amounts: &mut [i64]) -> Settled {
    let changes = changes(day, products);
    let mut net_lots = vec![0; day.marks.len()];
    for (position, amount) in day.positions.iter().zip(amounts) {
        let (mark, lots) = (position.mark as usize, i64::from(position.lots));
        *amount = lots * changes[mark];
        net_lots[mark] += lots;
    }
    Settled {
        positions: day.positions.len(),
        aud: total(Currency::Aud, products, &net_lots, &changes),
        nzd: total(Currency::Nzd, products, &net_lots, &changes),
        resent,
    }
}

/// Settles a day file.
pub fn settle(file: &[u8], amounts: &mut [i64]) -> Result<Settled, Refusal> {
    let day = read(file)?;
    let products = check_day(&day)?;
    check_places(day.positions.len(), amounts.len())?;
    Ok(pay(&day, &products, resent_count(&day.corrections), amounts))
}

/// Check 17, and the file of three lists of whole records at the start of `out`. Answers the file's length.
pub fn write_file(lists: [&[u8]; 3], out: &mut [u8]) -> Result<usize, Refusal> {
    let [marks, corrections, positions] = lists.map(|list| list.len() / RECORD_SIZE);
    let numbers = header(marks, corrections, positions);
    let length = numbers[5] + RECORD_SIZE * positions;
    let file = out.get_mut(..length).ok_or(Refusal::of(17))?;
    for (number, place) in numbers.iter().zip(file.chunks_exact_mut(4)) {
        place.copy_from_slice(&(*number as u32).to_le_bytes());
    }
    let starts = [numbers[1], numbers[3], numbers[5]];
    for (list, start) in lists.iter().zip(starts) {
        file[start..start + list.len()].copy_from_slice(list);
    }
    Ok(length)
}

/// Makes a day file of three lists.
pub fn make(marks: &[u8], corrections: &[u8], positions: &[u8], out: &mut [u8]) -> Result<usize, Refusal> {
    let lists = [marks, corrections, positions];
    check_day(&listed(lists)?)?;
    write_file(lists, out)
}
