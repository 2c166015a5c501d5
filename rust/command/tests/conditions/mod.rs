//! The first record where the condition of a check holds, written from document 01: for each check by itself, whatever the others say.

use citronreef::records::*;
use oracles::plain::{same_contract, same_holding};
use oracles::products::{product, Product, PRICE_LIMIT, YEAR_LIMIT};

/// The whole records that the file has of a section.
fn records(file: &[u8], start: usize, count: usize) -> Vec<&[u8]> {
    file.get(start..).unwrap_or_default().chunks_exact(RECORD_SIZE).take(count).collect()
}

fn off_tick(product: Option<&Product>, price: u32) -> bool {
    product.map_or(false, |product| price % product.tick != 0)
}

fn bad_date(mark: &Mark) -> bool {
    product(mark.code).map_or(true, |product| !product.months.contains(&mark.month)) || mark.year > YEAR_LIMIT
}

/// The first record that makes a pair with an earlier one.
fn pair<T>(list: &[T], are_pair: impl Fn(&T, &T) -> bool) -> Option<usize> {
    (0..list.len()).find(|&i| list[..i].iter().any(|earlier| are_pair(earlier, &list[i])))
}

/// The first record where the condition of check `number` holds.
pub fn first(file: &[u8], number: u32) -> Option<usize> {
    if file.len() < HEADER_SIZE {
        return (number == 1).then_some(0);
    }
    let numbers: [usize; 6] = std::array::from_fn(|place| u32_at(file, 4 * place) as usize);
    let [m, _, c, _, n, _] = numbers;
    let above = m > MAX_MARKS || c > MAX_CORRECTIONS || n > MAX_POSITIONS;
    let layout = header(m, c, n);
    match number {
        2 => return above.then_some(0),
        3 => return (numbers != layout || file.len() != layout[5] + RECORD_SIZE * n).then_some(0),
        _ if above => return None,
        _ => {}
    }
    let marks: Vec<Mark> = records(file, layout[1], m).into_iter().map(Mark::read).collect();
    let corrections: Vec<Correction> = records(file, layout[3], c).into_iter().map(Correction::read).collect();
    let positions: Vec<Position> = records(file, layout[5], n).into_iter().map(Position::read).collect();
    let tick_of = |index: u32| marks.get(index as usize).and_then(|mark| product(mark.code));
    let prices = |mark: &Mark| [mark.previous, mark.today];
    match number {
        4 => marks.iter().position(|mark| product(mark.code).is_none()),
        5 => marks.iter().position(bad_date),
        6 => marks.iter().position(|mark| prices(mark).iter().any(|&price| price > PRICE_LIMIT)),
        7 => marks.iter().position(|mark| prices(mark).iter().any(|&price| off_tick(product(mark.code), price))),
        8 => pair(&marks, same_contract),
        9 => corrections.iter().position(|correction| correction.mark as usize >= marks.len()),
        10 => corrections.iter().position(|c| c.price > PRICE_LIMIT || off_tick(tick_of(c.mark), c.price)),
        11 => pair(&corrections, |earlier, later| earlier.number == later.number && earlier != later),
        12 => positions.iter().position(|position| position.mark as usize >= marks.len()),
        13 => positions.iter().position(|position| position.lots == 0 || position.lots.unsigned_abs() > MAX_LOTS as u32),
        16 => pair(&positions, same_holding),
        _ => None,
    }
}
