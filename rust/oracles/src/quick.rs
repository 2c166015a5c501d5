//! The making of a day file in plain Rust that takes little time, for the benchmark. One pass over each list asks only whether anything is
//! wrong with its records, where they stand, and another whether one has the key of an earlier one. Where anything is wrong, `plain` says
//! what.

use crate::plain;
use crate::products::{PRICE_LIMIT, YEAR_LIMIT};
use citronreef::records::{MAX_CORRECTIONS, MAX_LOTS, MAX_MARKS, MAX_POSITIONS, RECORD_SIZE};
use citronreef::Refusal;

/// The bytes of a record. Their number is known, so that reading them asks for no length.
type Record = [u8; RECORD_SIZE];

fn records(list: &[u8]) -> impl Iterator<Item = &Record> {
    list.chunks_exact(RECORD_SIZE).map(|record| record.try_into().expect("a whole record"))
}

fn number(record: &Record, at: usize) -> u32 {
    u32::from_le_bytes([record[at], record[at + 1], record[at + 2], record[at + 3]])
}

/// The months 3, 6, 9 and 12, and all twelve, as bits.
const QUARTERS: u32 = 1 << 3 | 1 << 6 | 1 << 9 | 1 << 12;
const EVERY_MONTH: u32 = (1 << 13) - 2;

/// The tick and the months of a mark's product.
fn product(mark: &Record) -> Option<(u8, u32)> {
    match [mark[0], mark[1]] {
        [b'I', b'R'] | [b'B', b'B'] => Some((100, QUARTERS)),
        [b'I', b'B'] => Some((50, EVERY_MONTH)),
        [b'Y', b'T'] | [b'X', b'T'] | [b'X', b'X'] => Some((50, QUARTERS)),
        _ => None,
    }
}

/// Whether a price is no price of a product with a tick of 100 or of 50.
fn is_bad_price(tick: u8, price: u32) -> bool {
    let off_tick = if tick == 100 { price % 100 != 0 } else { price % 50 != 0 };
    price > PRICE_LIMIT || off_tick
}

/// The tick of each mark, where checks 4 to 7 pass.
fn ticks(marks: &[u8]) -> Option<[u8; MAX_MARKS]> {
    let mut ticks = [0; MAX_MARKS];
    for (mark, place) in records(marks).zip(&mut ticks) {
        let (tick, months) = product(mark)?;
        let bad_date = mark[2] > 12 || months >> mark[2] & 1 == 0 || mark[3] > YEAR_LIMIT;
        if bad_date || is_bad_price(tick, number(mark, 4)) || is_bad_price(tick, number(mark, 8)) {
            return None;
        }
        *place = tick;
    }
    Some(ticks)
}

/// Whether checks 9 and 10 pass. The ticks are those of the marks.
fn corrections_pass(corrections: &[u8], ticks: &[u8]) -> bool {
    records(corrections).all(|correction| {
        let tick = ticks.get(number(correction, 4) as usize);
        tick.map_or(false, |&tick| !is_bad_price(tick, number(correction, 8)))
    })
}

/// Whether checks 12 and 13 pass.
fn positions_pass(positions: &[u8], marks: u32) -> bool {
    let most = MAX_LOTS as u32;
    let is_bad = |position| {
        let (mark, lots) = (number(position, 4), number(position, 8));
        (mark >= marks) | (lots == 0) | (lots.wrapping_add(most) > 2 * most)
    };
    !records(positions).fold(false, |bad, position| bad | is_bad(position))
}

/// The record with a number, counted from 1.
fn nth(list: &[u8], number: u16) -> &Record {
    let end = RECORD_SIZE * usize::from(number);
    list[end - RECORD_SIZE..end].try_into().expect("a whole record")
}

/// Whether no record has the key of an earlier one that it may not agree with. A table has the number of the first record of each key: a
/// key takes the first free place from the one on that goes by its product. The mask changes nothing, and spares a test of the index.
fn keys_pass(list: &[u8], key: impl Fn(&Record) -> u64, may_agree: impl Fn(&Record, &Record) -> bool) -> bool {
    let mut places = vec![0; (4 * list.len() / RECORD_SIZE).next_power_of_two()];
    let (shift, last) = (64 - places.len().trailing_zeros(), places.len() - 1);
    records(list).zip(1..).all(|(record, number)| {
        let mut place = (key(record).wrapping_mul(0x9E37_79B9_7F4A_7C15) >> shift) as usize & last;
        while places[place] != 0 && key(nth(list, places[place])) != key(record) {
            place = (place + 1) & last;
        }
        match places[place] {
            0 => {
                places[place] = number;
                true
            }
            earlier => may_agree(nth(list, earlier), record),
        }
    })
}

fn first_four(record: &Record) -> u64 {
    u64::from(number(record, 0))
}

fn first_eight(record: &Record) -> u64 {
    u64::from(number(record, 0)) | u64::from(number(record, 4)) << 32
}

/// Whether three lists pass checks 2 to 13 and 16.
fn pass(marks: &[u8], corrections: &[u8], positions: &[u8]) -> bool {
    let lists = [(marks, MAX_MARKS), (corrections, MAX_CORRECTIONS), (positions, MAX_POSITIONS)];
    if lists.iter().any(|(list, most)| list.len() > RECORD_SIZE * most || list.len() % RECORD_SIZE != 0) {
        return false;
    }
    let count = marks.len() / RECORD_SIZE;
    let ticks = match ticks(marks) {
        Some(ticks) => ticks,
        None => return false,
    };
    keys_pass(marks, first_four, |_, _| false)
        && corrections_pass(corrections, &ticks[..count])
        && keys_pass(corrections, first_four, |earlier, later| earlier == later)
        && positions_pass(positions, count as u32)
        && keys_pass(positions, first_eight, |_, _| false)
}

/// Makes a day file of three lists.
pub fn make(marks: &[u8], corrections: &[u8], positions: &[u8], out: &mut [u8]) -> Result<usize, Refusal> {
    match pass(marks, corrections, positions) {
        true => plain::write_file([marks, corrections, positions], out),
        false => plain::make(marks, corrections, positions, out),
    }
}
