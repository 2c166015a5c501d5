//! The fields of a record, and why a check refuses one of them. A reason says of the record what the check's words say of all.

use crate::money::whole_text;
use crate::products::{product, YEAR_LIMIT};
use crate::quoted::{code_spelled, code_text, contract_text, price_text};
use citronreef::records::{Correction, Mark, Position, MAX_LOTS, PRICE_LIMIT};

/// A field with what it holds, and what is wrong with it.
pub struct Field {
    pub name: &'static str,
    pub holds: String,
    pub why: Option<String>,
}

fn field(name: &'static str, holds: String, why: Option<String>) -> Field {
    Field { name, holds, why }
}

const SAME: &str = "the same in both";
const DIFFERS: &str = "differs";
const ABOVE_LIMIT: &str = "above 100.0000";

/// The fields of a mark that one of the checks 4 to 7 refuses, or of one of the two that check 8 does.
pub fn mark_fields(mark: &Mark, check: u32) -> Vec<Field> {
    let same = (check == 8).then(|| SAME.to_string());
    let code = (check == 4).then(|| "not in the product table".to_string());
    let price = |units| match check {
        6 => (units > PRICE_LIMIT).then(|| ABOVE_LIMIT.to_string()),
        7 => off_tick(mark, units),
        _ => None,
    };
    vec![
        field("code", code_spelled(mark.code), code.or_else(|| same.clone())),
        field("month", mark.month.to_string(), no_month(mark, check).or_else(|| same.clone())),
        field("year", mark.year.to_string(), no_year(mark, check).or(same)),
        field("previous price", price_text(mark.previous), price(mark.previous)),
        field("today's price", price_text(mark.today), price(mark.today)),
    ]
}

fn no_month(mark: &Mark, check: u32) -> Option<String> {
    let product = product(mark.code).filter(|product| check == 5 && !product.months.contains(&mark.month))?;
    let months: Vec<String> = product.months.iter().map(u8::to_string).collect();
    Some(format!("not one of {}'s months: {}", code_text(mark.code), months.join(", ")))
}

fn no_year(mark: &Mark, check: u32) -> Option<String> {
    (check == 5 && mark.year > YEAR_LIMIT).then(|| format!("above {YEAR_LIMIT}"))
}

fn off_tick(mark: &Mark, price: u32) -> Option<String> {
    let product = product(mark.code).filter(|product| price % product.tick != 0)?;
    Some(format!("no multiple of {}, the tick of {}", price_text(product.tick), code_text(mark.code)))
}

/// The fields of a correction that check 9 or 10 refuses. Of two that clash, `other` is the one beside this one.
pub fn correction_fields(correction: &Correction, marks: &[Mark], check: u32, other: Option<&Correction>) -> Vec<Field> {
    let number = other.map(|_| SAME.to_string());
    let mark = other.filter(|other| other.mark != correction.mark).map(|_| DIFFERS.to_string());
    let price = other.filter(|other| other.price != correction.price).map(|_| DIFFERS.to_string());
    vec![
        field("number", correction.number.to_string(), number),
        field("mark", named(correction.mark, marks), mark.or_else(|| (check == 9).then(|| no_mark(marks)))),
        field("price", price_text(correction.price), price.or_else(|| bad_price(correction, marks, check))),
    ]
}

fn bad_price(correction: &Correction, marks: &[Mark], check: u32) -> Option<String> {
    let mark = marks.get(correction.mark as usize).filter(|_| check == 10)?;
    match correction.price > PRICE_LIMIT {
        true => Some(ABOVE_LIMIT.to_string()),
        false => off_tick(mark, correction.price),
    }
}

/// The fields of a position that check 12 or 13 refuses, or of one of the two that check 16 does.
pub fn position_fields(position: &Position, marks: &[Mark], check: u32) -> Vec<Field> {
    let same = (check == 16).then(|| SAME.to_string());
    let mark = (check == 12).then(|| no_mark(marks));
    vec![
        field("account", position.account.to_string(), same.clone()),
        field("mark", named(position.mark, marks), mark.or(same)),
        field("lots", whole_text(position.lots.into()), bad_lots(position.lots, check)),
    ]
}

fn bad_lots(lots: i32, check: u32) -> Option<String> {
    let limit = whole_text(MAX_LOTS.into());
    match lots {
        _ if check != 13 => None,
        0 => Some("no lots".to_string()),
        _ if lots < -MAX_LOTS => Some(format!("below -{limit}")),
        _ if lots > MAX_LOTS => Some(format!("above {limit}")),
        _ => None,
    }
}

/// A mark's index, and its contract where there is such a mark.
fn named(index: u32, marks: &[Mark]) -> String {
    match marks.get(index as usize) {
        Some(mark) => format!("{index}, {}", contract_text(mark)),
        None => index.to_string(),
    }
}

fn no_mark(marks: &[Mark]) -> String {
    match marks.len() {
        0 => "the file has no marks".to_string(),
        1 => "the file has one mark, with index 0".to_string(),
        count => format!("the file has {count} marks, with indices 0 to {}", count - 1),
    }
}
