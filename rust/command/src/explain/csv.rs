//! The settlement as comma-separated values (RFC 4180, but a line ends with a newline alone): a line for each position, in the order of the
//! file, or one line for a refusal. A field with a comma, a quotation mark or a newline is put into quotation marks.

use super::settlement::{Row, Settlement};
use crate::money::plain_dollars;
use crate::quoted::{code_text, contract_text, price_text};
use citronreef::Refusal;

const HEADING: &str = "account,contract,code,month,year,lots,previous,final,correction,change,amount,currency\n";

pub fn csv_text(settlement: &Settlement) -> String {
    std::iter::once(HEADING.to_string()).chain(settlement.rows.iter().map(line)).collect()
}

fn line(row: &Row) -> String {
    let fields = [
        row.position.account.to_string(),
        contract_text(&row.mark),
        code_text(row.mark.code),
        row.mark.month.to_string(),
        row.mark.year.to_string(),
        row.position.lots.to_string(),
        price_text(row.prices.previous),
        price_text(row.prices.final_price),
        row.prices.corrected_by.map_or_else(String::new, |number| number.to_string()),
        plain_dollars(row.prices.change),
        plain_dollars(row.amount),
        row.currency.name().to_string(),
    ];
    row_of(&fields)
}

/// The one row of a file that is refused: the check's number, the record's index, and the check in words.
pub fn refusal_row(refusal: Refusal) -> String {
    let [number, index] = [refusal.number.to_string(), refusal.index.to_string()];
    row_of(&["refused".to_string(), number, index, refusal.words().to_string()])
}

fn row_of(fields: &[String]) -> String {
    let fields: Vec<String> = fields.iter().map(|field| quoted(field)).collect();
    fields.join(",") + "\n"
}

fn quoted(field: &str) -> String {
    match field.contains([',', '"', '\n', '\r']) {
        true => format!("\"{}\"", field.replace('"', "\"\"")),
        false => field.to_string(),
    }
}
