//! The sheet of a day file as text, written from document 01.

use crate::plain;
use crate::products::{product, Currency};
use citronreef::records::Day;
use std::fmt::Write;

fn currency(code: [u8; 2]) -> &'static str {
    match product(code).expect("a listed code").currency {
        Currency::Aud => "AUD",
        Currency::Nzd => "NZD",
    }
}

/// A line for each position: account, code, month, year, amount in cents, currency.
fn write_positions(sheet: &mut String, day: &Day, amounts: &[i64]) -> std::fmt::Result {
    for (position, amount) in day.positions.iter().zip(amounts) {
        let mark = &day.marks[position.mark as usize];
        let [first, second] = mark.code.map(char::from);
        let (account, month, year) = (position.account, mark.month, mark.year);
        writeln!(sheet, "{account} {first}{second} {month} {year} {amount} {}", currency(mark.code))?;
    }
    Ok(())
}

/// Settles a day file into the amounts, and puts what the sheet program prints for it after the text.
pub fn write_sheet(sheet: &mut String, file: &[u8], amounts: &mut [i64]) -> std::fmt::Result {
    let settled = match plain::settle(file, amounts) {
        Ok(settled) => settled,
        Err(refusal) => return writeln!(sheet, "refused {} at {}", refusal.number, refusal.index),
    };
    let day = plain::read(file).expect("a file that was settled");
    write_positions(sheet, &day, amounts)?;
    writeln!(sheet, "total AUD {}\ntotal NZD {}\nresent {}", settled.aud, settled.nzd, settled.resent)
}

/// What the sheet program prints for a day file.
pub fn sheet(file: &[u8], amounts: &mut [i64]) -> String {
    let mut sheet = String::new();
    write_sheet(&mut sheet, file, amounts).expect("a text takes every line");
    sheet
}
