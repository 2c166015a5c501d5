//! The settlement in aligned columns, for people.

use super::settlement::{Resent, Row, Settlement};
use crate::money::{dollars_text, whole_text};
use crate::products::Currency;
use crate::quoted::{contract_text, price_text};
use std::iter;

const COLUMNS: usize = 9;
const HEADING: [&str; COLUMNS] =
    ["account", "contract", "lots", "previous", "final", "correction", "change of one lot", "amount", ""];

/// The contract and the currency stand at the left of their columns, all numbers at the right.
const AT_LEFT: [bool; COLUMNS] = [false, true, false, false, false, false, false, false, true];

/// What stands in the columns, or nothing for an empty line.
type Line = Option<[String; COLUMNS]>;

/// All of it: the positions by account, the totals, and the corrections that were sent again.
pub fn table_text(settlement: &Settlement) -> String {
    let prices = settlement.rows.iter().flat_map(|row| [row.prices.previous, row.prices.final_price]);
    let decimals = prices.map(decimals_of).max().unwrap_or(0);
    let mut lines: Vec<Line> = vec![Some(HEADING.map(String::from))];
    for account in settlement.accounts() {
        let numbers = iter::once(account.number.to_string()).chain(iter::repeat(String::new()));
        let rows = account.rows.iter().zip(numbers);
        lines.extend(rows.map(|(row, number)| position_line(row, number, decimals)));
        lines.extend(account.subtotals().into_iter().map(|subtotal| sum_line("", "subtotal", subtotal)));
        lines.push(None);
    }
    lines.push(sum_line("total", "", (Currency::Aud, settlement.settled.aud)));
    lines.push(sum_line("total", "", (Currency::Nzd, settlement.settled.nzd)));
    format!("{}\n{}", aligned(&lines), resent_text(settlement.settled.resent, &settlement.resent))
}

fn position_line(row: &Row, account: String, decimals: usize) -> Line {
    Some([
        account,
        contract_text(&row.mark),
        whole_text(row.position.lots.into()),
        pointed(row.prices.previous, decimals),
        pointed(row.prices.final_price, decimals),
        row.prices.corrected_by.map_or_else(|| "-".to_string(), |number| number.to_string()),
        dollars_text(row.prices.change),
        dollars_text(row.amount),
        row.currency.name().to_string(),
    ])
}

fn sum_line(first: &str, second: &str, (currency, cents): (Currency, i64)) -> Line {
    let mut line: [String; COLUMNS] = Default::default();
    line[0] = first.to_string();
    line[1] = second.to_string();
    line[7] = dollars_text(cents);
    line[8] = currency.name().to_string();
    Some(line)
}

fn decimals_of(price: u32) -> usize {
    let text = price_text(price);
    text.find('.').map_or(0, |point| text.len() - point - 1)
}

/// A price with spaces in place of further decimals, so that the points stand under each other.
fn pointed(price: u32, decimals: usize) -> String {
    let missing = decimals - decimals_of(price);
    price_text(price) + &" ".repeat(missing)
}

/// The lines with their columns under each other.
fn aligned(lines: &[Line]) -> String {
    let width_of = |column: usize| lines.iter().flatten().map(|line| line[column].len()).max().unwrap_or(0);
    let widths: [usize; COLUMNS] = std::array::from_fn(width_of);
    let text_of = |line: &Line| line.as_ref().map_or_else(String::new, |cells| placed(cells, &widths)) + "\n";
    lines.iter().map(text_of).collect()
}

fn placed(line: &[String; COLUMNS], widths: &[usize; COLUMNS]) -> String {
    let cells = line.iter().zip(widths).zip(AT_LEFT).map(|((cell, width), at_left)| match at_left {
        true => format!("{cell:<width$}"),
        false => format!("{cell:>width$}"),
    });
    cells.collect::<Vec<_>>().join("  ").trim_end().to_string()
}

/// How many corrections bear a number that an earlier one bears, and which numbers those are.
fn resent_text(count: usize, resent: &[Resent]) -> String {
    let mut text = match count {
        0 => "no correction was sent again\n".to_string(),
        1 => "1 correction was sent again\n".to_string(),
        _ => format!("{} corrections were sent again\n", whole_text(count as i64)),
    };
    for Resent { number, again } in resent {
        let times = if *again == 1 { "once".to_string() } else { format!("{again} times") };
        text.push_str(&format!("  number {number}: {times}\n"));
    }
    text
}
