//! The settlement of an accepted day file. Prices, changes, amounts, totals and the resent count are the library's answers; which positions
//! belong to an account, their subtotals and the numbers that were sent again are worked out here.

use crate::day::day_of;
use crate::products::{product, Currency};
use citronreef::records::{Correction, Mark, Position, MAX_POSITIONS};
use citronreef::{MarkPrices, Refusal, Settled};
use std::collections::HashMap;

/// A position with what is said of its mark.
pub struct Row {
    pub position: Position,
    pub mark: Mark,
    pub prices: MarkPrices,
    pub amount: i64,
    pub currency: Currency,
}

/// A correction's number that came again, and how often it did.
pub struct Resent {
    pub number: u32,
    pub again: usize,
}

pub struct Settlement {
    /// In the order of the file.
    pub rows: Vec<Row>,
    pub settled: Settled,
    /// In the order in which each came the second time.
    pub resent: Vec<Resent>,
}

/// The positions of one account, in the order of the file.
pub struct Account<'a> {
    pub number: u32,
    pub rows: Vec<&'a Row>,
}

impl Settlement {
    /// The settlement of a file, or its refusal.
    pub fn of(file: &[u8]) -> Result<Settlement, Refusal> {
        let mut amounts = vec![0; MAX_POSITIONS];
        let settled = citronreef::settle(file, &mut amounts)?;
        let day = day_of(file);
        let prices = (0..day.marks.len()).map(|index| citronreef::mark(file, index)).collect::<Result<Vec<_>, _>>()?;
        let rows = day.positions.iter().zip(amounts).map(|(position, amount)| {
            let mark = day.marks[position.mark as usize];
            let currency = product(mark.code).map_or(Currency::Aud, |product| product.currency);
            Row { position: *position, mark, prices: prices[position.mark as usize], amount, currency }
        });
        Ok(Settlement { rows: rows.collect(), settled, resent: resent(&day.corrections) })
    }

    /// The accounts, in the order of their first positions.
    pub fn accounts(&self) -> Vec<Account<'_>> {
        let mut places = HashMap::new();
        let mut accounts: Vec<Account> = Vec::new();
        for row in &self.rows {
            let number = row.position.account;
            let place = *places.entry(number).or_insert(accounts.len());
            if place == accounts.len() {
                accounts.push(Account { number, rows: Vec::new() });
            }
            accounts[place].rows.push(row);
        }
        accounts
    }
}

impl Account<'_> {
    /// The sum of the amounts in each currency that the account has positions in, Australian first.
    pub fn subtotals(&self) -> Vec<(Currency, i64)> {
        let of = |currency| {
            let mut amounts = self.rows.iter().filter(|row| row.currency == currency).map(|row| row.amount).peekable();
            amounts.peek().is_some().then(|| (currency, amounts.sum()))
        };
        [Currency::Aud, Currency::Nzd].into_iter().filter_map(of).collect()
    }
}

/// The numbers that come more than once.
fn resent(corrections: &[Correction]) -> Vec<Resent> {
    let mut places: HashMap<u32, Option<usize>> = HashMap::new();
    let mut resent: Vec<Resent> = Vec::new();
    for Correction { number, .. } in corrections {
        match places.get(number) {
            None => {
                places.insert(*number, None);
            }
            Some(None) => {
                places.insert(*number, Some(resent.len()));
                resent.push(Resent { number: *number, again: 1 });
            }
            Some(Some(place)) => resent[*place].again += 1,
        }
    }
    resent
}
