//! What the command says of a product: its currency, tick and months. The library judges and values by its own table; the tests hold
//! this one to its answers.

pub const YEAR_LIMIT: u8 = 99;

#[derive(Clone, Copy, Debug, PartialEq, Eq)]
pub enum Currency {
    Aud,
    Nzd,
}

impl Currency {
    pub fn name(self) -> &'static str {
        match self {
            Currency::Aud => "AUD",
            Currency::Nzd => "NZD",
        }
    }
}

pub struct Product {
    pub code: [u8; 2],
    pub currency: Currency,
    /// In units of 0.0001.
    pub tick: u32,
    pub months: &'static [u8],
}

const QUARTERS: &[u8] = &[3, 6, 9, 12];
const EVERY_MONTH: &[u8] = &[1, 2, 3, 4, 5, 6, 7, 8, 9, 10, 11, 12];

pub static PRODUCTS: [Product; 6] = [
    Product { code: *b"IR", currency: Currency::Aud, tick: 100, months: QUARTERS },
    Product { code: *b"BB", currency: Currency::Nzd, tick: 100, months: QUARTERS },
    Product { code: *b"IB", currency: Currency::Aud, tick: 50, months: EVERY_MONTH },
    Product { code: *b"YT", currency: Currency::Aud, tick: 50, months: QUARTERS },
    Product { code: *b"XT", currency: Currency::Aud, tick: 50, months: QUARTERS },
    Product { code: *b"XX", currency: Currency::Aud, tick: 50, months: QUARTERS },
];

pub fn product(code: [u8; 2]) -> Option<&'static Product> {
    PRODUCTS.iter().find(|product| product.code == code)
}

#[cfg(test)]
mod tests {
    use super::*;
    use citronreef::records::{Day, Mark, Position, PRICE_LIMIT};
    use citronreef::{settle, value};

    /// The answer to a file of one mark and ten lots of it, which rises by twice its tick or by the tick of any product.
    fn settled(code: [u8; 2], month: u8, year: u8) -> Result<citronreef::Settled, citronreef::Refusal> {
        let mark = Mark { code, month, year, previous: 950_000, today: 950_100 };
        let day =
            Day { marks: vec![mark], corrections: vec![], positions: vec![Position { account: 1, mark: 0, lots: 10 }] };
        settle(&day.bytes(), &mut [0])
    }

    #[test]
    fn codes_are_the_librarys() {
        for first in 0..=255 {
            for second in 0..=255 {
                let code = [first, second];
                assert_eq!(value(code, 950_000).is_ok(), product(code).is_some(), "{code:?}");
            }
        }
    }

    #[test]
    fn months_years_and_currencies_are_the_librarys() {
        for product in &PRODUCTS {
            for month in 0..=255 {
                let is_month = settled(product.code, month, 27).map_err(|refusal| refusal.number) != Err(5);
                assert_eq!(is_month, product.months.contains(&month));
            }
            for year in 0..=255 {
                assert_eq!(settled(product.code, 3, year).is_ok(), year <= YEAR_LIMIT);
            }
            let totals = settled(product.code, 3, 27).expect("a mark that passes");
            assert_eq!(
                (totals.aud > 0, totals.nzd > 0),
                (product.currency == Currency::Aud, product.currency == Currency::Nzd)
            );
        }
    }

    #[test]
    fn ticks_and_the_price_limit_are_the_librarys() {
        for product in &PRODUCTS {
            for price in 0..=PRICE_LIMIT {
                assert_eq!(value(product.code, price).is_ok(), price % product.tick == 0);
            }
            assert_eq!(value(product.code, PRICE_LIMIT + 1).map_err(|refusal| refusal.number), Err(6));
        }
    }
}
