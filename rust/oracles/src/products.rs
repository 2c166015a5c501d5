//! The product table and the value of one contract, in whole numbers of 64 bits: written from document 01, "Prices and
//! products" and "Value of one contract".

use citronreef::Refusal;

pub const PRICE_LIMIT: u32 = 1_000_000;
pub const YEAR_LIMIT: u8 = 99;

/// The ladder's units in 1: eight decimals.
pub const SCALE: u64 = 100_000_000;

#[derive(Clone, Copy, Debug, PartialEq, Eq)]
pub enum Currency {
    Aud,
    Nzd,
}

#[derive(Clone, Copy, Debug, PartialEq, Eq)]
pub enum Terms {
    /// A bank bill of 1,000,000 face and 90 days.
    Bill,
    /// Cents for each 0.01 of the price.
    CashRate { cents: u64 },
    /// Face in dollars, half-yearly coupon on 100 of face, number of half years.
    Bond { face: u64, coupon: u64, halves: u32 },
}

#[derive(Clone, Copy, Debug, PartialEq, Eq)]
pub struct Product {
    pub code: [u8; 2],
    pub terms: Terms,
    pub currency: Currency,
    pub tick: u32,
    pub months: &'static [u8],
    /// The accuracy figure, in thousandths of a cent for each lot.
    pub accuracy: u64,
}

const QUARTERS: &[u8] = &[3, 6, 9, 12];
const EVERY_MONTH: &[u8] = &[1, 2, 3, 4, 5, 6, 7, 8, 9, 10, 11, 12];

#[rustfmt::skip]
pub static PRODUCTS: [Product; 6] = [
    Product { code: *b"IR", terms: Terms::Bill, currency: Currency::Aud, tick: 100, months: QUARTERS, accuracy: 1_000 },
    Product { code: *b"BB", terms: Terms::Bill, currency: Currency::Nzd, tick: 100, months: QUARTERS, accuracy: 1_000 },
    Product { code: *b"IB", terms: Terms::CashRate { cents: 2_466 }, currency: Currency::Aud, tick: 50, months: EVERY_MONTH, accuracy: 0 },
    Product { code: *b"YT", terms: Terms::Bond { face: 100_000, coupon: 3, halves: 6 }, currency: Currency::Aud, tick: 50, months: QUARTERS, accuracy: 2_208 },
    Product { code: *b"XT", terms: Terms::Bond { face: 100_000, coupon: 3, halves: 20 }, currency: Currency::Aud, tick: 50, months: QUARTERS, accuracy: 6_100 },
    Product { code: *b"XX", terms: Terms::Bond { face: 50_000, coupon: 2, halves: 40 }, currency: Currency::Aud, tick: 50, months: QUARTERS, accuracy: 6_550 },
];

pub fn product(code: [u8; 2]) -> Option<&'static Product> {
    PRODUCTS.iter().find(|product| product.code == code)
}

/// a / b to the nearest whole number, a half going up.
fn rounded(a: u64, b: u64) -> u64 {
    (a + b / 2) / b
}

/// The yield, in units of 0.0001 per cent.
pub fn yield_at(price: u32) -> u64 {
    u64::from(PRICE_LIMIT - price)
}

fn bracket_at(coupon: u64, halves: u32, price: u32) -> u64 {
    let first = rounded(200_000_000_000_000, 2_000_000 + yield_at(price));
    let mut power = first;
    let mut sum = first;
    for _ in 1..halves {
        power = rounded(power * first, SCALE);
        sum += power;
    }
    coupon * sum + 100 * power
}

impl Product {
    /// The value of one contract in cents, at a price within the limit.
    pub fn value_at(&self, price: u32) -> u64 {
        match self.terms {
            Terms::Bill => rounded(3_650_000_000_000_000, 36_500_000 + 9 * yield_at(price)),
            Terms::CashRate { cents } => rounded(cents * u64::from(price), 100),
            Terms::Bond { face, coupon, halves } => rounded(bracket_at(coupon, halves, price) * face, SCALE),
        }
    }

    pub fn is_off_tick(&self, price: u32) -> bool {
        price % self.tick != 0
    }
}

/// Checks 4, 6 and 7 of a call on one contract.
fn checked(code: [u8; 2], price: u32) -> Result<&'static Product, Refusal> {
    let product = product(code).ok_or(Refusal::of(4))?;
    if price > PRICE_LIMIT {
        return Err(Refusal::of(6));
    }
    if product.is_off_tick(price) {
        return Err(Refusal::of(7));
    }
    Ok(product)
}

/// The value of one contract in cents.
pub fn value(code: [u8; 2], price: u32) -> Result<u64, Refusal> {
    Ok(checked(code, price)?.value_at(price))
}

/// The value at the price one tick higher, minus the value.
pub fn tick_value(code: [u8; 2], price: u32) -> Result<u64, Refusal> {
    let product = checked(code, price)?;
    let next = price + product.tick;
    if next > PRICE_LIMIT {
        return Err(Refusal::of(15));
    }
    Ok(product.value_at(next) - product.value_at(price))
}

/// The bracket of a bond, in units of 10^-8. A code that is no bond is refused with 4, whatever the price.
pub fn bracket(code: [u8; 2], price: u32) -> Result<u64, Refusal> {
    match product(code).map(|product| product.terms) {
        Some(Terms::Bond { coupon, halves, .. }) => {
            checked(code, price)?;
            Ok(bracket_at(coupon, halves, price))
        }
        _ => Err(Refusal::of(4)),
    }
}
