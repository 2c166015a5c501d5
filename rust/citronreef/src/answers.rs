//! The answers of the calls, and the checks in words.

use std::error::Error;
use std::fmt;

/// A call that is refused: the number of the check, and the index of the record within its section.
///
/// ```
/// let refusal = citronreef::value(*b"IR", 950_050).unwrap_err();
/// assert_eq!(refusal.to_string(), "refused 7 at 0: a mark's price is not a multiple of its product's tick");
/// ```
#[derive(Clone, Copy, Debug, PartialEq, Eq)]
pub struct Refusal {
    /// The number of the check.
    pub number: u32,
    /// The first record of the check's section where its condition holds; 0 where it looks at no single record. Where a mark is
    /// asked for that the file does not have, it is the one asked for.
    pub index: usize,
}

/// What each check refuses, by its number from 1.
const WORDS: [&str; 17] = [
    "the file is shorter than 24 bytes",
    "a count is above its limit",
    "an offset or the file's length differs from the layout",
    "a mark's code is not in the product table",
    "a mark's month is not one of its product's months, or its year is above 99",
    "a mark's price is above 100.0000",
    "a mark's price is not a multiple of its product's tick",
    "two marks agree in code, month and year",
    "a correction names no mark",
    "a correction's price is above 100.0000, or is not a multiple of its mark's tick",
    "two corrections agree in number but differ in mark or price",
    "a position names no mark",
    "a position's lots are 0, below -1,000,000 or above 1,000,000",
    "the amounts slice has fewer places than the file has positions",
    "a tick value is asked for where the price one tick higher is above 100.0000",
    "two positions agree in account and mark",
    "the lent buffer is shorter than the file",
];

impl Refusal {
    /// A refusal that names no record.
    ///
    /// ```
    /// use citronreef::{value, Refusal};
    ///
    /// assert_eq!(value(*b"ZZ", 950_000), Err(Refusal::of(4)));
    /// ```
    pub fn of(number: u32) -> Refusal {
        Refusal { number, index: 0 }
    }

    /// The condition of the check, in words. They go by the number alone; [`make`](crate::make), [`bracket`](crate::bracket) and
    /// [`mark`](crate::mark) say what else 3, 4 and 12 mean there.
    ///
    /// ```
    /// let refusal = citronreef::settle(&[], &mut []).unwrap_err();
    /// assert_eq!(refusal.words(), "the file is shorter than 24 bytes");
    /// ```
    pub fn words(&self) -> &'static str {
        words(self.number)
    }
}

/// The condition of the check with this number, in words; nothing where no check has it.
///
/// ```
/// assert_eq!(citronreef::words(12), "a position names no mark");
/// assert_eq!(citronreef::words(18), "");
/// ```
pub fn words(number: u32) -> &'static str {
    (number as usize).checked_sub(1).and_then(|place| WORDS.get(place)).copied().unwrap_or("")
}

impl fmt::Display for Refusal {
    fn fmt(&self, out: &mut fmt::Formatter) -> fmt::Result {
        write!(out, "refused {} at {}: {}", self.number, self.index, self.words())
    }
}

impl Error for Refusal {}

/// What is said of one mark of a day file.
#[derive(Clone, Copy, Debug, PartialEq, Eq)]
pub struct MarkPrices {
    /// The previous price, in units of 0.0001.
    pub previous: u32,
    /// The final price.
    pub final_price: u32,
    /// The number of the correction that decides the final price; none where today's price stands.
    pub corrected_by: Option<u32>,
    /// The change in value of one contract from the previous to the final price, in cents.
    pub change: i64,
}

/// The answer to an accepted day file.
#[derive(Clone, Copy, Debug, PartialEq, Eq)]
pub struct Settled {
    /// How many positions the file has.
    pub positions: usize,
    /// The total in Australian cents.
    pub aud: i64,
    /// The total in New Zealand cents.
    pub nzd: i64,
    /// How many corrections bear a number that an earlier one bears.
    pub resent: usize,
}
