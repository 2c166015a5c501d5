//! What the single words of a line mean. What is wrong with a word is said with what to write in its place.

use crate::quoted::{contract_of, digits, told};

/// The mark that a correction or a position names: by its index, or by its contract.
#[derive(Clone, Copy, Debug, PartialEq, Eq)]
pub enum Named {
    Index(u32),
    Contract([u8; 4]),
}

/// A whole number that fits its field.
fn number<T: TryFrom<i64>>(word: &str, what: &str, least: i64, most: i64) -> Result<T, String> {
    let unsigned = if least < 0 { word.strip_prefix('-').unwrap_or(word) } else { word };
    let decimal = unsigned.bytes().all(|byte| byte.is_ascii_digit());
    let number = if decimal { word.parse::<i64>().ok() } else { None };
    number
        .filter(|number| (least..=most).contains(number))
        .and_then(|number| T::try_from(number).ok())
        .ok_or_else(|| format!("{} is no {what}: write a whole number from {least} to {most}", told(word)))
}

pub fn month_of(word: &str) -> Result<u8, String> {
    number(word, "month", 0, u8::MAX.into())
}

pub fn year_of(word: &str) -> Result<u8, String> {
    number(word, "year (27 stands for 2027)", 0, u8::MAX.into())
}

pub fn account_of(word: &str) -> Result<u32, String> {
    number(word, "account", 0, u32::MAX.into())
}

pub fn correction_number_of(word: &str) -> Result<u32, String> {
    number(word, "number of a correction", 0, u32::MAX.into())
}

pub fn lots_of(word: &str) -> Result<i32, String> {
    number(word, "number of lots", i32::MIN.into(), i32::MAX.into())
}

/// A number of the header, or nothing for the one that the layout has.
pub fn header_number_of(word: &str) -> Result<Option<u32>, String> {
    match word {
        "_" => Ok(None),
        _ => number(word, "header number, nor _", 0, u32::MAX.into()).map(Some),
    }
}

/// `@4`, or a contract's name. A bare index is turned away, since it looks like any other number.
pub fn named_of(word: &str) -> Result<Named, String> {
    if let Some(index) = word.strip_prefix('@') {
        let no_index = || format!("{} is no index of a mark: write @ and a whole number from 0 to {}", told(word), u32::MAX);
        return digits(index).map(Named::Index).ok_or_else(no_index);
    }
    if digits(word).is_some() {
        return Err(format!("{word} is a bare index: write @{word}, or the contract's name, as in XT/3/27"));
    }
    contract_of(word).map(Named::Contract)
}

/// The bytes of pairs of hexadecimal digits.
pub fn hexadecimal_of(word: &str) -> Result<Vec<u8>, String> {
    let digits: Option<Vec<u8>> = word.chars().map(|c| c.to_digit(16).map(|digit| digit as u8)).collect();
    digits
        .filter(|digits| digits.len() % 2 == 0)
        .map(|digits| digits.chunks_exact(2).map(|pair| 16 * pair[0] + pair[1]).collect())
        .ok_or_else(|| format!("{} is no row of bytes: write two hexadecimal digits for each, as in 00 ff", told(word)))
}
