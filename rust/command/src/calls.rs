//! `citronreef value`, `tick` and `bracket`: the calls on one contract.

use crate::arguments::Contract;
use crate::ending::{complain, Ended, Ending};
use crate::money::plain_dollars;
use crate::output;
use crate::products::product;
use crate::quoted::{code_spelled, code_text, price_text};
use citronreef::Refusal;

const BRACKET_UNITS: u64 = 100_000_000;

pub fn value(contract: &Contract) -> Ended {
    dollars(contract, citronreef::value(contract.code, contract.price))
}

pub fn tick(contract: &Contract) -> Ended {
    dollars(contract, citronreef::tick_value(contract.code, contract.price))
}

pub fn bracket(contract: &Contract) -> Ended {
    let answer = citronreef::bracket(contract.code, contract.price);
    ended(contract, answer, |units| format!("{}.{:08}\n", units / BRACKET_UNITS, units % BRACKET_UNITS))
}

/// Cents, with the product's currency.
fn dollars(contract: &Contract, answer: Result<u64, Refusal>) -> Ended {
    let currency = product(contract.code).map_or("", |product| product.currency.name());
    ended(contract, answer, |cents| format!("{} {currency}\n", plain_dollars(cents as i64)))
}

fn ended(contract: &Contract, answer: Result<u64, Refusal>, text: impl Fn(u64) -> String) -> Ended {
    match answer {
        Ok(number) => {
            output::write(text(number).as_bytes(), None)?;
            Ok(Ending::Accepted)
        }
        Err(refusal) => {
            complain(&format!("refused {}: {}\n", refusal.number, why(contract, refusal)));
            Ok(Ending::Refused)
        }
    }
}

/// The check's words, and what of this contract meets them. The code of a product that is no bond is in the table all the same.
fn why(contract: &Contract, refusal: Refusal) -> String {
    let (code, price) = (code_text(contract.code), price_text(contract.price));
    let tick = product(contract.code).map_or(0, |product| product.tick);
    let here = match refusal.number {
        4 if tick > 0 => return format!("{code} is no bond, and only a bond has a bracket"),
        4 => format!("the code here is {}", code_spelled(contract.code)),
        7 => format!("the price here is {price}, and the tick of {code} is {}", price_text(tick)),
        15 => format!("one tick above {price} is {}", price_text(contract.price + tick)),
        _ => format!("the price here is {price}"),
    };
    format!("{}; {here}", refusal.words())
}
