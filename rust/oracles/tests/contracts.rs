//! The calls on one contract against the independent build, and the figures of document 01.

use citronreef::{bracket, tick_value, value, Refusal};
use oracles::products::{self, PRICE_LIMIT, PRODUCTS};
use oracles::random::Random;

fn assert_agree(code: [u8; 2], price: u32) {
    assert_eq!(value(code, price), products::value(code, price), "value of {code:?} at {price}");
    assert_eq!(tick_value(code, price), products::tick_value(code, price), "tick value of {code:?} at {price}");
    assert_eq!(bracket(code, price), products::bracket(code, price), "bracket of {code:?} at {price}");
}

#[test]
fn every_price_within_the_limit_and_on_the_tick() {
    for product in &PRODUCTS {
        for price in (0..=PRICE_LIMIT).step_by(product.tick as usize) {
            assert_agree(product.code, price);
        }
    }
}

#[test]
fn prices_around_the_limit_and_the_largest() {
    for product in &PRODUCTS {
        let around = PRICE_LIMIT - 200..PRICE_LIMIT + 300;
        around.chain(u32::MAX - 300..=u32::MAX).for_each(|price| assert_agree(product.code, price));
    }
}

#[test]
fn every_code() {
    for code in 0..=u16::MAX {
        [0, 950_000, 950_025, PRICE_LIMIT + 1].iter().for_each(|&price| assert_agree(code.to_le_bytes(), price));
    }
}

#[test]
fn random_codes_and_prices() {
    let mut random = Random::new(20_180_301);
    for _ in 0..200_000 {
        let product = &PRODUCTS[random.below(PRODUCTS.len())];
        assert_agree(product.code, random.number() as u32 >> random.below(32));
        assert_agree((random.number() as u16).to_le_bytes(), random.below(1_100_000) as u32);
    }
}

#[test]
fn figures_of_document_01() {
    assert_eq!(value(*b"IR", 950_000), Ok(98_782_138));
    assert_eq!(value(*b"IR", 950_100), Ok(98_784_544));
    assert_eq!(tick_value(*b"IR", 950_000), Ok(2_406));
    assert_eq!(value(*b"IR", 1_000_000), Ok(100_000_000));
    assert_eq!(tick_value(*b"IR", 1_000_000), Err(Refusal::of(15)));
    assert_eq!(value(*b"IR", 0), Ok(80_219_780));
    assert_eq!(value(*b"IB", 950_000), Ok(23_427_000));
    assert_eq!(tick_value(*b"IB", 950_000), Ok(1_233));
    assert_eq!(bracket(*b"YT", 940_000), Ok(10_000_000_153));
    assert_eq!(value(*b"YT", 940_000), Ok(10_000_000));
    assert_eq!(value(*b"YT", 1_000_000), Ok(11_800_000));
    assert_eq!(value(*b"XT", 1_000_000), Ok(16_000_000));
    assert_eq!(value(*b"XX", 1_000_000), Ok(9_000_000));
    assert_eq!(value(*b"IR", 950_050), Err(Refusal::of(7)));
    assert_eq!(value(*b"IR", 1_000_001), Err(Refusal::of(6)));
    assert_eq!(bracket(*b"IR", 1_000_001), Err(Refusal::of(4)));
}
