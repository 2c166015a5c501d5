//! Settles into a slice with guard values around it.
#![allow(dead_code)]

use citronreef::{Refusal, Settled};
use oracles::{hashed, plain};

/// A settlement of a file into a slice of amounts.
pub type Settle = fn(&[u8], &mut [i64]) -> Result<Settled, Refusal>;

const GUARDS: usize = 8;

/// What a place holds before the settlement: a number of its own, which is no amount.
fn guard(place: usize) -> i64 {
    i64::MIN + 7_919 * place as i64
}

/// The answer to a file, and what its places hold afterwards. Guards before and after the slice must stay, and so must
/// everything that the answer gives no leave to write: all places after a refusal, those from N on after a settlement.
pub fn settled_into(settle: Settle, file: &[u8], places: usize) -> (Result<Settled, Refusal>, Vec<i64>) {
    let mut memory: Vec<i64> = (0..places + 2 * GUARDS).map(guard).collect();
    let answer = settle(file, &mut memory[GUARDS..GUARDS + places]);
    let written = answer.map_or(0, |settled| settled.positions);
    assert!(written <= places, "more amounts than places");
    let untouched = (0..GUARDS).chain(GUARDS + written..memory.len());
    for place in untouched {
        assert_eq!(memory[place], guard(place), "place {place} of {places} with {GUARDS} guards on each side");
    }
    (answer, memory[GUARDS..GUARDS + written].to_vec())
}

/// The answer of the library, which both independent builds give too, with the same amounts.
pub fn agreed(file: &[u8], places: usize) -> Result<Settled, Refusal> {
    let library = settled_into(citronreef::settle, file, places);
    assert_eq!(library, settled_into(plain::settle, file, places), "against plain, {places} places, file {file:?}");
    assert_eq!(library, settled_into(hashed::settle, file, places), "against hashed, {places} places, file {file:?}");
    library.0
}
