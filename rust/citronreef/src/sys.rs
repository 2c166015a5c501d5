//! The functions of the static library, as include/citronreef.h declares them. A slice is a pointer and then a length.

use crate::answers::{MarkPrices, Refusal, Settled};

#[repr(C)]
pub struct Quote {
    refused: u64,
    number: u64,
}

#[repr(C)]
pub struct Outcome {
    refused: u64,
    index: u64,
    positions: u64,
    aud: i64,
    nzd: i64,
    resent: u64,
}

#[repr(C)]
pub struct MarkOutcome {
    refused: u64,
    index: u64,
    previous: u64,
    final_price: u64,
    corrected: u64,
    number: u64,
    change: i64,
}

#[repr(C)]
pub struct Found {
    found: u64,
    index: u64,
}

#[repr(C)]
pub struct Made {
    refused: u64,
    index: u64,
    length: u64,
}

extern "C" {
    pub fn citronreef_value(first: u8, second: u8, price: u32) -> Quote;
    pub fn citronreef_tick_value(first: u8, second: u8, price: u32) -> Quote;
    pub fn citronreef_bracket(first: u8, second: u8, price: u32) -> Quote;
    pub fn citronreef_settle(file: *const u8, file_length: usize, amounts: *mut i64, places: usize) -> Outcome;
    pub fn citronreef_mark(file: *const u8, file_length: usize, mark: usize) -> MarkOutcome;
    pub fn citronreef_find(file: *const u8, file_length: usize, check: u32) -> Found;
    pub fn citronreef_sheet(
        file: *const u8,
        file_length: usize,
        amounts: *mut i64,
        places: usize,
        out: *mut u8,
        room: usize,
    ) -> usize;
    pub fn citronreef_make(
        marks: *const u8,
        marks_length: usize,
        corrections: *const u8,
        corrections_length: usize,
        positions: *const u8,
        positions_length: usize,
        out: *mut u8,
        room: usize,
    ) -> Made;
}

impl Quote {
    pub fn answer(self) -> Result<u64, Refusal> {
        match self.refused {
            0 => Ok(self.number),
            number => Err(Refusal::of(number as u32)),
        }
    }
}

impl Outcome {
    pub fn answer(self) -> Result<Settled, Refusal> {
        match self.refused {
            0 => Ok(Settled {
                positions: self.positions as usize,
                aud: self.aud,
                nzd: self.nzd,
                resent: self.resent as usize,
            }),
            number => Err(Refusal { number: number as u32, index: self.index as usize }),
        }
    }
}

impl MarkOutcome {
    pub fn answer(self) -> Result<MarkPrices, Refusal> {
        match self.refused {
            0 => Ok(MarkPrices {
                previous: self.previous as u32,
                final_price: self.final_price as u32,
                corrected_by: (self.corrected == 1).then_some(self.number as u32),
                change: self.change,
            }),
            number => Err(Refusal { number: number as u32, index: self.index as usize }),
        }
    }
}

impl Found {
    pub fn answer(self) -> Option<usize> {
        (self.found == 1).then_some(self.index as usize)
    }
}

impl Made {
    pub fn answer(self) -> Result<usize, Refusal> {
        match self.refused {
            0 => Ok(self.length as usize),
            number => Err(Refusal { number: number as u32, index: self.index as usize }),
        }
    }
}
