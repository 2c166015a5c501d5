//! Safe functions over the proved library: the value, tick value and bracket of one contract, the settlement of a day file,
//! what is said of its marks, where a check's condition holds in it, its sheet, and the day file of three lists. The answers are
//! those of document 01.
//!
//! Prices are whole numbers of units of 0.0001, so that 95.01 is 950,100; amounts are whole cents. A call that is refused
//! answers a [`Refusal`]. The functions keep nothing and allocate nothing, and may be called from many threads at once.

#![deny(missing_docs)]

mod answers;
pub mod records;
mod sys;

pub use answers::{words, MarkPrices, Refusal, Settled};
use records::{HEADER_SIZE, MAX_CORRECTIONS, MAX_MARKS, MAX_POSITIONS, RECORD_SIZE};

/// The version of this package, which is also that of the library and its header.
pub const VERSION: &str = env!("CARGO_PKG_VERSION");

/// The value of one contract in cents. The price is in units of 0.0001.
///
/// ```
/// assert_eq!(citronreef::value(*b"IR", 950_000), Ok(98_782_138));
/// assert_eq!(citronreef::value(*b"IR", 950_050).unwrap_err().number, 7);
/// ```
pub fn value(code: [u8; 2], price: u32) -> Result<u64, Refusal> {
    // SAFETY: the function takes numbers only, and answers for all of them.
    unsafe { sys::citronreef_value(code[0], code[1], price) }.answer()
}

/// The value at the price one tick higher, minus the value.
///
/// ```
/// assert_eq!(citronreef::tick_value(*b"IR", 950_000), Ok(2_406));
/// assert_eq!(citronreef::tick_value(*b"IR", 1_000_000).unwrap_err().number, 15);
/// ```
pub fn tick_value(code: [u8; 2], price: u32) -> Result<u64, Refusal> {
    // SAFETY: as in `value`.
    unsafe { sys::citronreef_tick_value(code[0], code[1], price) }.answer()
}

/// The bracket of a bond, in units of 10^-8. Only a bond has one: 4 means here that the code is of no bond, also where the product
/// table has it. The words of a [`Refusal`] go by its number alone and do not say that.
///
/// ```
/// assert_eq!(citronreef::bracket(*b"YT", 940_000), Ok(10_000_000_153));
/// assert!(citronreef::value(*b"IR", 940_000).is_ok());
/// assert_eq!(citronreef::bracket(*b"IR", 940_000).unwrap_err().number, 4);
/// ```
pub fn bracket(code: [u8; 2], price: u32) -> Result<u64, Refusal> {
    // SAFETY: as in `value`.
    unsafe { sys::citronreef_bracket(code[0], code[1], price) }.answer()
}

/// Settles a day file. The amounts of an accepted file stand in the first places of `amounts`, in cents; the places that
/// follow, and after a refusal all places, are left as they were.
///
/// ```
/// use citronreef::records::{Day, Mark, Position};
///
/// let day = Day {
///     marks: vec![Mark { code: *b"IR", month: 3, year: 27, previous: 950_000, today: 950_100 }],
///     corrections: vec![],
///     positions: vec![Position { account: 11, mark: 0, lots: 10 }, Position { account: 12, mark: 0, lots: -4 }],
/// };
/// let mut amounts = [0; 3];
/// let settled = citronreef::settle(&day.bytes(), &mut amounts)?;
/// assert_eq!(amounts, [24_060, -9_624, 0]);
/// assert_eq!((settled.positions, settled.aud, settled.nzd, settled.resent), (2, 14_436, 0, 0));
/// # Ok::<(), citronreef::Refusal>(())
/// ```
pub fn settle(file: &[u8], amounts: &mut [i64]) -> Result<Settled, Refusal> {
    // SAFETY: each pointer comes with the length of its slice, and the slices cannot overlap.
    unsafe { sys::citronreef_settle(file.as_ptr(), file.len(), amounts.as_mut_ptr(), amounts.len()) }.answer()
}

/// The prices of the mark with this index of a day file that passes checks 1 to 13 and 16, the correction that decides, and the
/// change in value of one contract. A file that does not pass is refused as `settle` refuses it; a mark that it does not have is
/// refused with 12, and the index is the one asked for. So 12 has two meanings here: where [`find`] finds 12, a position of the file
/// names no mark, and where it does not, the file has no such mark. The words of a [`Refusal`] go by its number alone and tell of
/// the first.
///
/// ```
/// use citronreef::records::{Correction, Day, Mark};
/// use citronreef::{mark, Refusal};
///
/// let day = Day {
///     marks: vec![Mark { code: *b"IR", month: 3, year: 27, previous: 950_000, today: 950_200 }],
///     corrections: vec![Correction { number: 7, mark: 0, price: 950_100 }],
///     positions: vec![],
/// };
/// let said = mark(&day.bytes(), 0)?;
/// assert_eq!((said.previous, said.final_price), (950_000, 950_100));
/// assert_eq!((said.corrected_by, said.change), (Some(7), 2_406));
/// assert_eq!(mark(&day.bytes(), 1), Err(Refusal { number: 12, index: 1 }));
/// assert_eq!(citronreef::find(&day.bytes(), 12), None);
/// # Ok::<(), Refusal>(())
/// ```
pub fn mark(file: &[u8], mark: usize) -> Result<MarkPrices, Refusal> {
    // SAFETY: the pointer comes with the length of its slice.
    unsafe { sys::citronreef_mark(file.as_ptr(), file.len(), mark) }.answer()
}

/// The first record of a day file where the condition of the check with this number, 1 to 13 or 16, holds; none where it holds at
/// nothing that is looked at, and for a number of no check. Each condition is looked for by itself, so that one may be found that
/// vanishes once an earlier one is mended.
///
/// Not all of every file is looked at: of one that is shorter than 24 bytes only check 1, and of one with a count above its limit
/// only 1 to 3. Otherwise the sections follow one another from byte 24 by the header's counts, whatever its offsets say, as far as
/// the file has whole records.
///
/// ```
/// use citronreef::find;
/// use citronreef::records::{Day, Mark, Position};
///
/// let day = Day {
///     marks: vec![Mark { code: *b"IR", month: 3, year: 27, previous: 950_000, today: 950_050 }],
///     corrections: vec![],
///     positions: [(11, 10), (12, 0), (11, -4)].map(|(account, lots)| Position { account, mark: 0, lots }).to_vec(),
/// };
/// assert_eq!(citronreef::settle(&day.bytes(), &mut [0; 3]).unwrap_err().number, 7);
/// assert_eq!(find(&day.bytes(), 7), Some(0));
/// assert_eq!(find(&day.bytes(), 8), None);
/// assert_eq!(find(&day.bytes(), 13), Some(1));
/// assert_eq!(find(&day.bytes(), 16), Some(2));
/// assert_eq!(find(&day.bytes(), 14), None);
/// // A file that is cut short has one whole position, and that one passes.
/// assert_eq!((find(&day.bytes()[..50], 3), find(&day.bytes()[..50], 13)), (Some(0), None));
/// ```
pub fn find(file: &[u8], check: u32) -> Option<usize> {
    // SAFETY: as in `mark`.
    unsafe { sys::citronreef_find(file.as_ptr(), file.len(), check) }.answer()
}

/// No sheet is longer than this, in bytes.
pub const SHEET_SIZE: usize = 47 * MAX_POSITIONS + 90;

/// Settles a day file as `settle` does, writes its sheet at the start of `out`, and answers the sheet's length; the other bytes
/// of `out` stay. With room for less than `SHEET_SIZE` bytes nothing is written, neither sheet nor amounts, and the answer is 0.
///
/// ```
/// let empty = citronreef::records::Day::default().bytes();
/// let mut out = vec![0; citronreef::SHEET_SIZE];
/// let length = citronreef::write_sheet(&empty, &mut [], &mut out);
/// assert_eq!(&out[..length], b"total AUD 0\ntotal NZD 0\nresent 0\n");
/// ```
pub fn write_sheet(file: &[u8], amounts: &mut [i64], out: &mut [u8]) -> usize {
    let (places, room) = (amounts.len(), out.len());
    // SAFETY: as in `settle`.
    unsafe { sys::citronreef_sheet(file.as_ptr(), file.len(), amounts.as_mut_ptr(), places, out.as_mut_ptr(), room) }
}

/// No day file that is accepted is longer than this, in bytes.
pub const FILE_SIZE: usize = HEADER_SIZE + RECORD_SIZE * (MAX_MARKS + MAX_CORRECTIONS + MAX_POSITIONS);

/// Makes a day file of three lists, each lent as the bytes of its records, 12 for each: writes it at the start of `out`, and answers
/// its length. The other bytes of `out` stay; a refusal writes nothing. The file's sections are the three lists, and the lists of a
/// file that passes make that file. `FILE_SIZE` bytes are enough for every file.
///
/// The checks are, in this order: 2, where a list has more whole records than a file may have; 3, where a list is not whole records;
/// 4 to 13 and 16, as of a file that has these lists; and 17, where `out` is shorter than the file. The index of 2, 3 and 17 is 0. The
/// words of a [`Refusal`] go by its number alone and do not say what 3 means here.
///
/// ```
/// use citronreef::records::{Day, Mark, Position};
/// use citronreef::{make, Refusal};
///
/// let day = Day {
///     marks: vec![Mark { code: *b"IR", month: 3, year: 27, previous: 950_000, today: 950_100 }],
///     corrections: vec![],
///     positions: vec![Position { account: 11, mark: 0, lots: 10 }, Position { account: 12, mark: 0, lots: -4 }],
/// };
/// let [marks, corrections, positions] = day.lists();
/// let mut out = [0xEE; 64];
/// let length = make(&marks, &corrections, &positions, &mut out)?;
/// assert_eq!(length, 24 + 12 + 24);
/// assert_eq!(out[..length], day.bytes());
/// assert_eq!(out[length..], [0xEE; 4]);
/// assert_eq!(make(&marks, &corrections, &positions, &mut out[..length - 1]), Err(Refusal::of(17)));
/// assert_eq!(make(&marks, &corrections, &positions[1..], &mut out), Err(Refusal::of(3)));
/// assert_eq!(make(&[], &[], &positions, &mut out), Err(Refusal::of(12)));
/// # Ok::<(), Refusal>(())
/// ```
pub fn make(marks: &[u8], corrections: &[u8], positions: &[u8], out: &mut [u8]) -> Result<usize, Refusal> {
    // SAFETY: each pointer comes with the length of its slice, and what is written overlaps none of the lists.
    unsafe {
        sys::citronreef_make(
            marks.as_ptr(),
            marks.len(),
            corrections.as_ptr(),
            corrections.len(),
            positions.as_ptr(),
            positions.len(),
            out.as_mut_ptr(),
            out.len(),
        )
    }
    .answer()
}
