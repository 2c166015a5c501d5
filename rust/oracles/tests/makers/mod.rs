//! Makes a file in lent bytes with guards around them, by the library and by the independent builds.

use crate::lent::settled_into;
use citronreef::records::{u32_at, HEADER_SIZE, MAX_POSITIONS, RECORD_SIZE};
use citronreef::{settle, Refusal, Settled};
use oracles::{hashed, plain, quick};

/// A maker of a file from marks, corrections and positions.
pub type Make = fn(&[u8], &[u8], &[u8], &mut [u8]) -> Result<usize, Refusal>;
pub type Lists = [Vec<u8>; 3];

const GUARDS: usize = 16;

/// What a byte is before the call: another for each place nearby.
fn guard(place: usize) -> u8 {
    (place * 89 + place / 256) as u8 ^ 0xA5
}

/// The answer to lists, and the file. Guards before and after the room must stay, and so must all bytes after the file, and after a refusal
/// all bytes.
pub fn made_into(make: Make, lists: [&[u8]; 3], room: usize) -> Result<Vec<u8>, Refusal> {
    let [marks, corrections, positions] = lists;
    let mut memory: Vec<u8> = (0..room + 2 * GUARDS).map(guard).collect();
    let answer = make(marks, corrections, positions, &mut memory[GUARDS..GUARDS + room]);
    let length = answer.unwrap_or(0);
    assert!(length <= room, "a file longer than the room");
    for place in (0..GUARDS).chain(GUARDS + length..memory.len()) {
        assert_eq!(memory[place], guard(place), "byte {place} of {room} with {GUARDS} guards on each side");
    }
    answer.map(|length| memory[GUARDS..GUARDS + length].to_vec())
}

fn slices(lists: &Lists) -> [&[u8]; 3] {
    let [marks, corrections, positions] = lists;
    [marks, corrections, positions]
}

/// The three lists of a file, where its header says that they stand.
pub fn sections(file: &[u8]) -> [&[u8]; 3] {
    [0, 8, 16].map(|at| {
        let (count, start) = (u32_at(file, at) as usize, u32_at(file, at + 4) as usize);
        &file[start..start + RECORD_SIZE * count]
    })
}

/// How a file is settled, with room for every amount.
pub fn settled(file: &[u8]) -> Result<(Settled, Vec<i64>), Refusal> {
    let (answer, amounts) = settled_into(settle, file, MAX_POSITIONS);
    answer.map(|settled| (settled, amounts))
}

/// An accepted file is made of its own lists, which stand in it, into as many bytes and into more.
pub fn assert_made_of_its_lists(file: &[u8]) {
    for room in [file.len(), file.len() + 1, file.len() + 1_000] {
        assert!(made_into(citronreef::make, sections(file), room) == Ok(file.to_vec()), "{room} bytes, file {file:?}");
    }
}

/// The answer of the library, which the independent builds give too. A file that is made is accepted, and has the lists.
pub fn agreed(lists: &Lists, room: usize) -> Result<Vec<u8>, Refusal> {
    let library = made_into(citronreef::make, slices(lists), room);
    let builds: [(&str, Make); 3] = [("plain", plain::make), ("hashed", hashed::make), ("quick", quick::make)];
    for (name, build) in builds {
        assert!(library == made_into(build, slices(lists), room), "against {name}, {room} bytes, lists {lists:?}");
    }
    if let Ok(file) = &library {
        assert_eq!(settled(file).map(|(answer, _)| answer.positions), Ok(lists[2].len() / RECORD_SIZE));
        assert_eq!(sections(file), slices(lists));
        assert_made_of_its_lists(file);
    }
    library
}

/// How long the file of these lists is, where they are whole records.
pub fn length_of(lists: &Lists) -> usize {
    HEADER_SIZE + lists.iter().map(Vec::len).sum::<usize>()
}
