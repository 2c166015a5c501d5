//! `citronreef sheet` against the library's sheet, and against the Rattle program where it is built.

mod days;
mod process;

use citronreef::records::{MAX_CORRECTIONS, MAX_MARKS, MAX_POSITIONS};
use citronreef::{write_sheet, SHEET_SIZE};
use oracles::days::day_of;
use oracles::random::Random;
use process::{run, with_input, Ran};
use std::path::Path;
use std::process::Command;

const SHEET_PROGRAM: &str = concat!(env!("CARGO_MANIFEST_DIR"), "/../../crates/sheet/out/sheet");
const INPUT_LIMIT: usize = 65_536;

fn library_sheet(file: &[u8]) -> String {
    let mut out = vec![0; SHEET_SIZE];
    let length = write_sheet(file, &mut vec![0; MAX_POSITIONS], &mut out);
    String::from_utf8(out[..length].to_vec()).expect("text")
}

/// The command prints the library's sheet, and its exit status says whether the file is refused.
fn agrees(file: &[u8]) {
    let expected = library_sheet(file);
    let Ran { status, out, err } = run(&["sheet"], file);
    assert_eq!(out, expected);
    assert_eq!(status, i32::from(expected.starts_with("refused")));
    assert_eq!(err, "");
}

/// Valid and damaged days, full ones, and inputs as long as is read and longer.
fn files(count: usize, seed: u64) -> Vec<Vec<u8>> {
    let mut random = Random::new(seed);
    let full = day_of(&mut random, MAX_MARKS, MAX_CORRECTIONS, MAX_POSITIONS).bytes();
    let mut files: Vec<Vec<u8>> = (0..count).map(|_| days::damaged(&mut random)).collect();
    for length in [full.len(), full.len() + 1, INPUT_LIMIT - 1, INPUT_LIMIT, INPUT_LIMIT + 1, 3 * INPUT_LIMIT] {
        let mut longer = full.clone();
        longer.resize(length, 0);
        files.push(longer);
    }
    let mut counted = vec![0xFF; 3 * INPUT_LIMIT];
    counted[..4].fill(0);
    files.push(counted);
    files.push(Vec::new());
    files
}

#[test]
fn sheets_are_the_librarys() {
    let files = files(2_500, 1_013_904_223);
    files.iter().for_each(|file| agrees(file));
    let refused = files.iter().filter(|file| library_sheet(file).starts_with("refused")).count();
    assert!(refused > 500 && files.len() - refused > 500, "both kinds of files: {refused} refused");
}

#[test]
fn sheets_are_the_rattle_programs() {
    if !Path::new(SHEET_PROGRAM).exists() {
        eprintln!("no {SHEET_PROGRAM}: `rt run` in crates/sheet leaves it");
        return;
    }
    for file in files(300, 22_695_477) {
        let theirs = with_input(&mut Command::new(SHEET_PROGRAM), &file);
        assert_eq!(run(&["sheet"], &file).out, theirs.out);
    }
}

#[test]
fn a_file_by_its_name_is_the_same() {
    let folder = process::Folder::new("sheets");
    let file = days::sample().bytes();
    let name = folder.file("day.bin", &file);
    let named = run(&["sheet", name.to_str().expect("a name")], b"");
    assert_eq!((named.status, named.out), (0, library_sheet(&file)));
    assert_eq!(run(&["sheet", "-"], &file).out, library_sheet(&file));
}
