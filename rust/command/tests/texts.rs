//! `citronreef make` and `citronreef show` as processes.

use citronreef::records::{header, MAX_CORRECTIONS, MAX_MARKS, MAX_POSITIONS, RECORD_SIZE};
use citronreef::FILE_SIZE;
use oracles::days::{damage_bytes, damage_record, day, day_of};
use oracles::random::Random;
use std::io::Write;
use std::path::{Path, PathBuf};
use std::process::{Command, Output, Stdio};
use std::{env, fs, process};

/// Runs the command on an input.
fn run(arguments: &[&str], input: &[u8]) -> Output {
    let mut command = Command::new(env!("CARGO_BIN_EXE_citronreef"));
    let command = command.args(arguments).stdin(Stdio::piped()).stdout(Stdio::piped()).stderr(Stdio::piped());
    let mut child = command.spawn().expect("the command starts");
    child.stdin.take().expect("a pipe").write_all(input).expect("the command reads its input");
    child.wait_with_output().expect("the command ends")
}

/// What the command writes where it ends well.
fn written(arguments: &[&str], input: &[u8]) -> Vec<u8> {
    let output = run(arguments, input);
    assert_eq!(output.status.code(), Some(0), "{arguments:?}: {}", String::from_utf8_lossy(&output.stderr));
    output.stdout
}

fn top() -> PathBuf {
    Path::new(env!("CARGO_MANIFEST_DIR")).join("../..")
}

/// A path for a file of a test, where there is no file yet.
fn unwritten(name: &str) -> PathBuf {
    let path = env::temp_dir().join(format!("citronreef-{}-{name}", process::id()));
    let _ = fs::remove_file(&path);
    path
}

#[test]
fn samples_are_made_and_shown() {
    for name in ["case", "day"] {
        let text = top().join(format!("samples/{name}.txt"));
        let out = unwritten(name);
        let (text, out) = (text.to_str().expect("a plain path"), out.to_str().expect("a plain path"));
        assert_eq!(written(&["make", text, "-o", out], b""), b"");
        let file = fs::read(out).expect("the file that was made");
        let shown = written(&["show", out], b"");
        assert_eq!(written(&["make"], &shown), file);
        assert!(String::from_utf8_lossy(&shown).contains("# position 1\n"));
        fs::remove_file(out).expect("the file that was made");
    }
}

/// What is written is what the library makes of the day's lists. A header line that has the layout's numbers changes nothing.
#[test]
fn accepted_texts_make_the_librarys_file() {
    let mut random = Random::new(6_906_969_069);
    for _ in 0..100 {
        let day = day(&mut random);
        let [marks, corrections, positions] = day.lists();
        let mut file = vec![0; FILE_SIZE];
        let length = citronreef::make(&marks, &corrections, &positions, &mut file).expect("every check passes");
        assert!(file[..length] == day.bytes());
        let text = written(&["show"], &file[..length]);
        let numbers = header(day.marks.len(), day.corrections.len(), day.positions.len()).map(|number| number.to_string());
        let with_header = [&text[..], format!("header {}\n", numbers.join(" ")).as_bytes()].concat();
        for text in [text, with_header] {
            assert!(written(&["make"], &text) == file[..length], "{}", String::from_utf8_lossy(&text));
            assert!(written(&["make", "--anyway"], &text) == file[..length]);
        }
    }
}

#[test]
fn texts_above_a_limit() {
    let mut random = Random::new(1_664_525_001);
    let at_most = [MAX_MARKS, MAX_CORRECTIONS, MAX_POSITIONS];
    for section in 0..3 {
        let mut counts = [1, 0, 0];
        counts[section] = at_most[section] + 1;
        let file = day_of(&mut random, counts[0], counts[1], counts[2]).bytes();
        let text = written(&["show"], &file);
        let output = run(&["make"], &text);
        let said = String::from_utf8_lossy(&output.stderr).into_owned();
        assert_eq!((output.status.code(), output.stdout.len()), (Some(1), 0));
        assert!(
            said.starts_with("refused 2 at 0: a count is above its limit\n") && said.contains("<-- above the limit"),
            "{said}"
        );
        assert!(written(&["make", "--anyway"], &text) == file);
    }
}

#[test]
fn any_bytes_come_back() {
    let mut random = Random::new(1_442_695_040);
    for _ in 0..100 {
        let mut day = day(&mut random);
        damage_record(&mut random, &mut day);
        let mut file = day.bytes();
        damage_bytes(&mut random, &mut file);
        let text = written(&["show"], &file);
        assert!(written(&["make", "--anyway"], &text) == file, "{}", String::from_utf8_lossy(&text));
    }
    assert_eq!(written(&["make", "--anyway"], &written(&["show"], b"")), b"");
}

/// The text of the longest file that is shown is not too long to be made.
#[test]
fn as_many_bytes_as_are_shown_come_back() {
    let length: usize = 1 << 20;
    let positions = (length / RECORD_SIZE) as u32;
    let mut file: Vec<u8> =
        [0, u32::MAX, 0, u32::MAX, positions, u32::MAX].iter().flat_map(|n: &u32| n.to_le_bytes()).collect();
    let longest = [[0xff; 8], [0, 0, 0, 0x80, 0xff, 0xff, 0xff, 0xff]].concat();
    file.extend(longest.iter().cycle().take(length - file.len()));
    assert!(written(&["make", "--anyway"], &written(&["show"], &file)) == file);
}

#[test]
fn a_mistake_is_told_and_nothing_is_written() {
    let out = unwritten("mistake");
    let arguments = ["make", "--anyway", "-o", out.to_str().expect("a plain path")];
    let output = run(&arguments, b"\xef\xbb\xbf# a day\r\nmark IR 3 18 95.00 100\r\n");
    let said = String::from_utf8_lossy(&output.stderr).into_owned();
    assert!(said.contains("line 2, field 6: 100 has no decimal point: write 100.00, or 100u for units of 0.0001"), "{said}");
    assert_eq!((output.status.code(), output.stdout.len(), out.exists()), (Some(1), 0, false));
}

#[test]
fn a_file_that_is_refused_is_written_only_when_asked_for() {
    let text = b"mark IR 3 18 95.005 95.02\r\nposition 11 IR/3/18 10\r\n";
    let out = unwritten("refused");
    let path = out.to_str().expect("a plain path");
    let output = run(&["make", "-o", path], text);
    assert_eq!((output.status.code(), out.exists()), (Some(1), false));
    assert!(!output.stderr.is_empty());
    written(&["make", "--anyway", "-o", path], text);
    assert_eq!(fs::read(&out).expect("the file that was made").len(), 48);
    fs::remove_file(&out).expect("the file that was made");
}
