//! Times `citronreef sheet` on a full day file as a process beside the Rattle program, and ends with 1 where it takes more than 1.2 times as long.
//!
//!     cd rust && cargo build --release
//!     cargo run --release --example times -- ../crates/sheet/out/sheet ../target/rust/release/citronreef

use citronreef::records::{MAX_CORRECTIONS, MAX_MARKS, MAX_POSITIONS};
use oracles::days::day_of;
use oracles::random::Random;
use std::fs::{self, File};
use std::path::Path;
use std::process::{Command, Stdio};
use std::time::{Duration, Instant};

const RUNS: usize = 500;
const MOST: f64 = 1.2;

/// How long a process takes on the file, from its start to its end.
fn time(words: &[&str], file: &Path) -> Duration {
    let input = File::open(file).expect("the day file");
    let started = Instant::now();
    let status = Command::new(words[0]).args(&words[1..]).stdin(input).stdout(Stdio::null()).status().expect(words[0]);
    let taken = started.elapsed();
    assert!(status.success());
    taken
}

fn median(times: &mut [Duration]) -> f64 {
    times.sort();
    times[times.len() / 2].as_secs_f64() * 1e3
}

fn main() {
    let programs: Vec<String> = std::env::args().skip(1).collect();
    let (rattle, command) = match &programs[..] {
        [rattle, command] => (vec![rattle.as_str()], vec![command.as_str(), "sheet"]),
        _ => panic!("two programs: the Rattle program sheet, and citronreef"),
    };
    let file = std::env::temp_dir().join(format!("citronreef-times-{}", std::process::id()));
    let day = day_of(&mut Random::new(65_539), MAX_MARKS, MAX_CORRECTIONS, MAX_POSITIONS);
    fs::write(&file, day.bytes()).expect("a day file");
    let (mut first, mut second) = (Vec::new(), Vec::new());
    for run in 0..2 * RUNS {
        let is_first = (run % 2 == 0) == (run / 2 % 2 == 0);
        match is_first {
            true => first.push(time(&rattle, &file)),
            false => second.push(time(&command, &file)),
        }
    }
    fs::remove_file(&file).expect("the day file");
    let (first, second) = (median(&mut first), median(&mut second));
    println!("medians of {RUNS} runs: sheet {first:.3} ms, citronreef sheet {second:.3} ms, {:.2} times", second / first);
    std::process::exit(i32::from(second > MOST * first));
}
