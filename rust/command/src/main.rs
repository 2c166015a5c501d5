//! `citronreef`: sheets and explanations of day files, and day files as readable texts. What is settled, priced, made or refused is the
//! proved library's answer; the command reads, asks, looks up and prints.
#![cfg_attr(not(test), no_main)]

mod arguments;
mod calls;
mod completions;
mod day;
mod ending;
mod explain;
mod findings;
mod input;
mod money;
mod output;
mod products;
mod quoted;
mod readable;
mod sheet;
mod streams;
mod target;
mod text;

use arguments::Command;
use ending::{Ended, Ending, Failure};
use std::panic;
use std::path::{Path, PathBuf};

/// The exit status of a Rust program that panics.
const PANICKED: i32 = 101;

type Paths<'a> = (Option<&'a Path>, Option<&'a Path>);

/// What is read and what is written, which may not be one file.
fn paths<'a>(input: &'a Option<PathBuf>, out: &'a Option<PathBuf>) -> Result<Paths<'a>, Failure> {
    let (input, out) = (input.as_deref(), out.as_deref());
    output::apart(input, out).map(|()| (input, out))
}

fn run(command: Command) -> Ended {
    match command {
        Command::Sheet { input, output } => {
            let (file, out) = paths(&input.file, &output.out)?;
            sheet::run(file, out)
        }
        Command::Explain { input, text, csv, output } => {
            let (file, out) = paths(&input.file, &output.out)?;
            explain::run(file, text, csv, out)
        }
        Command::Value(contract) => calls::value(&contract),
        Command::Tick(contract) => calls::tick(&contract),
        Command::Bracket(contract) => calls::bracket(&contract),
        Command::Make { text, anyway, output } => {
            let (file, out) = paths(&text, &output.out)?;
            readable::make(file, anyway, out)
        }
        Command::Show { input, output } => {
            let (file, out) = paths(&input.file, &output.out)?;
            readable::show(file, out)
        }
        Command::Completions { shell } => completions::run(shell),
    }
}

fn ended() -> Ended {
    match arguments::parsed()? {
        Some(command) => run(command),
        None => Ok(Ending::Accepted),
    }
}

/// The program's start, as C has it. Rust's own opens /dev/null in place of a stream that is closed: what is written is then lost without a
/// word, and a file that cannot be read is an empty one.
#[cfg_attr(not(test), export_name = "main")]
pub extern "C" fn start() -> i32 {
    streams::ignore_signals_of_writing();
    panic::catch_unwind(|| ending::status(ended())).unwrap_or(PANICKED)
}
