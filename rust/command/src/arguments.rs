//! The command line: commands, options, help and version.

use crate::ending::{complain, Failure};
use crate::money::whole_text;
use crate::output;
use crate::quoted::{code_of, escaped, price_of};
use citronreef::records::{MAX_CORRECTIONS, MAX_LOTS, MAX_MARKS, MAX_POSITIONS, PRICE_LIMIT, UNITS_PER_POINT};
use clap::{Parser, Subcommand, ValueHint};
use clap_complete::Shell;
use std::path::PathBuf;
use std::process;

const AFTER_HELP: &str = "\
Examples:
  citronreef make samples/day.txt -o day.bin
  citronreef sheet day.bin
  citronreef explain day.bin
  citronreef show day.bin
  citronreef value IR 95.01

Exit status: 0 accepted, 1 refused, 2 could not read or write, or wrong usage.";

/// Settles day files of ASX 24 rate futures, and explains the answer.
#[derive(Parser)]
#[command(name = "citronreef", version = version(), disable_help_subcommand = true, after_help = AFTER_HELP)]
pub struct Arguments {
    #[command(subcommand)]
    pub command: Command,
}

#[derive(Subcommand)]
pub enum Command {
    /// Print the sheet of a day file: a line for each position, the totals, the resent count
    #[command(after_help = "Example:\n  citronreef sheet day.bin -o day.sheet")]
    Sheet {
        #[command(flatten)]
        input: Input,
        #[command(flatten)]
        output: Output,
    },
    /// Explain the settlement of a day file, or why it is refused
    #[command(after_help = "Examples:\n  citronreef explain day.bin\n  citronreef explain --text day.txt --csv -o day.csv")]
    Explain {
        #[command(flatten)]
        input: Input,
        /// FILE is a readable text, as `make` takes it
        #[arg(long)]
        text: bool,
        /// One line for each position, for a spreadsheet
        #[arg(long)]
        csv: bool,
        #[command(flatten)]
        output: Output,
    },
    /// Print the value of one contract in dollars
    #[command(after_help = "Example:\n  citronreef value IR 95.01")]
    Value(Contract),
    /// Print the value of one tick, from this price to the next higher one, in dollars
    #[command(after_help = "Example:\n  citronreef tick XT 95.335")]
    Tick(Contract),
    /// Print the bracket of a bond, with eight decimals
    #[command(after_help = "Example:\n  citronreef bracket YT 94.00")]
    Bracket(Contract),
    /// Make a day file of a readable text
    #[command(after_help = "Example:\n  citronreef make day.txt -o day.bin")]
    Make {
        /// The readable text; standard input where there is none, or where it is -
        #[arg(value_name = "TEXT", value_hint = ValueHint::FilePath)]
        text: Option<PathBuf>,
        /// Write the file even where it would be refused
        #[arg(long)]
        anyway: bool,
        #[command(flatten)]
        output: Output,
    },
    /// Show a day file, or any bytes, as a readable text
    #[command(after_help = "Example:\n  citronreef show day.bin -o day.txt")]
    Show {
        #[command(flatten)]
        input: Input,
        #[command(flatten)]
        output: Output,
    },
    /// Print a script by which a shell completes the command's words
    #[command(
        after_help = "Example:\n  citronreef completions bash > ~/.local/share/bash-completion/completions/citronreef"
    )]
    Completions { shell: Shell },
}

#[derive(clap::Args)]
pub struct Input {
    /// The day file; standard input where there is none, or where it is -
    #[arg(value_name = "FILE", value_hint = ValueHint::FilePath)]
    pub file: Option<PathBuf>,
}

#[derive(clap::Args)]
pub struct Output {
    /// Write to this file, which is replaced as a whole or not at all
    #[arg(short, long, value_name = "OUT", value_hint = ValueHint::FilePath)]
    pub out: Option<PathBuf>,
}

#[derive(clap::Args)]
pub struct Contract {
    /// Two letters: IR, BB, IB, YT, XT or XX
    #[arg(value_parser = code_of)]
    pub code: [u8; 2],
    /// The price as quoted, as in 95.01, or in units of 0.0001, as in 950100u
    #[arg(value_parser = price_of)]
    pub price: u32,
}

/// The version, and the sizes that the library answers by.
fn version() -> &'static str {
    let (limit, decimals) = (PRICE_LIMIT / UNITS_PER_POINT, PRICE_LIMIT % UNITS_PER_POINT);
    let [marks, corrections, positions] = [MAX_MARKS, MAX_CORRECTIONS, MAX_POSITIONS].map(|most| whole_text(most as i64));
    let lots = whole_text(MAX_LOTS.into());
    let text = format!(
        "{}\nprices from 0.0000 to {limit}.{decimals:04} in units of 0.0001\nlots from -{lots} to {lots}\n\
         at most {marks} marks, {corrections} corrections and {positions} positions in a day file",
        citronreef::VERSION,
    );
    Box::leak(text.into_boxed_str())
}

/// What the command line asks for. Help and version are printed here, and so is what is wrong with a command line.
pub fn parsed() -> Result<Option<Command>, Failure> {
    match Arguments::try_parse() {
        Ok(arguments) => Ok(Some(arguments.command)),
        Err(error) if error.use_stderr() => {
            complain(&escaped(&error.render().to_string(), |c| c == '\n'));
            process::exit(2)
        }
        Err(help) => output::write(help.render().to_string().as_bytes(), None).map(|()| None),
    }
}
