//! The sheet program in plain Rust, to time against the proved one: reads standard input, writes once.

use citronreef::records::MAX_POSITIONS;
use oracles::sheet::sheet;
use std::io::{self, Read, Write};

const LONGEST_FILE: u64 = 65_536;

fn main() -> io::Result<()> {
    let mut file = Vec::with_capacity(LONGEST_FILE as usize);
    io::stdin().take(LONGEST_FILE).read_to_end(&mut file)?;
    let mut amounts = vec![0; MAX_POSITIONS];
    io::stdout().write_all(sheet(&file, &mut amounts).as_bytes())
}
