//! Settles the day file of standard input, prices its first mark, makes it anew of its lists, and ends with a refusal.

use std::io::{self, Read};

use citronreef::records::{u32_at, MAX_POSITIONS};

fn main() -> Result<(), Box<dyn std::error::Error>> {
    let mut file = Vec::new();
    io::stdin().read_to_end(&mut file)?;
    let mut amounts = [0; MAX_POSITIONS];
    let day = citronreef::settle(&file, &mut amounts)?;
    println!("{:?} cents, AUD {}, NZD {}, resent {}", &amounts[..day.positions], day.aud, day.nzd, day.resent);
    println!("{:?}", citronreef::mark(&file, 0)?);
    let [marks_at, corrections_at, positions_at] = [4, 12, 20].map(|place| u32_at(&file, place) as usize);
    let (marks, corrections) = (&file[marks_at..corrections_at], &file[corrections_at..positions_at]);
    let mut again = vec![0; file.len()];
    let length = citronreef::make(marks, corrections, &file[positions_at..], &mut again)?;
    println!("{}", again[..length] == file);
    println!("{} cents", citronreef::value(*b"IR", 950_050)?);
    Ok(())
}
