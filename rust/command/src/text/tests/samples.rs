//! The samples make the files of these records, which settle as they should.

use super::{bytes_of, case};
use citronreef::records::{Correction, Day, Mark, Position, MAX_POSITIONS};
use citronreef::{write_sheet, SHEET_SIZE};

const CASE_SHEET: &str = "\
11 IR 3 18 24060 AUD
12 IR 3 18 -9624 AUD
total AUD 14436
total NZD 0
resent 1
";

const DAY_SHEET: &str = "\
1001 IR 3 27 1810500 AUD
1001 XT 3 27 -1849840 AUD
1002 BB 3 27 289320 NZD
1002 IB 2 27 92475 AUD
1003 YT 3 27 300240 AUD
1003 XT 3 27 693690 AUD
1003 XX 3 27 -113320 AUD
total AUD 933745
total NZD 289320
resent 1
";

/// The file of a sample's text.
pub fn sample(name: &str) -> Vec<u8> {
    let path = format!("{}/../../samples/{name}", env!("CARGO_MANIFEST_DIR"));
    bytes_of(&std::fs::read_to_string(&path).unwrap_or_else(|error| panic!("{path}: {error}")))
}

/// The records of samples/day.txt, in units and by index.
fn sample_day() -> Day {
    let marks = [
        (b"IR", 3, 956_800, 957_100),
        (b"BB", 3, 954_200, 954_000),
        (b"IB", 2, 957_750, 957_800),
        (b"YT", 3, 956_100, 956_450),
        (b"XT", 3, 952_900, 953_350),
        (b"XX", 3, 949_050, 949_300),
    ];
    let corrections = [(31, 4, 953_450), (12, 4, 953_200), (15, 1, 954_100), (31, 4, 953_450)];
    let positions =
        [(1001, 0, 250), (1001, 4, -40), (1002, 1, -120), (1002, 2, 75), (1003, 3, 30), (1003, 4, 15), (1003, 5, -8)];
    Day {
        marks: marks.map(|(&code, month, previous, today)| Mark { code, month, year: 27, previous, today }).to_vec(),
        corrections: corrections.map(|(number, mark, price)| Correction { number, mark, price }).to_vec(),
        positions: positions.map(|(account, mark, lots)| Position { account, mark, lots }).to_vec(),
    }
}

fn sheet_of(file: &[u8]) -> String {
    let mut out = vec![0; SHEET_SIZE];
    let length = write_sheet(file, &mut vec![0; MAX_POSITIONS], &mut out);
    String::from_utf8_lossy(&out[..length]).into_owned()
}

#[test]
fn case_of_document_01() {
    assert_eq!(sample("case.txt"), case().bytes());
    assert_eq!(sheet_of(&sample("case.txt")), CASE_SHEET);
}

#[test]
fn day_with_every_product() {
    assert_eq!(sample("day.txt"), sample_day().bytes());
    assert_eq!(sheet_of(&sample("day.txt")), DAY_SHEET);
}
