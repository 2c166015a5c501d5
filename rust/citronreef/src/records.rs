//! The records of a day file, and a day as three lists of them.

/// The bytes of a day file's header: three counts, each with an offset.
pub const HEADER_SIZE: usize = 24;
/// The bytes of a mark, a correction and a position.
pub const RECORD_SIZE: usize = 12;
/// The most marks that a day file has.
pub const MAX_MARKS: usize = 256;
/// The most corrections that a day file has.
pub const MAX_CORRECTIONS: usize = 512;
/// The most positions that a day file has.
pub const MAX_POSITIONS: usize = 4_096;
/// The most lots of a position, long or short.
pub const MAX_LOTS: i32 = 1_000_000;
/// The highest price, 100.0000, in units of 0.0001.
pub const PRICE_LIMIT: u32 = 1_000_000;
/// The units of 0.0001 in a price of 1.
pub const UNITS_PER_POINT: u32 = 10_000;

/// A contract with its prices in units of 0.0001.
#[derive(Clone, Copy, Debug, PartialEq, Eq)]
pub struct Mark {
    /// The product's code: two capital letters, where the mark passes the checks.
    pub code: [u8; 2],
    /// The month of expiry, from 1.
    pub month: u8,
    /// The year of expiry, without its century.
    pub year: u8,
    /// The settlement price of the day before.
    pub previous: u32,
    /// The settlement price of the day, before any correction.
    pub today: u32,
}

/// A price that takes the place of a mark's price of the day.
#[derive(Clone, Copy, Debug, PartialEq, Eq)]
pub struct Correction {
    /// The number under which it was sent; of those that name a mark the highest decides.
    pub number: u32,
    /// The index of the mark, from 0.
    pub mark: u32,
    /// The price in units of 0.0001.
    pub price: u32,
}

/// The lots that an account holds of a contract.
#[derive(Clone, Copy, Debug, PartialEq, Eq)]
pub struct Position {
    /// The number of the account.
    pub account: u32,
    /// The index of the mark, from 0.
    pub mark: u32,
    /// The lots: positive long, negative short.
    pub lots: i32,
}

/// The three lists of a day file.
#[derive(Clone, Debug, Default, PartialEq, Eq)]
pub struct Day {
    /// The contracts with their prices.
    pub marks: Vec<Mark>,
    /// The corrections, in the order in which they stand in the file.
    pub corrections: Vec<Correction>,
    /// The positions, in the order of the amounts and the sheet's lines.
    pub positions: Vec<Position>,
}

/// The little-endian number at a place of the file. It panics where the file has no four bytes there.
///
/// ```
/// assert_eq!(citronreef::records::u32_at(&[0xFF, 0x54, 0x7F, 0x0E, 0x00], 1), 950_100);
/// ```
pub fn u32_at(bytes: &[u8], at: usize) -> u32 {
    u32::from_le_bytes(bytes[at..at + 4].try_into().expect("four bytes"))
}

fn packed(head: [u8; 4], second: u32, third: u32) -> [u8; RECORD_SIZE] {
    let mut record = [0; RECORD_SIZE];
    record[..4].copy_from_slice(&head);
    record[4..8].copy_from_slice(&second.to_le_bytes());
    record[8..].copy_from_slice(&third.to_le_bytes());
    record
}

impl Mark {
    /// The record of the first 12 bytes. It panics where there are fewer.
    ///
    /// ```
    /// use citronreef::records::Mark;
    ///
    /// let record = Mark { code: *b"IR", month: 3, year: 27, previous: 1, today: 258 };
    /// assert_eq!(Mark::read(&record.bytes()), record);
    /// ```
    pub fn read(record: &[u8]) -> Mark {
        Mark {
            code: [record[0], record[1]],
            month: record[2],
            year: record[3],
            previous: u32_at(record, 4),
            today: u32_at(record, 8),
        }
    }

    /// The 12 bytes of the record.
    ///
    /// ```
    /// use citronreef::records::Mark;
    ///
    /// let record = Mark { code: *b"IR", month: 3, year: 27, previous: 1, today: 258 };
    /// assert_eq!(record.bytes(), *b"IR\x03\x1B\x01\0\0\0\x02\x01\0\0");
    /// ```
    pub fn bytes(&self) -> [u8; RECORD_SIZE] {
        packed([self.code[0], self.code[1], self.month, self.year], self.previous, self.today)
    }
}

impl Correction {
    /// The record of the first 12 bytes. It panics where there are fewer.
    ///
    /// ```
    /// use citronreef::records::Correction;
    ///
    /// let record = Correction { number: 7, mark: 1, price: 258 };
    /// assert_eq!(Correction::read(&record.bytes()), record);
    /// ```
    pub fn read(record: &[u8]) -> Correction {
        Correction { number: u32_at(record, 0), mark: u32_at(record, 4), price: u32_at(record, 8) }
    }

    /// The 12 bytes of the record.
    ///
    /// ```
    /// use citronreef::records::Correction;
    ///
    /// let record = Correction { number: 7, mark: 1, price: 258 };
    /// assert_eq!(record.bytes(), [7, 0, 0, 0, 1, 0, 0, 0, 2, 1, 0, 0]);
    /// ```
    pub fn bytes(&self) -> [u8; RECORD_SIZE] {
        packed(self.number.to_le_bytes(), self.mark, self.price)
    }
}

impl Position {
    /// The record of the first 12 bytes. It panics where there are fewer.
    ///
    /// ```
    /// use citronreef::records::Position;
    ///
    /// let record = Position { account: 11, mark: 1, lots: -4 };
    /// assert_eq!(Position::read(&record.bytes()), record);
    /// ```
    pub fn read(record: &[u8]) -> Position {
        Position { account: u32_at(record, 0), mark: u32_at(record, 4), lots: u32_at(record, 8) as i32 }
    }

    /// The 12 bytes of the record.
    ///
    /// ```
    /// use citronreef::records::Position;
    ///
    /// let record = Position { account: 11, mark: 1, lots: -4 };
    /// assert_eq!(record.bytes(), [11, 0, 0, 0, 1, 0, 0, 0, 0xFC, 0xFF, 0xFF, 0xFF]);
    /// ```
    pub fn bytes(&self) -> [u8; RECORD_SIZE] {
        packed(self.account.to_le_bytes(), self.mark, self.lots as u32)
    }
}

/// The six header numbers that the layout has for these counts.
///
/// ```
/// assert_eq!(citronreef::records::header(1, 2, 2), [1, 24, 2, 36, 2, 60]);
/// ```
pub fn header(marks: usize, corrections: usize, positions: usize) -> [usize; 6] {
    let corrections_start = HEADER_SIZE + RECORD_SIZE * marks;
    let positions_start = corrections_start + RECORD_SIZE * corrections;
    [marks, HEADER_SIZE, corrections, corrections_start, positions, positions_start]
}

impl Day {
    /// The bytes of the marks, the corrections and the positions, as [`make`](crate::make) takes them.
    ///
    /// ```
    /// use citronreef::records::{Day, Position};
    ///
    /// let position = Position { account: 11, mark: 0, lots: 10 };
    /// let day = Day { positions: vec![position; 2], ..Day::default() };
    /// assert_eq!(day.lists(), [vec![], vec![], [position.bytes(); 2].concat()]);
    /// ```
    pub fn lists(&self) -> [Vec<u8>; 3] {
        [
            self.marks.iter().flat_map(Mark::bytes).collect(),
            self.corrections.iter().flat_map(Correction::bytes).collect(),
            self.positions.iter().flat_map(Position::bytes).collect(),
        ]
    }

    /// The day file of these records, whether they pass the checks or not: [`make`](crate::make) makes one that does.
    ///
    /// ```
    /// use citronreef::records::{Day, Position};
    ///
    /// let day = Day { positions: vec![Position { account: 11, mark: 0, lots: 10 }], ..Day::default() };
    /// assert_eq!(day.bytes().len(), 24 + 12);
    /// assert_eq!(citronreef::settle(&day.bytes(), &mut [0]).unwrap_err().number, 12);
    /// ```
    pub fn bytes(&self) -> Vec<u8> {
        let numbers = header(self.marks.len(), self.corrections.len(), self.positions.len());
        let mut file: Vec<u8> = numbers.iter().flat_map(|&n| (n as u32).to_le_bytes()).collect();
        file.extend(self.lists().concat());
        file
    }
}
