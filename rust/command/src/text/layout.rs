//! The sections of any bytes, as far as they go, and what is wrong with their layout.

use citronreef::records::{
    header, u32_at, Correction, Mark, Position, HEADER_SIZE, MAX_CORRECTIONS, MAX_MARKS, MAX_POSITIONS, RECORD_SIZE,
};

const SECTIONS: [(&str, usize); 3] = [("mark", MAX_MARKS), ("correction", MAX_CORRECTIONS), ("position", MAX_POSITIONS)];

/// The parts of a file that has a header. Each section has the records that the header counts and that stand whole in the file,
/// one section after the other, whatever the offsets say.
pub struct Parts<'a> {
    length: usize,
    pub header: [usize; 6],
    pub marks: Vec<Mark>,
    pub corrections: Vec<Correction>,
    pub positions: Vec<Position>,
    /// What is after the last whole record.
    pub rest: &'a [u8],
}

impl Parts<'_> {
    /// The parts of a file, if it is long enough for a header.
    pub fn of(file: &[u8]) -> Option<Parts<'_>> {
        if file.len() < HEADER_SIZE {
            return None;
        }
        let header = [0, 4, 8, 12, 16, 20].map(|at| u32_at(file, at) as usize);
        let [marks, _, corrections, _, positions, _] = header;
        let (marks, rest) = section(&file[HEADER_SIZE..], marks, Mark::read);
        let (corrections, rest) = section(rest, corrections, Correction::read);
        let (positions, rest) = section(rest, positions, Position::read);
        Some(Parts { length: file.len(), header, marks, corrections, positions, rest })
    }

    /// Whether the header is the one that the layout has for the records that are there.
    pub fn usual_header(&self) -> bool {
        self.header == header(self.marks.len(), self.corrections.len(), self.positions.len())
    }

    /// The number of records in each section by the header, in words.
    pub fn counts(&self) -> String {
        let counts = self.header.iter().step_by(2).zip(SECTIONS);
        let counts: Vec<String> = counts.map(|(&count, (section, _))| counted(count, section)).collect();
        counts.join(", ")
    }

    /// What is wrong with the counts, the offsets and the length. Nothing is where checks 1 to 3 pass.
    pub fn faults(&self) -> Vec<String> {
        let [marks, _, corrections, _, positions, _] = self.header;
        let usual = header(marks, corrections, positions);
        let mut faults = Vec::new();
        for (place, (section, limit)) in SECTIONS.iter().enumerate() {
            let count = self.header[2 * place];
            if count > *limit {
                faults.push(format!("{count} {section}s are above the limit of {limit}"));
            }
        }
        for (place, (section, _)) in SECTIONS.iter().enumerate() {
            let (stands, wanted) = (self.header[2 * place + 1], usual[2 * place + 1]);
            if stands != wanted {
                faults.push(format!("the {section}s' offset is {stands}, and {wanted} by the counts"));
            }
        }
        let wanted = usual[5] + RECORD_SIZE * positions;
        if self.length != wanted {
            faults.push(format!("the file has {}, and {wanted} by the counts", counted(self.length, "byte")));
        }
        faults
    }
}

/// A number of things in words: 1 mark, 2 marks.
pub fn counted(count: usize, what: &str) -> String {
    format!("{count} {what}{}", if count == 1 { "" } else { "s" })
}

/// The records of a section that stand whole at the start of some bytes, and the bytes after them.
fn section<T>(bytes: &[u8], count: usize, read: fn(&[u8]) -> T) -> (Vec<T>, &[u8]) {
    let whole = count.min(bytes.len() / RECORD_SIZE);
    let (records, rest) = bytes.split_at(RECORD_SIZE * whole);
    (records.chunks_exact(RECORD_SIZE).map(read).collect(), rest)
}
