//! Where the bytes of a file stand in the text that it was made of.

use citronreef::records::{HEADER_SIZE, RECORD_SIZE};

/// The line of each record in its text, from 1, in the order of the file, and the lines of the header and of further bytes.
#[derive(Clone, Debug, Default, PartialEq, Eq)]
pub struct Lines {
    pub marks: Vec<usize>,
    pub corrections: Vec<usize>,
    pub positions: Vec<usize>,
    pub header: Option<usize>,
    /// Whether the text leaves the header out.
    pub headless: bool,
    /// The place of each line's first byte among the further bytes, and the line.
    pub rest: Vec<(usize, usize)>,
}

impl Lines {
    /// The line that holds the record at this byte of the file, whatever kind of record the header makes of it. None for bytes
    /// that are of no one line.
    pub fn at(&self, byte: usize) -> Option<usize> {
        let after = byte.checked_sub(if self.headless { 0 } else { HEADER_SIZE })?;
        let records = [&self.marks, &self.corrections, &self.positions];
        let count: usize = records.iter().map(|lines| lines.len()).sum();
        if let Some(further) = after.checked_sub(RECORD_SIZE * count) {
            return self.further(further);
        }
        let mut lines = records.into_iter().flatten().copied();
        (after % RECORD_SIZE == 0).then(|| lines.nth(after / RECORD_SIZE)).flatten()
    }

    /// The line of one of the further bytes.
    fn further(&self, byte: usize) -> Option<usize> {
        let later = self.rest.partition_point(|&(start, _)| start <= byte);
        self.rest[..later].last().map(|&(_, line)| line)
    }
}

#[cfg(test)]
mod tests {
    use super::*;

    #[test]
    fn lines_go_by_the_byte() {
        let lines = Lines {
            marks: vec![3, 2],
            corrections: vec![5],
            positions: vec![4],
            rest: vec![(0, 6), (2, 9)],
            ..Lines::default()
        };
        for (byte, line) in [
            (0, None),
            (23, None),
            (24, Some(3)),
            (30, None),
            (36, Some(2)),
            (48, Some(5)),
            (60, Some(4)),
            (72, Some(6)),
            (73, Some(6)),
            (74, Some(9)),
            (84, Some(9)),
        ] {
            assert_eq!(lines.at(byte), line, "byte {byte}");
            let headless = Lines { headless: true, ..lines.clone() };
            assert_eq!(byte.checked_sub(24).and_then(|byte| headless.at(byte)), line, "byte {byte} after a header");
        }
        assert_eq!(Lines::default().at(24), None);
    }
}
