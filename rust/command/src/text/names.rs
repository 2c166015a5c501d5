//! Which mark a contract's name means, and which name means a mark.

use crate::quoted::{contract_key, contract_name};
use citronreef::records::Mark;
use std::collections::HashMap;

/// The contracts of some marks, each with the index of its mark, or with none where several marks have it.
pub struct Names<'a> {
    marks: &'a [Mark],
    bearers: HashMap<[u8; 4], Option<u32>>,
}

fn contract(mark: &Mark) -> [u8; 4] {
    [mark.code[0], mark.code[1], mark.month, mark.year]
}

/// The first few items of a list, in one line.
fn list(items: impl Iterator<Item = String>) -> String {
    const TOLD: usize = 4;
    let mut told: Vec<String> = items.take(TOLD + 1).collect();
    if told.len() > TOLD {
        told[TOLD] = "..".to_string();
    }
    told.join(", ")
}

impl<'a> Names<'a> {
    pub fn of(marks: &'a [Mark]) -> Names<'a> {
        let mut bearers = HashMap::with_capacity(marks.len());
        for (index, mark) in marks.iter().enumerate() {
            let only = u32::try_from(index).ok();
            bearers.entry(contract(mark)).and_modify(|bearer| *bearer = None).or_insert(only);
        }
        Names { marks, bearers }
    }

    /// The only mark of a contract. Where there is none, or more than one, what is wrong with the name; the lines are those of
    /// the marks.
    pub fn index_of(&self, wanted: [u8; 4], lines: &[usize]) -> Result<u32, String> {
        match self.bearers.get(&wanted) {
            Some(Some(index)) => Ok(*index),
            Some(None) => Err(self.several(wanted, lines)),
            None => Err(self.none(wanted, lines)),
        }
    }

    /// That no mark has a name, and the names that the marks of its code have.
    fn none(&self, wanted: [u8; 4], lines: &[usize]) -> String {
        let alike = self.marks.iter().zip(lines).filter(|(mark, _)| mark.code == wanted[..2]);
        let alike = list(alike.map(|(mark, line)| format!("{} (line {line})", contract_key(mark))));
        let name = contract_name(wanted);
        match alike.is_empty() {
            true => format!("no mark has the name {name}"),
            false => format!("no mark has the name {name}; marks of this code are {alike}"),
        }
    }

    /// The marks that share a name, by their lines.
    fn several(&self, wanted: [u8; 4], lines: &[usize]) -> String {
        let bearers = self.marks.iter().zip(lines).enumerate().filter(|(_, (mark, _))| contract(mark) == wanted);
        let bearers = list(bearers.map(|(index, (_, line))| format!("@{index} (line {line})")));
        format!("more than one mark has the name {}: write the index of one, {bearers}", contract_name(wanted))
    }

    /// How a text names the mark with this index: by its contract where no other mark has it, else by the index.
    pub fn name_of(&self, index: u32) -> String {
        let mark = self.marks.get(index as usize);
        match mark.filter(|mark| self.bearers.get(&contract(mark)) == Some(&Some(index))) {
            Some(mark) => contract_key(mark),
            None => format!("@{index}"),
        }
    }
}
