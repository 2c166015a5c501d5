//! The numbers of the checks in words, as docs/REFUSALS.md has them.

/// The words of each number from 1.
pub fn words() -> Vec<String> {
    let rows = include_str!("../../../../docs/REFUSALS.md").lines().filter_map(|line| {
        let mut cells = line.strip_prefix("| ")?.split(" | ");
        let number: usize = cells.next()?.parse().ok()?;
        Some((number, cells.next()?.to_string()))
    });
    let mut rows: Vec<(usize, String)> = rows.collect();
    rows.sort();
    let (numbers, words): (Vec<usize>, Vec<String>) = rows.into_iter().unzip();
    assert_eq!(numbers, (1..=17).collect::<Vec<_>>());
    words
}
