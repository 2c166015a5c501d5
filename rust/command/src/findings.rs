//! The checks whose condition holds somewhere in a day file, each with the first record where it does.

/// The checks that look at a file alone, in their order.
const CHECKS: [u32; 14] = [1, 2, 3, 4, 5, 6, 7, 8, 9, 10, 11, 12, 13, 16];

/// The number and the index of each.
pub fn findings(file: &[u8]) -> Vec<(u32, usize)> {
    CHECKS.into_iter().filter_map(|check| citronreef::find(file, check).map(|index| (check, index))).collect()
}
