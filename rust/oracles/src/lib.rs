//! For the tests and the benchmark: not proved, and using nothing of the proved library but the types of its records and answers, and
//! its package's names for the limits of a file, which tests of that package hold to the library.
//! `products` and `plain` are an independent build of the same job, `hashed` is the same with hash tables in place of pair loops,
//! `quick` makes a file in as little time as plain Rust was made to take, `sheet` prints the answer, `exact` has the exact values, and
//! `days` has random days.

pub mod days;
pub mod exact;
pub mod hashed;
pub mod plain;
pub mod products;
pub mod quick;
pub mod random;
pub mod sheet;
