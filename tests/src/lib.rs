//! Tests of the register over its C interface, against a register written separately from documents 01 and 02. Each test has a
//! fixed number of cases; `CASES=10 cargo test --release` goes through ten times as many of the random ones.

pub mod answers;
pub mod baseline;
pub mod bytes;
pub mod c;
pub mod cases;
pub mod clock;
pub mod frames;
pub mod layout;
pub mod process;
pub mod random;
pub mod reference;
pub mod refusal;
pub mod registries;
pub mod sheet;
pub mod sides;
pub mod stack;
pub mod walks;
