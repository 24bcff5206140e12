//! A second implementation of the scheduler, in plain Rust, written from the documents in `docs/` alone.

pub mod choosing;
pub mod cores;
pub mod fitting;
pub mod ledger;
pub mod load;
pub mod plan;
pub mod random;
pub mod refusal;
pub mod run;
pub mod sheet;
pub mod sheets;
pub mod table;
pub mod tables;
