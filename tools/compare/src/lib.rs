//! Compares the product with defmt-decoder's own code, case by case.

pub mod cases;
pub mod judge;
pub mod mock;
pub mod numbers;
#[cfg(archive)]
pub mod ours;
pub mod run;
pub mod side;
pub mod tally;
