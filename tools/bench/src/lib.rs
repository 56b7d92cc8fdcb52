//! Measures the product beside defmt-decoder's own code: the same inputs, one process.
#![cfg(archives)]

pub mod capture;
pub mod checked;
pub mod doubled;
pub mod inputs;
pub mod plain;
pub mod rows;
pub mod timing;
