//! Document 01's answer numbers.

pub const OK: u64 = 0;
pub const EOF: u64 = 1;
pub const MALFORMED: u64 = 2;
pub const WAIT: u64 = 3;
pub const ROOM: u64 = 5;
pub const ZERO: u64 = 6;
pub const FORMAT: u64 = 8;
pub const DEPTH: u64 = 9;
pub const ROWS: u64 = 10;
pub const NOPRINT: u64 = 11;

/// The bounds behind DEPTH and ROWS.
pub const DEEPEST: usize = 16;
pub const MOST_ROWS: usize = 1024;
