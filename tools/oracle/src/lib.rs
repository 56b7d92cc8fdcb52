//! defmt-decoder 1.1.0's own code, built unchanged, that answers: what a book and a message decode to, what a stream hands up, what a coding
//! stands for. With it a seeded generator of books, messages and streams, and the lists that programs of crates/ replay.

pub mod answers;
pub mod blocks;
pub mod book;
pub mod fate;
pub mod generate;
pub mod printable;
pub mod random;
pub mod rows;
pub mod samples;
pub mod sessions;
pub mod survey;
pub mod texts;

pub use bare_stream::stream::rzcobs::decode_blocks;
pub use bare_stream::stream::{rzcobs::Rzcobs, StreamDecoder};
pub use bare_stream::{DecodeError, Table as BareTable};
