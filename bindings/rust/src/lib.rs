//! What a collector of defmt logs puts in the place of defmt-decoder's stream: rzCOBS pieces in, frames with their text out.
//!
//! The work is done by Kirayotep's proved code, through its C interface (`include/kirayotep.h`); this crate lends it memory and hands
//! on what it answers. As long as every loss on the link is told by one call, [`Stream::gap`], no frame is made of the head of one
//! message and the tail of another.
//!
//! ```
//! use kirayotep::{Book, Stream};
//!
//! let text = "book=1\nclock=no\ntimestamp=\nindex=7\ntag=info\ntext=T {=u8} {=i16}\n";
//! let book = Book::new(text.as_bytes())?;
//! let mut stream = Stream::new(&book);
//! stream.received(&[0x07, 0x05, 0xFF])?;
//! assert!(stream.decode()?.is_none());
//! stream.received(&[0xFF, 0x62, 0x00])?;
//! while let Some(frame) = stream.decode()? {
//!     assert_eq!(frame.text()?, "T 5 -1");
//! }
//!
//! stream.received(&[0x07, 0x05])?; // the head of a message
//! stream.gap(); // the link was down
//! stream.received(&[0xFE, 0xFF, 0x62, 0x00])?; // the tail of another one
//! assert!(stream.decode()?.is_none());
//! # Ok::<(), kirayotep::Refusal>(())
//! ```
//!
//! A frame that is refused does not end a stream: [`Stream::decode`] tells the [`Refusal`], drops that frame, and the next call goes on
//! behind it. A collector's loop is in `examples/read_capture.rs`.
//!
//! Nothing here panics on any input. A stream takes its memory once, by [`Sizes`]. Each frame costs up to three calls, one for its
//! arguments and one for each text, each of which checks the book again: they trust nothing that they are given.

#![deny(missing_docs)]
#![deny(unsafe_code)]
#![warn(
    clippy::indexing_slicing,
    clippy::unwrap_used,
    clippy::expect_used,
    clippy::panic
)]

pub mod blocks;
mod book;
#[allow(unsafe_code)]
mod ffi;
mod frame;
mod refusal;
mod stream;

pub use book::{Book, Level};
pub use frame::{Argument, Arguments, Frame};
pub use refusal::Refusal;
pub use stream::{Sizes, Stream};

/// The most bytes of a book, a message, a coding, a piece or a store.
pub const LIMIT: usize = 65_536;

/// The most rows of a message.
pub const MOST_ROWS: usize = 1024;

/// The words of a row.
pub const ROW_WORDS: usize = 4;

/// The most bytes of a message for each byte of its coding.
const MOST_PER_BYTE: usize = 7;
