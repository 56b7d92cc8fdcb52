use crate::{ffi, Refusal};
use std::fmt;
use std::sync::Arc;

/// A book that was checked: the texts of a firmware's log, by index.
///
/// A clone shares the bytes, so that many streams use one book.
#[derive(Clone)]
pub struct Book {
    bytes: Arc<[u8]>,
}

impl Book {
    /// Checks the bytes of a book. Refuses [`Refusal::Size`] and [`Refusal::Book`].
    pub fn new(bytes: impl Into<Arc<[u8]>>) -> Result<Book, Refusal> {
        let bytes = bytes.into();
        ffi::check_book(&bytes)?;
        Ok(Book { bytes })
    }

    /// The book's bytes.
    pub fn bytes(&self) -> &[u8] {
        &self.bytes
    }

    /// Whether the book has a clock, so that each message has a timestamp.
    pub fn has_clock(&self) -> bool {
        self.lines().nth(1) == Some(b"clock=yes")
    }

    /// The level of an entry; none where no entry has the index, or its tag is none of the five with a level.
    ///
    /// The C interface has no call for it: this crate reads it from the checked book's lines.
    pub fn level(&self, index: u16) -> Option<Level> {
        let wanted = index.to_string();
        let mut lines = self.lines().skip(3);
        loop {
            let number = lines.next()?.strip_prefix(b"index=")?;
            let tag = lines.next()?.strip_prefix(b"tag=")?;
            lines.next()?;
            if number == wanted.as_bytes() {
                return Level::of_tag(tag);
            }
        }
    }

    fn lines(&self) -> impl Iterator<Item = &[u8]> {
        self.bytes.split(|&byte| byte == b'\n')
    }
}

impl fmt::Debug for Book {
    fn fmt(&self, f: &mut fmt::Formatter<'_>) -> fmt::Result {
        write!(f, "Book({} bytes)", self.bytes.len())
    }
}

/// How much a message matters, as its firmware says.
#[derive(Clone, Copy, Debug, PartialEq, Eq, PartialOrd, Ord, Hash)]
pub enum Level {
    /// `trace`
    Trace,
    /// `debug`
    Debug,
    /// `info`
    Info,
    /// `warn`
    Warn,
    /// `error`
    Error,
}

impl Level {
    fn of_tag(tag: &[u8]) -> Option<Level> {
        match tag {
            b"trace" => Some(Level::Trace),
            b"debug" => Some(Level::Debug),
            b"info" => Some(Level::Info),
            b"warn" => Some(Level::Warn),
            b"error" => Some(Level::Error),
            _ => None,
        }
    }

    /// The level's name, as the book spells it.
    pub fn as_str(self) -> &'static str {
        match self {
            Level::Trace => "trace",
            Level::Debug => "debug",
            Level::Info => "info",
            Level::Warn => "warn",
            Level::Error => "error",
        }
    }
}

impl fmt::Display for Level {
    fn fmt(&self, f: &mut fmt::Formatter<'_>) -> fmt::Result {
        f.write_str(self.as_str())
    }
}
