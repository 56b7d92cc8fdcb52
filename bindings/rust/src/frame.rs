use crate::ffi::{self, Counts};
use crate::{Book, Level, Refusal, ROW_WORDS};
use std::fmt;
use std::str;

/// A message that was decoded, in the memory of its [`Stream`](crate::Stream).
#[derive(Clone)]
pub struct Frame<'a> {
    book: &'a Book,
    message: &'a [u8],
    timestamp_rows: &'a [u64],
    rows: &'a [u64],
    consumed: usize,
    text: Result<&'a [u8], Refusal>,
    timestamp: Result<Option<&'a [u8]>, Refusal>,
}

impl<'a> Frame<'a> {
    pub(crate) fn new(
        book: &'a Book,
        message: &'a [u8],
        all_rows: &'a [u64],
        counts: &Counts,
        text: Result<&'a [u8], Refusal>,
        timestamp: Result<Option<&'a [u8]>, Refusal>,
    ) -> Frame<'a> {
        let before = counts.timestamp_rows.saturating_mul(ROW_WORDS);
        Frame {
            book,
            message,
            timestamp_rows: all_rows.get(..before).unwrap_or_default(),
            rows: all_rows.get(before..).unwrap_or_default(),
            consumed: counts.consumed,
            text,
            timestamp,
        }
    }

    /// The message's text: the line that a person reads.
    ///
    /// Refuses [`Refusal::NoPrint`] where an argument has no text (a float), and [`Refusal::Room`] where the text is longer than
    /// [`Sizes::text`](crate::Sizes::text); the arguments are there all the same.
    pub fn text(&self) -> Result<&'a str, Refusal> {
        self.text.and_then(utf8)
    }

    /// The timestamp's text, none where the book has no clock. Refuses as [`text`](Frame::text) does.
    pub fn timestamp(&self) -> Result<Option<&'a str>, Refusal> {
        match self.timestamp? {
            Some(bytes) => utf8(bytes).map(Some),
            None => Ok(None),
        }
    }

    /// The index of the message's entry in the book.
    pub fn index(&self) -> u16 {
        match self.message {
            [low, high, ..] => u16::from_le_bytes([*low, *high]),
            _ => 0,
        }
    }

    /// The level of the message's entry, none where its tag has none.
    pub fn level(&self) -> Option<Level> {
        self.book.level(self.index())
    }

    /// The message's arguments, by position.
    pub fn arguments(&self) -> Arguments<'a> {
        self.over(self.rows)
    }

    /// The timestamp's arguments, by position.
    pub fn timestamp_arguments(&self) -> Arguments<'a> {
        self.over(self.timestamp_rows)
    }

    /// The message's bytes: its blocks decoded, with the zeros that coding may leave behind them.
    pub fn message(&self) -> &'a [u8] {
        self.message
    }

    /// How many of the message's bytes were read; what remains was ignored.
    pub fn consumed(&self) -> usize {
        self.consumed
    }

    fn over(&self, rows: &'a [u64]) -> Arguments<'a> {
        Arguments {
            book: self.book,
            message: self.message,
            rows,
        }
    }
}

/// Texts of the book and strings of a message are UTF-8, so every text is: the refusal does not come.
fn utf8(bytes: &[u8]) -> Result<&str, Refusal> {
    str::from_utf8(bytes).map_err(|_| Refusal::Malformed)
}

/// As defmt-decoder displays a frame: timestamp, level, text. A text that is refused reads `refused=` and its number.
impl fmt::Display for Frame<'_> {
    fn fmt(&self, f: &mut fmt::Formatter<'_>) -> fmt::Result {
        match self.timestamp() {
            Ok(Some(timestamp)) => write!(f, "{} ", timestamp)?,
            Ok(None) => {}
            Err(refusal) => write!(f, "refused={} ", refusal.number())?,
        }
        if let Some(level) = self.level() {
            write!(f, "{} ", level.as_str().to_uppercase())?;
        }
        match self.text() {
            Ok(text) => f.write_str(text),
            Err(refusal) => write!(f, "refused={}", refusal.number()),
        }
    }
}

impl fmt::Debug for Frame<'_> {
    fn fmt(&self, f: &mut fmt::Formatter<'_>) -> fmt::Result {
        f.debug_struct("Frame")
            .field("index", &self.index())
            .field("timestamp", &self.timestamp())
            .field("text", &self.text())
            .field("timestamp_arguments", &self.timestamp_arguments())
            .field("arguments", &self.arguments())
            .field("consumed", &self.consumed)
            .finish()
    }
}

/// One argument of a message.
#[derive(Clone, Debug)]
#[non_exhaustive]
pub enum Argument<'a> {
    /// `bool`
    Bool(bool),
    /// `u8` to `u128`, `usize`; and bitfields: the bytes that they touch, each bit at its own place.
    Unsigned(u128),
    /// `i8` to `i128`, `isize`
    Signed(i128),
    /// `f32`
    F32(f32),
    /// `f64`
    F64(f64),
    /// `str`
    Str(&'a str),
    /// `istr`: a text of the book.
    Interned(&'a str),
    /// `?`, or an item of a sequence: a text of the book with arguments of its own.
    Format {
        /// The text's index.
        index: u16,
        /// Which of the pieces between bars, 0 where there are none.
        variant: u16,
        /// Its arguments.
        arguments: Arguments<'a>,
    },
    /// `[?]`, `[?;N]`: each element an [`Argument::Element`].
    Formats {
        /// The index of the elements' text.
        index: u16,
        /// The elements.
        elements: Arguments<'a>,
    },
    /// An element of [`Argument::Formats`].
    Element {
        /// The text's index.
        index: u16,
        /// Which of the pieces between bars, 0 where there are none.
        variant: u16,
        /// Its arguments.
        arguments: Arguments<'a>,
    },
    /// `__internal_FormatSequence`: each item an [`Argument::Format`].
    Sequence(Arguments<'a>),
    /// `[u8]`, `[u8;N]`
    Bytes(&'a [u8]),
    /// `char`
    Char(char),
    /// `__internal_Debug`, `__internal_Display`: text that the firmware made.
    Preformatted(&'a str),
    /// A row that this crate does not know: the archive that was linked is of another version.
    Other([u64; ROW_WORDS]),
}

/// Arguments that stand side by side, in order.
#[derive(Clone)]
pub struct Arguments<'a> {
    book: &'a Book,
    message: &'a [u8],
    rows: &'a [u64],
}

impl<'a> Arguments<'a> {
    /// The rows of these arguments and of all below them, four words each, as document 01 lays them out.
    pub fn rows(&self) -> impl Iterator<Item = [u64; ROW_WORDS]> + 'a {
        self.rows
            .chunks_exact(ROW_WORDS)
            .filter_map(|row| row.try_into().ok())
    }

    fn argument(&self, row: [u64; ROW_WORDS], below: &'a [u64]) -> Argument<'a> {
        let [kind, a, b, _] = row;
        let arguments = Arguments {
            rows: below,
            ..*self
        };
        let index = u16::try_from(a).ok();
        let variant = u16::try_from(b).ok();
        let known = match kind {
            1 => Some(Argument::Bool(a != 0)),
            2 => Some(Argument::Unsigned(wide(a, b))),
            3 => Some(Argument::Signed(wide(a, b) as i128)),
            4 => word(a).map(|bits| Argument::F32(f32::from_bits(bits))),
            5 => Some(Argument::F64(f64::from_bits(a))),
            6 => self.string(row).map(Argument::Str),
            7 => self.string(row).map(Argument::Interned),
            8 => index.zip(variant).map(|(index, variant)| Argument::Format {
                index,
                variant,
                arguments,
            }),
            9 => index.map(|index| Argument::Formats {
                index,
                elements: arguments,
            }),
            10 => index
                .zip(variant)
                .map(|(index, variant)| Argument::Element {
                    index,
                    variant,
                    arguments,
                }),
            11 => Some(Argument::Sequence(arguments)),
            12 => self.bytes(row).map(Argument::Bytes),
            13 => word(a).and_then(char::from_u32).map(Argument::Char),
            14 => self.string(row).map(Argument::Preformatted),
            _ => None,
        };
        known.unwrap_or(Argument::Other(row))
    }

    fn bytes(&self, row: [u64; ROW_WORDS]) -> Option<&'a [u8]> {
        let book = self.book;
        let place = ffi::string(book.bytes(), self.message, row).ok()?;
        let whole = if place.from_book {
            book.bytes()
        } else {
            self.message
        };
        whole.get(place.start..)?.get(..place.length)
    }

    fn string(&self, row: [u64; ROW_WORDS]) -> Option<&'a str> {
        str::from_utf8(self.bytes(row)?).ok()
    }
}

impl<'a> Iterator for Arguments<'a> {
    type Item = Argument<'a>;

    fn next(&mut self) -> Option<Argument<'a>> {
        let row: [u64; ROW_WORDS] = self.rows.get(..ROW_WORDS)?.try_into().ok()?;
        let after = self.rows.get(ROW_WORDS..)?;
        let words = words_below(row).min(after.len());
        let (below, rest) = after.split_at(words);
        self.rows = rest;
        Some(self.argument(row, below))
    }
}

impl fmt::Debug for Arguments<'_> {
    fn fmt(&self, f: &mut fmt::Formatter<'_>) -> fmt::Result {
        f.debug_list().entries(self.clone()).finish()
    }
}

/// How many words the rows below a row have, at all depths.
fn words_below(row: [u64; ROW_WORDS]) -> usize {
    let [kind, .., below] = row;
    match kind {
        8..=11 => usize::try_from(below)
            .unwrap_or(usize::MAX)
            .saturating_mul(ROW_WORDS),
        _ => 0,
    }
}

/// A number that fits into 32 bits.
fn word(number: u64) -> Option<u32> {
    u32::try_from(number).ok()
}

fn wide(low: u64, high: u64) -> u128 {
    u128::from(high) << 64 | u128::from(low)
}
