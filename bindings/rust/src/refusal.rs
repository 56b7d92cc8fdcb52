use std::error::Error;
use std::fmt;

/// Why a call did not do what it was asked: the answer numbers of document 01, 0 (OK) left out.
#[derive(Clone, Copy, Debug, PartialEq, Eq, Hash)]
#[non_exhaustive]
pub enum Refusal {
    /// 1: the message ends inside a value. A [`Stream`](crate::Stream) tells it as [`Refusal::Malformed`], as defmt-decoder does.
    Eof,
    /// 2: the blocks do not fit, or a value breaks its rule.
    Malformed,
    /// 3: there is no whole message yet. [`Stream::decode`](crate::Stream::decode) tells it as `Ok(None)`.
    Wait,
    /// 4: the bytes to keep exceed what is left of the store.
    Full,
    /// 5: the result is longer than the output that was lent for it.
    Room,
    /// 6: a zero byte in a coding.
    Zero,
    /// 7: the book breaks its rules.
    Book,
    /// 8: a text about to be scanned is outside the grammar.
    Format,
    /// 9: a format would nest deeper than 16.
    Depth,
    /// 10: a row is needed and none is left.
    Rows,
    /// 11: the text asked for holds a value that has no text, such as a float.
    NoPrint,
    /// 12: the stream's state is none that its calls make.
    State,
    /// 13: a book, a message, a coding, a piece or a store of more than [`LIMIT`](crate::LIMIT) bytes.
    Size,
    /// Another number: the archive that was linked is of another version than this crate.
    Other(u64),
}

impl Refusal {
    /// The answer's number, as document 01's program writes it behind `refused=`.
    pub fn number(self) -> u64 {
        match self {
            Refusal::Eof => 1,
            Refusal::Malformed => 2,
            Refusal::Wait => 3,
            Refusal::Full => 4,
            Refusal::Room => 5,
            Refusal::Zero => 6,
            Refusal::Book => 7,
            Refusal::Format => 8,
            Refusal::Depth => 9,
            Refusal::Rows => 10,
            Refusal::NoPrint => 11,
            Refusal::State => 12,
            Refusal::Size => 13,
            Refusal::Other(number) => number,
        }
    }

    /// The refusal that a number means; 0, OK, means none.
    pub fn of_number(number: u64) -> Option<Refusal> {
        Some(match number {
            0 => return None,
            1 => Refusal::Eof,
            2 => Refusal::Malformed,
            3 => Refusal::Wait,
            4 => Refusal::Full,
            5 => Refusal::Room,
            6 => Refusal::Zero,
            7 => Refusal::Book,
            8 => Refusal::Format,
            9 => Refusal::Depth,
            10 => Refusal::Rows,
            11 => Refusal::NoPrint,
            12 => Refusal::State,
            13 => Refusal::Size,
            other => Refusal::Other(other),
        })
    }
}

impl fmt::Display for Refusal {
    fn fmt(&self, f: &mut fmt::Formatter<'_>) -> fmt::Result {
        f.write_str(match self {
            Refusal::Eof => "the message ends inside a value",
            Refusal::Malformed => "the blocks do not fit, or a value breaks its rule",
            Refusal::Wait => "no whole message yet",
            Refusal::Full => "the store is full",
            Refusal::Room => "the result is longer than the output",
            Refusal::Zero => "a zero byte in a coding",
            Refusal::Book => "the book breaks its rules",
            Refusal::Format => "a text is outside the grammar",
            Refusal::Depth => "a format nests deeper than 16",
            Refusal::Rows => "no row is left",
            Refusal::NoPrint => "a value has no text",
            Refusal::State => "no state of a stream",
            Refusal::Size => "more than 65,536 bytes",
            Refusal::Other(number) => return write!(f, "an unknown answer, {}", number),
        })
    }
}

impl Error for Refusal {}
