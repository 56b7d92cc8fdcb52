//! Stands in for defmt-parser, which is not in the text: the types as defmt-decoder's sources use them, and a parser of document 01's
//! grammar. Of the hints only those of the grammar are ever made; the others are named by the sources.

mod grammar;

use std::borrow::Cow;
use std::ops::Range;

pub use grammar::parse;

#[derive(Clone, Copy, Debug, PartialEq, Eq)]
pub enum Level {
    Trace,
    Debug,
    Info,
    Warn,
    Error,
}

/// What the sources hand to the parser. The grammar has one mode.
pub enum ParserMode {
    ForwardsCompatible,
}

#[derive(Clone, Debug, PartialEq, Eq)]
pub enum Fragment<'f> {
    Literal(Cow<'f, str>),
    Parameter(Parameter),
}

#[derive(Clone, Debug, PartialEq, Eq)]
pub struct Parameter {
    pub index: usize,
    pub ty: Type,
    pub hint: Option<DisplayHint>,
}

#[derive(Clone, Debug, PartialEq, Eq)]
pub enum Type {
    Bool,
    U8,
    U16,
    U32,
    U64,
    U128,
    Usize,
    I8,
    I16,
    I32,
    I64,
    I128,
    Isize,
    F32,
    F64,
    Str,
    IStr,
    Char,
    Format,
    U8Slice,
    FormatSlice,
    U8Array(usize),
    FormatArray(usize),
    BitField(Range<u8>),
    Debug,
    Display,
    FormatSequence,
}

#[derive(Clone, Debug, PartialEq, Eq)]
pub enum DisplayHint {
    NoHint { zero_pad: usize },
    Hexadecimal { uppercase: bool, alternate: bool, zero_pad: usize },
    Binary { alternate: bool, zero_pad: usize },
    Octal { alternate: bool, zero_pad: usize },
    Ascii,
    Debug,
    Seconds(TimePrecision),
    Time(TimePrecision),
    ISO8601(TimePrecision),
    Bitflags { name: String, package: String, disambiguator: String, crate_name: Option<String> },
    Cbor,
}

#[derive(Clone, Debug, PartialEq, Eq)]
pub enum TimePrecision {
    Micros,
    Millis,
    Seconds,
}

/// A text outside the grammar.
#[derive(Clone, Debug, PartialEq, Eq)]
pub struct Outside;

/// 01, Rows: bitfields at one position merge to smallest start and largest end. None where there are no bitfields.
pub fn get_max_bitfield_range<'a>(params: impl Iterator<Item = &'a Parameter>) -> Option<(u8, u8)> {
    params
        .filter_map(|p| if let Type::BitField(range) = &p.ty { Some((range.start, range.end)) } else { None })
        .reduce(|(start, end), (a, b)| (start.min(a), end.max(b)))
}
