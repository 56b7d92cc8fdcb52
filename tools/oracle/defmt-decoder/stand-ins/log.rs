//! In place of the crate's logger, which is not in the text: what a frame holds, for those who compare. A frame keeps its arguments to itself,
//! so they are decoded once more by the crate's own `Decoder`, and the frame that they make has to be the crate's own.

use crate::{Arg, DecodeError, Decoder, Frame, Table};

/// A text of the table as a frame names it: the entry's index, the bars in the entry's text, the piece (0 where it is not split at bars), the
/// text of that piece.
#[derive(Clone, Debug, PartialEq)]
pub struct Named<'t> {
    pub index: usize,
    pub bars: usize,
    pub variant: usize,
    pub text: &'t str,
    pub values: Vec<Value<'t>>,
}

/// The crate's `Arg`, with addresses read as indices.
#[derive(Clone, Debug, PartialEq)]
pub enum Value<'t> {
    Bool(bool),
    Unsigned(u128),
    Signed(i128),
    F32(u32),
    F64(u64),
    Str(String),
    Interned(Named<'t>),
    Format(Named<'t>),
    List(Vec<Named<'t>>),
    Sequence(Vec<Named<'t>>),
    Bytes(Vec<u8>),
    Char(char),
    Preformatted(String),
}

pub struct Opened<'t> {
    pub frame: Frame<'t>,
    pub consumed: usize,
    /// The timestamp's text, where there is a clock, and the message's.
    pub timestamp_text: Option<&'t str>,
    pub text: &'t str,
    pub timestamp: Vec<Value<'t>>,
    pub values: Vec<Value<'t>>,
}

fn bars(text: &str) -> usize {
    text.matches('|').count()
}

fn named<'t>(table: &'t Table, text: &'t str, args: &[Arg<'t>]) -> Named<'t> {
    let at = text.as_ptr() as usize;
    let (index, from, whole) = table
        .entries
        .iter()
        .find_map(|(index, entry)| {
            let whole = entry.string.string.as_str();
            let from = at.checked_sub(whole.as_ptr() as usize)?;
            (from <= whole.len()).then_some((*index, from, whole))
        })
        .expect("a text of the table");
    Named { index, bars: bars(whole), variant: bars(&whole[..from]), text, values: values(table, args) }
}

fn item<'t>(table: &'t Table, arg: &Arg<'t>) -> Named<'t> {
    match arg {
        Arg::Format { format, args } => named(table, format, args),
        other => panic!("a sequence holds {other:?}"),
    }
}

fn value<'t>(table: &'t Table, arg: &Arg<'t>) -> Value<'t> {
    match arg {
        Arg::Bool(x) => Value::Bool(*x),
        Arg::F32(x) => Value::F32(x.to_bits()),
        Arg::F64(x) => Value::F64(x.to_bits()),
        Arg::Uxx(x) => Value::Unsigned(*x),
        Arg::Ixx(x) => Value::Signed(*x),
        Arg::Str(s) => Value::Str(s.clone()),
        Arg::IStr(s) => Value::Interned(named(table, s, &[])),
        Arg::Format { format, args } => Value::Format(named(table, format, args)),
        Arg::FormatSlice { elements } => Value::List(elements.iter().map(|e| named(table, e.format, &e.args)).collect()),
        Arg::FormatSequence { args } => Value::Sequence(args.iter().map(|arg| item(table, arg)).collect()),
        Arg::Slice(bytes) => Value::Bytes(bytes.clone()),
        Arg::Char(c) => Value::Char(*c),
        Arg::Preformatted(s) => Value::Preformatted(s.clone()),
    }
}

fn values<'t>(table: &'t Table, args: &[Arg<'t>]) -> Vec<Value<'t>> {
    args.iter().map(|arg| value(table, arg)).collect()
}

/// Equal; what is no number is not equal to itself, and then the words tell.
fn same(a: &Frame, b: &Frame) -> bool {
    a == b || format!("{a:?}") == format!("{b:?}")
}

pub fn open<'t>(table: &'t Table, message: &[u8]) -> Result<Opened<'t>, DecodeError> {
    let (frame, consumed) = table.decode(message)?;
    let index = frame.index();
    let mut decoder = Decoder::new(table, &message[2..]);
    let timestamp_text = table.timestamp.as_ref().map(|entry| entry.string.string.as_str());
    let timestamp = timestamp_text.map_or(Ok(Vec::new()), |text| decoder.decode_format(text))?;
    let (level, text) = table.get_with_level(index as usize).map_err(|()| DecodeError::Malformed)?;
    let args = decoder.decode_format(text)?;
    let opened = (values(table, &timestamp), values(table, &args));
    let again = Frame::new(table, level, index, timestamp_text, timestamp, text, args);
    assert!(same(&again, &frame), "the same decoding gives the same frame");
    Ok(Opened { frame, consumed, timestamp_text, text, timestamp: opened.0, values: opened.1 })
}
