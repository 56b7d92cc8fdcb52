//! Document 01's NOPRINT (Text): which texts are not written here though the Rust writes them, or panics.

use crate::book::fragments;
use defmt_decoder::log::{Named, Value};
use defmt_parser::{DisplayHint, Fragment};

#[derive(Clone, Copy, Debug, PartialEq, Eq, PartialOrd, Ord)]
pub enum Unprintable {
    Float,
    StringUnderDebug,
    ByteString,
}

fn is_byte(element: &Named) -> bool {
    matches!(element.values[..], [Value::Unsigned(0..=255)])
}

/// What stands in the way of the text, by the hint that is handed down.
pub fn unprintable(text: &str, values: &[Value], parent: Option<&DisplayHint>) -> Option<Unprintable> {
    let inner = |named: &Named, hint| unprintable(named.text, &named.values, hint);
    fragments(text)?.iter().find_map(|fragment| {
        let Fragment::Parameter(param) = fragment else { return None };
        let hint = param.hint.as_ref().or(parent);
        match &values[param.index] {
            Value::F32(_) | Value::F64(_) => Some(Unprintable::Float),
            Value::Str(_) | Value::Interned(_) | Value::Preformatted(_) => {
                (hint == Some(&DisplayHint::Debug)).then_some(Unprintable::StringUnderDebug)
            }
            Value::Format(named) => inner(named, if parent == Some(&DisplayHint::Ascii) { parent } else { hint }),
            Value::List(elements) if hint == Some(&DisplayHint::Ascii) && elements.iter().any(|e| e.text == "{=u8}") => {
                (!elements.iter().all(is_byte)).then_some(Unprintable::ByteString)
            }
            Value::List(named) | Value::Sequence(named) => named.iter().find_map(|n| inner(n, hint)),
            Value::Bool(_) | Value::Unsigned(_) | Value::Signed(_) | Value::Bytes(_) | Value::Char(_) => None,
        }
    })
}
