//! Document 01's grammar (Book, "Grammar:"), rule by rule.

use crate::{DisplayHint, Fragment, Outside, Parameter, ParserMode, TimePrecision, Type};

const MOST_PARAMETERS: usize = 32;
const MOST_POSITION: usize = 31;
const MOST_ELEMENTS: usize = 65535;
const MOST_BITS: usize = 128;
const MOST_PADDING: usize = 128;

/// A decimal number without a leading zero.
fn number(digits: &str, most: usize) -> Option<usize> {
    let plain = digits.bytes().all(|b| b.is_ascii_digit()) && (digits == "0" || !digits.starts_with('0'));
    let n = digits.parse().ok()?;
    (plain && n <= most).then_some(n)
}

/// "one space allowed before N"
fn count(after_semicolon: &str) -> Option<usize> {
    let digits = after_semicolon.strip_suffix(']')?;
    number(digits.strip_prefix(' ').unwrap_or(digits), MOST_ELEMENTS)
}

fn bitfield(name: &str) -> Option<Type> {
    let (start, end) = name.split_once("..")?;
    let (start, end) = (number(start, MOST_BITS)?, number(end, MOST_BITS)?);
    (start < end).then_some(Type::BitField(start as u8..end as u8))
}

fn type_named(name: &str) -> Option<Type> {
    Some(match name {
        "bool" => Type::Bool,
        "u8" => Type::U8,
        "u16" => Type::U16,
        "u32" => Type::U32,
        "u64" => Type::U64,
        "u128" => Type::U128,
        "usize" => Type::Usize,
        "i8" => Type::I8,
        "i16" => Type::I16,
        "i32" => Type::I32,
        "i64" => Type::I64,
        "i128" => Type::I128,
        "isize" => Type::Isize,
        "f32" => Type::F32,
        "f64" => Type::F64,
        "str" => Type::Str,
        "istr" => Type::IStr,
        "char" => Type::Char,
        "?" => Type::Format,
        "[u8]" => Type::U8Slice,
        "[?]" => Type::FormatSlice,
        "__internal_Debug" => Type::Debug,
        "__internal_Display" => Type::Display,
        "__internal_FormatSequence" => Type::FormatSequence,
        _ => {
            if let Some(rest) = name.strip_prefix("[u8;") {
                Type::U8Array(count(rest)?)
            } else if let Some(rest) = name.strip_prefix("[?;") {
                Type::FormatArray(count(rest)?)
            } else {
                bitfield(name)?
            }
        }
    })
}

fn padding(zero_and_number: &str) -> Option<usize> {
    let n = number(zero_and_number.strip_prefix('0')?, MOST_PADDING)?;
    (n > 0).then_some(n)
}

/// "optional `#`, optional `0N`, one of b o x X". No padding is a width of 0.
fn based(name: &str) -> Option<DisplayHint> {
    let (alternate, rest) = name.strip_prefix('#').map_or((false, name), |rest| (true, rest));
    let base = rest.chars().last()?;
    let pad = rest.strip_suffix(base)?;
    let zero_pad = if pad.is_empty() { 0 } else { padding(pad)? };
    match base {
        'b' => Some(DisplayHint::Binary { alternate, zero_pad }),
        'o' => Some(DisplayHint::Octal { alternate, zero_pad }),
        'x' | 'X' => Some(DisplayHint::Hexadecimal { uppercase: base == 'X', alternate, zero_pad }),
        _ => None,
    }
}

fn hint_named(name: &str) -> Option<DisplayHint> {
    Some(match name {
        "a" => DisplayHint::Ascii,
        "?" => DisplayHint::Debug,
        "us" => DisplayHint::Seconds(TimePrecision::Micros),
        "ms" => DisplayHint::Seconds(TimePrecision::Millis),
        "ts" => DisplayHint::Time(TimePrecision::Seconds),
        "tms" => DisplayHint::Time(TimePrecision::Millis),
        "tus" => DisplayHint::Time(TimePrecision::Micros),
        _ => match padding(name) {
            Some(zero_pad) => DisplayHint::NoHint { zero_pad },
            None => based(name)?,
        },
    })
}

/// What stands between the braces; `counter` gives the position where none is written.
fn parameter(inside: &str, counter: &mut usize) -> Option<Parameter> {
    let (front, hint) = match inside.split_once(':') {
        Some((front, name)) => (front, Some(hint_named(name)?)),
        None => (inside, None),
    };
    let (position, ty) = match front.split_once('=') {
        Some((position, name)) => (position, type_named(name)?),
        None => (front, Type::Format),
    };
    let index = if position.is_empty() {
        *counter += 1;
        *counter - 1
    } else {
        number(position, MOST_POSITION)?
    };
    Some(Parameter { index, ty, hint })
}

/// "one position has one type, or only bitfields"
fn agree(a: &Type, b: &Type) -> bool {
    a == b || matches!((a, b), (Type::BitField(_), Type::BitField(_)))
}

/// The rules on all parameters of a text.
fn fit_together(params: &[&Parameter]) -> bool {
    let positions = params.iter().map(|p| p.index + 1).max().unwrap_or(0);
    params.len() <= MOST_PARAMETERS
        && (0..positions).all(|position| {
            let mut here = params.iter().filter(|p| p.index == position);
            here.next().is_some_and(|first| here.all(|p| agree(&first.ty, &p.ty)))
        })
}

fn fragments(text: &str) -> Option<Vec<Fragment<'_>>> {
    let mut found = Vec::new();
    let mut counter = 0;
    let mut rest = text;
    while !rest.is_empty() {
        if rest.starts_with("{{") || rest.starts_with("}}") {
            found.push(Fragment::Literal(rest[..1].into()));
            rest = &rest[2..];
        } else if let Some(behind) = rest.strip_prefix('{') {
            let (inside, after) = behind.split_once('}')?;
            found.push(Fragment::Parameter(parameter(inside, &mut counter)?));
            rest = after;
        } else {
            let run = rest.find(['{', '}']).unwrap_or(rest.len());
            if run == 0 {
                return None;
            }
            found.push(Fragment::Literal(rest[..run].into()));
            rest = &rest[run..];
        }
    }
    Some(found)
}

pub fn parse(text: &str, _mode: ParserMode) -> Result<Vec<Fragment<'_>>, Outside> {
    let found = fragments(text).ok_or(Outside)?;
    let params: Vec<_> = found.iter().filter_map(|f| if let Fragment::Parameter(p) = f { Some(p) } else { None }).collect();
    if fit_together(&params) {
        Ok(found)
    } else {
        Err(Outside)
    }
}

#[cfg(test)]
mod tests {
    use super::*;

    fn is_in(text: &str) -> bool {
        parse(text, ParserMode::ForwardsCompatible).is_ok()
    }

    /// The cases that docs/DECISIONS.md settles.
    #[test]
    fn edges() {
        for text in [
            "",
            "{}",
            "{{}}",
            "{{{=u8}}}",
            "{=[u8;0]}",
            "{=[?;0]}",
            "{=[u8; 4]}",
            "{=0..1}",
            "{=0..128}",
            "{=u8:06}",
            "{=u8:0128}",
            "{:#06x}",
            "{0=u8}{=u8:x}",
            "{1}{}",
            "{0=[u8;4]}{0=[u8; 4]}",
            "{0}{0=?}",
            "{0=0..3}{0=3..9}",
            "{=?:?}",
            "a|b",
            "{31}",
        ] {
            let text = if text == "{31}" { (0..32).map(|i| format!("{{{i}}}")).collect() } else { text.to_owned() };
            assert!(is_in(&text), "{text}");
        }
        for text in [
            "{",
            "}",
            "{:}",
            "{=}",
            "{=u8",
            "{=u88}",
            "{=U8}",
            "{=0..0}",
            "{=5..3}",
            "{=0..129}",
            "{=u8:006}",
            "{=u8:0}",
            "{=u8:0x}",
            "{=u8:00}",
            "{=u8:#06}",
            "{=u8:6}",
            "{=u8:0129}",
            "{=[u8;04]}",
            "{=[u8;  4]}",
            "{=[u8;65536]}",
            "{00}",
            "{32}",
            "{1}",
            "{0=u8}{=u16}",
            "{0=u32}{0=usize}",
            "{0=[u8;4]}{0=[u8;5]}",
            "{0=0..3}{0=u8}",
            "{=u8:}",
            "{ =u8}",
            "{=u8 }",
            "{=u8:x?}",
            "{+1}",
            "{=+1..2}",
        ] {
            assert!(!is_in(text), "{text}");
        }
        assert!(!is_in(&"{0}".repeat(33)));
    }
}
