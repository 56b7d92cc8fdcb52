//! Rows as document 01 lists them, from the values of a frame. The Rust keeps no places: where a string stands, and which index an empty list
//! named, is told by walking the message along the values, whose types say how many bytes each took. The bytes at those places are then
//! looked at, so that a walk that went astray is seen.

use crate::book::by_position;
use defmt_decoder::log::{Named, Value};
use defmt_parser::Type;

pub type Row = [u64; 4];

pub struct Walk<'m> {
    message: &'m [u8],
    pub at: usize,
    pub rows: Vec<Row>,
    /// The depth of the deepest text, the outermost being 0.
    pub deepest: usize,
    /// What the rows that name a string name: the row's number, the string.
    pub strings: Vec<(usize, Vec<u8>)>,
}

/// How many bytes a value of one size takes.
fn width(ty: &Type) -> usize {
    match ty {
        Type::Bool | Type::U8 | Type::I8 => 1,
        Type::U16 | Type::I16 => 2,
        Type::U32 | Type::I32 | Type::Usize | Type::Isize | Type::F32 | Type::Char => 4,
        Type::U64 | Type::I64 | Type::F64 => 8,
        Type::U128 | Type::I128 => 16,
        Type::BitField(range) => ((range.end - 1) / 8 - range.start / 8 + 1).next_power_of_two().into(),
        other => panic!("{other:?} has no one size"),
    }
}

fn words(x: u128) -> [u64; 2] {
    [x as u64, (x >> 64) as u64]
}

impl<'m> Walk<'m> {
    pub fn new(message: &'m [u8]) -> Walk<'m> {
        Walk { message, at: 2, rows: Vec::new(), deepest: 0, strings: Vec::new() }
    }

    fn index(&mut self) -> u64 {
        self.at += 2;
        u16::from_le_bytes([self.message[self.at - 2], self.message[self.at - 1]]).into()
    }

    fn read_index(&mut self, named: &Named) -> u64 {
        let index = self.index();
        assert_eq!(index, named.index as u64, "the index that the message names");
        index
    }

    fn string(&mut self, kind: u64, string: &[u8]) {
        let place = self.at..self.at + string.len();
        assert_eq!(&self.message[place.clone()], string, "the string that stands at its place");
        self.strings.push((self.rows.len(), string.to_vec()));
        self.rows.push([kind, place.start as u64, string.len() as u64, 0]);
        self.at = place.end;
    }

    /// A row whose last word counts the rows below it.
    fn parent(&mut self, kind: u64, a: u64, b: u64, below: impl FnOnce(&mut Self)) {
        let row = self.rows.len();
        self.rows.push([kind, a, b, 0]);
        below(self);
        self.rows[row][3] = (self.rows.len() - row - 1) as u64;
    }

    /// A text that was split at its bars, if it has any: a format or an element.
    fn piece(&mut self, kind: u64, index: u64, named: &Named, depth: usize) {
        self.at += match named.bars {
            0 => 0,
            1..=255 => 1,
            _ => 2,
        };
        self.parent(kind, index, named.variant as u64, |walk| walk.text(named.text, &named.values, depth + 1));
    }

    fn list(&mut self, elements: &[Named], depth: usize) {
        let index = self.index();
        self.parent(9, index, elements.len() as u64, |walk| {
            for element in elements {
                assert_eq!(index, element.index as u64, "the list's index");
                walk.piece(10, index, element, depth);
            }
        });
    }

    fn sequence(&mut self, items: &[Named], depth: usize) {
        self.parent(11, items.len() as u64, 0, |walk| {
            for item in items {
                let index = walk.read_index(item);
                walk.parent(8, index, 0, |walk| walk.text(item.text, &item.values, depth + 1));
            }
            assert_eq!(walk.index(), 0, "the end of a sequence");
        });
    }

    fn number(&mut self, ty: &Type, kind: u64, [a, b]: [u64; 2]) {
        self.rows.push([kind, a, b, 0]);
        self.at += width(ty);
    }

    fn value(&mut self, ty: &Type, value: &Value, depth: usize) {
        if matches!(ty, Type::Str | Type::U8Slice | Type::FormatSlice) {
            self.at += 4;
        }
        match value {
            Value::Bool(x) => self.number(ty, 1, words((*x).into())),
            Value::Unsigned(x) => self.number(ty, 2, words(*x)),
            Value::Signed(x) => self.number(ty, 3, words(*x as u128)),
            Value::F32(bits) => self.number(ty, 4, words((*bits).into())),
            Value::F64(bits) => self.number(ty, 5, words((*bits).into())),
            Value::Char(c) => self.number(ty, 13, words((*c as u32).into())),
            Value::Str(s) => self.string(6, s.as_bytes()),
            Value::Bytes(bytes) => self.string(12, bytes),
            Value::Preformatted(s) => {
                self.string(14, s.as_bytes());
                self.at += 1;
            }
            Value::Interned(named) => {
                let index = self.read_index(named);
                self.strings.push((self.rows.len(), named.text.as_bytes().to_vec()));
                self.rows.push([7, index, 0, 0]);
            }
            Value::Format(named) => {
                let index = self.read_index(named);
                self.piece(8, index, named, depth);
            }
            Value::List(elements) => self.list(elements, depth),
            Value::Sequence(items) => self.sequence(items, depth),
        }
    }

    pub fn text(&mut self, text: &str, values: &[Value], depth: usize) {
        self.deepest = self.deepest.max(depth);
        let places = by_position(text).expect("a text that was decoded is in the grammar");
        assert_eq!(places.len(), values.len(), "an argument for each position");
        for (place, value) in places.iter().zip(values) {
            self.value(&place.ty, value, depth);
        }
    }
}
