//! Random books, messages for them (whole, cut, extended, flipped), and streams of such messages.

use crate::answers::Temper;
use crate::blocks::encode;
use crate::book::{by_position, Book, Entry, LEVELS, OTHERS};
use crate::random::Random;
use crate::texts::{broken, text, variants, Reach};
use defmt_parser::Type;

const LONGEST_TEXT: usize = 4096;
/// From this length on a message is brought to its end, and at this one it is cut.
const LONG_MESSAGE: usize = 600;
const LONGEST_MESSAGE: usize = 6000;

fn entry_text(random: &mut Random, level: bool) -> String {
    let reach = if random.once_in(2) { Reach::Leaf } else { Reach::Nesting };
    let made = match random.below(12) {
        0..=2 if !level => random.pick(&["{=u8}", "{=u8}", "{=u8}|{=u16}", "{=u8}|{=3..15}|", "{=u8}|{=u8}{=u8}"]).to_owned(),
        3 if !level => random.pick(&["{=?}", "{:x}", "<{0}{0:?}>", "{:a}{=u8}"]).to_owned(),
        4..=6 if !level => variants(random, reach),
        7 if level => variants(random, reach),
        _ => text(random, reach),
    };
    let made = if random.once_in(40) { broken(random, &made) } else { made };
    if made.len() > LONGEST_TEXT || made.contains('\n') {
        "{=u16}".to_owned()
    } else {
        made
    }
}

pub fn book(random: &mut Random) -> Book {
    let clock = match random.below(8) {
        0..=3 => None,
        4 => Some(random.pick(&["{=u64:us}", "{=u32:ms}", "{=u32:ts}", "{=u64:tus}", ""]).to_owned()),
        5 => Some(entry_text(random, true)),
        _ => Some(text(random, Reach::Leaf)),
    };
    let mut entries = Vec::new();
    let mut index = random.one_of(&[0, 1, 7, 250]);
    let count = 1 + random.below(8);
    // One entry for certain that inner lookups may take and that holds no other.
    let leaf = random.below(count);
    for i in 0..count {
        let level = i != leaf && random.once_in(3);
        let tag = if level { random.pick(&LEVELS) } else { random.pick(&OTHERS) };
        let text = if i == leaf { text(random, Reach::Leaf) } else { entry_text(random, level) };
        entries.push(Entry { index: index as u16, tag, text });
        index += 1 + if random.once_in(4) { random.below(6000) } else { random.below(3) };
    }
    Book { clock, entries }
}

/// The writing of a message. What does not decode ends it: nothing behind is read.
struct Writer<'a> {
    random: &'a mut Random,
    book: &'a Book,
    bytes: Vec<u8>,
    /// How deep texts may stand before only leaves are taken.
    reach: usize,
    /// Texts that hold others are taken until then.
    deep: bool,
}

struct Stopped;
type Goes = Result<(), Stopped>;

fn is_leaf(text: &str) -> bool {
    let nests = |ty: &Type| matches!(ty, Type::Format | Type::FormatSlice | Type::FormatArray(_) | Type::FormatSequence);
    by_position(text).is_some_and(|places| !places.iter().any(|p| nests(&p.ty)))
}

fn holds_a_format(text: &str) -> bool {
    by_position(text).is_some_and(|places| places.iter().any(|p| p.ty == Type::Format))
}

impl<'a> Writer<'a> {
    /// A number of some bytes, often one at a boundary.
    fn number(&mut self, bytes: usize) {
        let value: Vec<u8> = match self.random.below(8) {
            0 => vec![0; bytes],
            1 => vec![0xff; bytes],
            2 => (0..bytes).map(|i| if i + 1 == bytes { 0x80 } else { 0 }).collect(),
            3 => (0..bytes).map(|i| if i + 1 == bytes { 0x7f } else { 0xff }).collect(),
            4 | 5 => (0..bytes).map(|i| if i == 0 { self.random.byte() } else { 0 }).collect(),
            _ => (0..bytes).map(|_| self.random.byte()).collect(),
        };
        self.bytes.extend(value);
    }

    fn count(&mut self, n: usize) {
        self.bytes.extend((n as u32).to_le_bytes());
    }

    fn bytes(&mut self, n: usize) {
        for _ in 0..n {
            let byte = if self.random.once_in(2) { 32 + self.random.below(95) as u8 } else { self.random.byte() };
            self.bytes.push(byte);
        }
    }

    fn string(&mut self) -> Vec<u8> {
        let chars = self.random.one_of(&[0, 1, 2, 5, 12]);
        let mut string = String::new();
        for _ in 0..chars {
            string.push_str(self.random.pick(&["a", "Z", " ", "{", "|", "\u{e9}", "\u{20ac}", "\u{1f600}", "\"", "\n", "\0"]));
        }
        let mut string = string.into_bytes();
        if self.random.once_in(40) {
            string.push(self.random.one_of(&[0x80, 0xc3, 0xed, 0xf4]) as u8);
        }
        string
    }

    fn character(&mut self) {
        let c = self.random.one_of(&[0, 9, 0x41, 0x7f, 0xe9, 0x20ac, 0xd7ff, 0xe000, 0x10ffff, 0x41, 0x42, 0x43]);
        let c = if self.random.once_in(40) { self.random.one_of(&[0xd800, 0xdfff, 0x110000, 0xffff_ffff]) } else { c };
        self.count(c);
    }

    /// Writes the index of an entry that an inner lookup may take; now and then of one that it may not.
    fn lookup(&mut self, depth: usize, not_zero: bool) -> Result<&'a Entry, Stopped> {
        let leaf = depth >= self.reach || self.bytes.len() > LONG_MESSAGE;
        let may = |e: &&Entry| !e.has_level() && (e.index > 0 || !not_zero);
        let wanted = |e: &&Entry| if leaf { is_leaf(&e.text) } else { !self.deep || holds_a_format(&e.text) };
        let mut fitting: Vec<&'a Entry> = self.book.entries.iter().filter(may).filter(wanted).collect();
        if fitting.is_empty() {
            fitting = self.book.entries.iter().filter(may).filter(|e| is_leaf(&e.text)).collect();
        }
        if fitting.is_empty() || self.random.once_in(80) {
            let index = match self.book.entries.iter().find(|e| e.has_level()) {
                Some(entry) if self.random.once_in(2) => entry.index,
                _ => self.random.below(65536) as u16,
            };
            self.bytes.extend(index.to_le_bytes());
            return self.book.find(index).filter(|e| !e.has_level() && !not_zero).ok_or(Stopped);
        }
        let entry = fitting[self.random.below(fitting.len())];
        self.bytes.extend(entry.index.to_le_bytes());
        Ok(entry)
    }

    /// A text that is split at its bars: the number of a piece, and the piece.
    fn piece(&mut self, text: &str, depth: usize) -> Goes {
        let bars = text.matches('|').count();
        if bars == 0 {
            return self.text(text, depth + 1);
        }
        let past = self.random.once_in(80);
        let variant = if past { bars + 1 } else { self.random.below(bars + 1) };
        let number = (variant as u16).to_le_bytes();
        self.bytes.extend(if bars > 255 { &number[..] } else { &number[..1] });
        match text.split('|').nth(variant) {
            Some(piece) => self.text(piece, depth + 1),
            None => Err(Stopped),
        }
    }

    fn list(&mut self, elements: usize, depth: usize) -> Goes {
        let entry = self.lookup(depth, false)?;
        for _ in 0..elements {
            self.piece(&entry.text, depth)?;
        }
        Ok(())
    }

    fn elements(&mut self, depth: usize) -> usize {
        let few = depth >= self.reach || self.bytes.len() > LONG_MESSAGE;
        self.random.one_of(if few { &[0, 1] } else { &[0, 1, 2, 3, 5] })
    }

    fn value(&mut self, ty: &Type, depth: usize) -> Goes {
        match ty {
            Type::Bool => {
                let bool = if self.random.once_in(40) { 2 } else { self.random.below(2) };
                self.bytes.push(bool as u8);
            }
            Type::U8 | Type::I8 => self.number(1),
            Type::U16 | Type::I16 => self.number(2),
            Type::U32 | Type::I32 | Type::Usize | Type::Isize | Type::F32 => self.number(4),
            Type::U64 | Type::I64 | Type::F64 => self.number(8),
            Type::U128 | Type::I128 => self.number(16),
            Type::BitField(range) => self.number(((range.end - 1) / 8 - range.start / 8 + 1).next_power_of_two().into()),
            Type::Char => self.character(),
            Type::Str => {
                let string = self.string();
                self.count(string.len());
                self.bytes.extend(string);
            }
            Type::Debug | Type::Display => {
                let string = self.string();
                self.bytes.extend(string);
                self.bytes.push(0xff);
            }
            Type::U8Slice => {
                let n = self.random.one_of(&[0, 1, 3, 16]);
                self.count(n);
                self.bytes(n);
            }
            Type::U8Array(n) => self.bytes(*n),
            Type::IStr => drop(self.lookup(0, false)?),
            Type::Format => {
                let entry = self.lookup(depth, false)?;
                self.piece(&entry.text, depth)?;
            }
            Type::FormatSlice => {
                let elements = self.elements(depth);
                self.count(elements);
                self.list(elements, depth)?;
            }
            Type::FormatArray(elements) => self.list(*elements, depth)?,
            Type::FormatSequence => {
                for _ in 0..self.elements(depth) {
                    let entry = self.lookup(depth, true)?;
                    self.text(&entry.text, depth + 1)?;
                }
                self.bytes.extend([0, 0]);
            }
        }
        Ok(())
    }

    fn text(&mut self, text: &str, depth: usize) -> Goes {
        if self.bytes.len() > LONGEST_MESSAGE {
            return Err(Stopped);
        }
        for place in by_position(text).ok_or(Stopped)? {
            self.value(&place.ty, depth)?;
        }
        Ok(())
    }

    fn message(&mut self) -> Goes {
        let entry = &self.book.entries[self.random.below(self.book.entries.len())];
        let index = if self.random.once_in(60) { self.random.below(65536) as u16 } else { entry.index };
        self.bytes.extend(index.to_le_bytes());
        if let Some(timestamp) = &self.book.clock {
            self.text(timestamp, 0)?;
        }
        let entry = self.book.find(index).ok_or(Stopped)?;
        self.text(&entry.text, 0)
    }
}

/// What may come of a message that is not as the writer meant it.
fn temper(book: &Book, strange: bool) -> Temper {
    if strange && !book.is_harmless() {
        Temper::Wild
    } else {
        Temper::Tame
    }
}

/// A message as the firmware would send it, save for a value that breaks its rule now and then. One that nests deep may have a text without
/// end, and one that was broken off may have anything for a count: these are wild.
pub fn whole(random: &mut Random, book: &Book) -> (Vec<u8>, Temper) {
    let deep = random.once_in(40);
    let reach = if deep { 14 + random.below(6) } else { random.below(4) };
    let mut writer = Writer { random, book, bytes: Vec::new(), reach, deep };
    let stopped = writer.message().is_err();
    let mut message = writer.bytes;
    if stopped {
        message.extend(random.message(4, 4));
    }
    (message, if deep { Temper::Wild } else { temper(book, stopped) })
}

/// Whole, cut, extended or flipped.
pub fn message(random: &mut Random, book: &Book) -> (Vec<u8>, Temper) {
    let (mut message, mut tempered) = whole(random, book);
    match random.below(10) {
        0 | 1 => message.truncate(random.below(message.len() + 1)),
        2 => {
            let more = random.below(6);
            message.extend(random.message(more, 3));
        }
        3 | 4 if !message.is_empty() => {
            if tempered == Temper::Tame {
                tempered = temper(book, true);
            }
            for _ in 0..1 + random.below(3) {
                let at = random.below(message.len());
                message[at] = if random.once_in(2) { message[at] ^ (1 << random.below(8)) } else { random.byte() };
            }
        }
        _ => (),
    }
    (message, tempered)
}

/// What arrives, in pieces: codings of messages and noise, each closed by zeros, bytes changed or lost.
pub struct Session {
    pub pieces: Vec<Vec<u8>>,
    pub temper: Temper,
}

fn cut(random: &mut Random, wire: &[u8]) -> Vec<Vec<u8>> {
    let mut pieces = Vec::new();
    let mut rest = wire;
    while !rest.is_empty() {
        let longest = random.one_of(&[1, 4, 20, 300]);
        let (piece, behind) = rest.split_at(random.below(longest + 1).min(rest.len()));
        pieces.push(piece.to_vec());
        rest = behind;
    }
    pieces
}

pub fn session(random: &mut Random, book: &Book) -> Session {
    let mut wire = vec![0; random.below(3)];
    let (mut changed, mut wild) = (false, false);
    for _ in 0..random.below(8) {
        let (message, of_message) = message(random, book);
        let mut coding = encode(&message);
        if random.once_in(5) && !coding.is_empty() {
            changed = true;
            let at = random.below(coding.len());
            if random.once_in(2) {
                coding.remove(at);
            } else {
                coding[at] = random.byte();
            }
        }
        wild |= of_message == Temper::Wild;
        wire.extend(coding);
        wire.extend(vec![0; 1 + random.below(3)]);
    }
    if random.once_in(3) {
        wire.extend(random.message(5, 0));
    }
    let temper = if wild { Temper::Wild } else { temper(book, changed) };
    Session { pieces: cut(random, &wire), temper }
}

/// Codings for the block decoder: of messages, damaged, and noise; without zeros, save for a few.
pub fn coding(random: &mut Random) -> Vec<u8> {
    let len = random.one_of(&[0, 1, 2, 5, 6, 7, 8, 13, 14, 20, 133, 134, 135, 141, 268, 300]);
    let of = random.one_of(&[0, 2, 3, 16]);
    let mut coding = match random.below(4) {
        0 => random.message(len, 0),
        _ => encode(&random.message(len, of)),
    };
    if !coding.is_empty() && random.once_in(3) {
        let at = random.below(coding.len());
        match random.below(3) {
            0 => coding[at] = random.non_zero(),
            1 => drop(coding.remove(at)),
            _ => coding.insert(at, random.non_zero()),
        }
    }
    if !coding.is_empty() && random.once_in(30) {
        let at = random.below(coding.len());
        coding[at] = 0;
    }
    coding
}

/// A book whose texts are all in the grammar.
pub fn sound_book(random: &mut Random) -> Book {
    loop {
        let book = book(random);
        if book.is_sound() {
            return book;
        }
    }
}
