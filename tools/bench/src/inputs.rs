//! What is measured, made by the oracle's seeded generator.

use oracle::answers::{answer, table, Answer, Shown};
use oracle::blocks::encode;
use oracle::book::{Book, Entry, LEVELS};
use oracle::generate;
use oracle::random::Random;

const SEED: u64 = 0x5EED_BE7C;

/// The clock of every book here.
const CLOCK: &str = "{=u64:us}";

/// Where the time stands in a message, behind the index.
const TIME: std::ops::Range<usize> = 2..10;

/// Bytes of a piece of a stream.
pub const PIECE: usize = 1024;

pub fn random() -> Random {
    Random::new(SEED)
}

/// Bytes of messages for the blocks: more than a processor can learn by heart.
const PLAIN: usize = 112_000;

/// Messages of one length in which about one byte in `zeros` is a zero; none where that is 0.
pub fn plain(len: usize, zeros: usize) -> Vec<Vec<u8>> {
    let mut random = random();
    (0..PLAIN / len).map(|_| random.message(len, zeros)).collect()
}

/// Messages on the wire, each closed by a zero.
pub fn wire(messages: &[Vec<u8>]) -> Vec<u8> {
    messages.iter().flat_map(|message| [encode(message), vec![0]].concat()).collect()
}

/// Messages for a book.
pub struct Frames {
    pub book: Book,
    pub messages: Vec<Vec<u8>>,
}

fn entry(index: usize, tag: &'static str, text: impl Into<String>) -> Entry {
    Entry { index: index as u16, tag, text: text.into() }
}

fn book(entries: Vec<Entry>) -> Book {
    Book { clock: Some(CLOCK.to_owned()), entries }
}

/// Whether both sides have a text for the message and its timestamp.
fn has_text(book: &[u8], message: &[u8]) -> bool {
    let fine = |shown: &Shown| shown.text.is_ok() && shown.unprintable.is_none();
    match answer(&table(book), message, oracle::answers::Temper::Tame) {
        Answer::Decoded(decoded) => fine(&decoded.text) && decoded.timestamp.as_ref().is_some_and(fine),
        _ => false,
    }
}

/// Messages that the generator writes for a book, with a time that rises; those that it breaks on purpose are left out.
fn written(book: Book, count: usize) -> Frames {
    let mut random = random();
    let bytes = book.bytes();
    let (mut messages, mut time) = (Vec::new(), 0);
    while messages.len() < count {
        let (mut message, _) = generate::whole(&mut random, &book);
        time += random.below(1 << 20) as u64;
        if message.len() >= TIME.end {
            message[TIME].copy_from_slice(&time.to_le_bytes());
        }
        if has_text(&bytes, &message) {
            messages.push(message);
        }
    }
    Frames { book, messages }
}

pub fn short() -> Frames {
    let texts = ["ready", "T {=u8} {=i16}", "adc {=u16}", "link up: {=bool}"];
    written(book(texts.iter().enumerate().map(|(i, text)| entry(i, "info", *text)).collect()), 1024)
}

/// Texts as firmware has them: levels first; behind them those that others show.
const LOGGED: [&str; 16] = [
    "boot {=u32} cause {=u8:#04x}",
    "adc ch={=u8} raw={=u16} mv={=u16}",
    "waiting for the card",
    "temperature {=i16} of {=i16}",
    "rssi={=i8} ch={=u8} ok={=bool}",
    "read {=usize} of {=usize} bytes",
    "sector {=u32:#x}: {=[u8]:02x}",
    "flags {=0..4:b} {=4..8:b}",
    "state {=?} -> {=?}",
    "name {=str}",
    "task {=istr} took {=u32:us}",
    "crc {=u32:08X} expected {=u32:08X}",
    "retry {=u8}/{=u8} after {=u16}",
    "{=istr}: error {=i32}",
    "key {=[u8; 4]:x} at {=u64:tms}",
    "queue {=u16} of {=u16} used, {=u32} lost",
];
const SHOWN: [&str; 4] = ["Idle|Busy|Fault {=u8}", "Point {{ x: {=i16}, y: {=i16} }}", "None|Some({=u32})", "Timeout"];
const NAMES: [&str; 4] = ["radio", "flash", "card reader", "power"];

/// A book of so many entries, as firmware has them.
pub fn typical_book(count: usize) -> Book {
    let mut random = random();
    let mut entries = Vec::new();
    for index in 1..=count {
        entries.push(match index % 8 {
            0 => entry(index, "derived", random.pick(&SHOWN)),
            1 => entry(index, "str", random.pick(&NAMES)),
            _ => entry(index, random.pick(&LEVELS), format!("{}: {}", random.pick(&NAMES), random.pick(&LOGGED))),
        });
    }
    book(entries)
}

/// The typical mix: a book of 200 entries with a clock.
pub fn typical() -> Frames {
    written(typical_book(200), 1024)
}

/// The start of a message: an index and a time.
fn head(random: &mut Random, index: u16) -> Vec<u8> {
    let time = random.below(1 << 30) as u64;
    [&index.to_le_bytes()[..], &time.to_le_bytes()].concat()
}

fn count(message: &mut Vec<u8>, n: usize) {
    message.extend((n as u32).to_le_bytes());
}

fn words(random: &mut Random, len: usize) -> Vec<u8> {
    (0..len).map(|_| 32 + random.below(95) as u8).collect()
}

/// A message that is one string of so many bytes.
fn string(random: &mut Random, len: usize) -> Vec<u8> {
    let mut message = head(random, 1);
    count(&mut message, len);
    message.extend(words(random, len));
    message
}

fn string_book() -> Book {
    book(vec![entry(1, "info", "name {=str}")])
}

/// Strings of 16 to 207 bytes.
pub fn strings() -> Frames {
    let mut random = random();
    let messages = (0..1024).map(|_| 16 + random.below(192)).collect::<Vec<_>>();
    Frames { book: string_book(), messages: messages.into_iter().map(|len| string(&mut random, len)).collect() }
}

/// One string, as long as is asked.
pub fn long_string(len: usize) -> Frames {
    Frames { book: string_book(), messages: vec![string(&mut random(), len)] }
}

fn list_book() -> Book {
    book(vec![entry(1, "info", "table {=[?]}"), entry(2, "derived", "{=[?]}"), entry(3, "derived", "P {{ x: {=u8}, y: {=i16} }}")])
}

/// The index of what is listed, and the elements, of three bytes each.
fn points(random: &mut Random, message: &mut Vec<u8>, elements: usize) {
    count(message, elements);
    message.extend(3u16.to_le_bytes());
    message.extend(random.message(3 * elements, 4));
}

/// Lists of lists of points: up to 4 by 8 of them.
pub fn lists() -> Frames {
    let mut random = random();
    let messages = (0..256).map(|_| nested(&mut random)).collect();
    Frames { book: list_book(), messages }
}

fn nested(random: &mut Random) -> Vec<u8> {
    let mut message = head(random, 1);
    let rows = 1 + random.below(4);
    count(&mut message, rows);
    message.extend(2u16.to_le_bytes());
    for _ in 0..rows {
        let elements = 1 + random.below(8);
        points(random, &mut message, elements);
    }
    message
}

/// One list of points, as long as is asked.
pub fn long_list(elements: usize) -> Frames {
    let mut random = random();
    let mut message = head(&mut random, 1);
    points(&mut random, &mut message, elements);
    Frames { book: list_book(), messages: vec![message] }
}

/// The largest book there can be: 65,536 bytes hold no more entries than these.
pub const MOST_ENTRIES: usize = 2664;

/// A book of the shortest entries.
pub fn shortest_book(count: usize) -> Book {
    Book { clock: None, entries: (0..count).map(|index| entry(index, "str", "")).collect() }
}

/// Short frames by a book of so many entries.
pub fn in_a_book_of(count: usize) -> Frames {
    let mut random = random();
    let entries = (0..count).map(|index| entry(index, "str", "{=u8}")).collect();
    let messages = (0..256).map(|_| {
        let index = random.below(count) as u16;
        let mut message = head(&mut random, index);
        message.push(random.byte());
        message
    });
    Frames { messages: messages.collect(), book: book(entries) }
}
