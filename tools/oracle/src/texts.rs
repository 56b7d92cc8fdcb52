//! Random texts over the whole grammar.

use crate::random::Random;

const LEAVES: [&str; 18] = [
    "bool",
    "u8",
    "u16",
    "u32",
    "u64",
    "u128",
    "usize",
    "i8",
    "i16",
    "i32",
    "i64",
    "i128",
    "isize",
    "str",
    "istr",
    "char",
    "__internal_Debug",
    "__internal_Display",
];

/// The empty name is a type that is left out.
const NESTING: [&str; 6] = ["?", "", "[?]", "[?]", "__internal_FormatSequence", "__internal_FormatSequence"];

const LITERALS: [&str; 15] = ["", "", "", " ", "x=", ", ", "T ", "{{", "}}", "|", "\u{e9}", "\u{1f600}", "\t", "\"\\", "{{}}"];

/// Whether the parameters of a text may hold other texts.
#[derive(Clone, Copy, PartialEq, Eq)]
pub enum Reach {
    Leaf,
    Nesting,
}

fn array(random: &mut Random, of: &str, counts: &[usize]) -> String {
    let n = random.one_of(counts);
    let space = random.pick(&["", " "]);
    format!("[{of};{space}{n}]")
}

fn bitfield(random: &mut Random) -> String {
    let most = random.one_of(&[16, 128]);
    let start = random.below(most);
    let most = random.one_of(&[12, 128]);
    let end = start + 1 + random.below(most.min(128 - start));
    format!("{start}..{end}")
}

fn type_name(random: &mut Random, reach: Reach) -> String {
    match random.below(40) {
        0 => random.pick(&["f32", "f64"]).to_owned(),
        1..=3 => "[u8]".to_owned(),
        4 | 5 => array(random, "u8", &[0, 1, 2, 5, 17]),
        6..=10 => bitfield(random),
        11 | 12 if reach == Reach::Nesting => {
            let counts: &[usize] = if random.once_in(30) { &[400, 1500] } else { &[0, 1, 2, 3, 20] };
            array(random, "?", counts)
        }
        13..=22 if reach == Reach::Nesting => random.pick(&NESTING).to_owned(),
        _ => random.pick(&LEAVES).to_owned(),
    }
}

fn padding(random: &mut Random) -> String {
    format!("0{}", random.one_of(&[1, 2, 3, 5, 6, 8, 10, 20, 34, 128]))
}

/// Lists of texts get `a` more often than chance would have it: it makes byte strings of some.
fn hint(random: &mut Random, name: &str) -> String {
    if name.starts_with("[?") && random.once_in(3) {
        return ":a".to_owned();
    }
    match random.below(12) {
        0..=4 => String::new(),
        5 => ":a".to_owned(),
        6 => random.pick(&[":?", ":a"]).to_owned(),
        7 => format!(":{}", random.pick(&["us", "ms", "ts", "tms", "tus"])),
        8 => format!(":{}", padding(random)),
        _ => {
            let padding = if random.once_in(2) { padding(random) } else { String::new() };
            format!(":{}{padding}{}", random.pick(&["", "#"]), random.pick(&["b", "o", "x", "X", "x"]))
        }
    }
}

struct Written {
    position: String,
    name: String,
    hint: String,
}

impl Written {
    fn brackets(&self) -> String {
        let equals = if self.name.is_empty() { "" } else { "=" };
        format!("{{{}{equals}{}{}}}", self.position, self.name, self.hint)
    }
}

/// The parameters without a position, in order, and those with one: the positions that the counter does not reach, and some again.
fn parameters(random: &mut Random, reach: Reach) -> (Vec<Written>, Vec<Written>) {
    let count = if random.once_in(60) { 32 } else { random.one_of(&[0, 1, 1, 1, 2, 2, 3, 4, 6]) };
    let names: Vec<String> = (0..count).map(|_| type_name(random, reach)).collect();
    let counted = if random.once_in(2) { count } else { random.below(count + 1) };
    let mut places: Vec<usize> = (counted..count).collect();
    for _ in 0..if count > 0 && count < 30 { random.one_of(&[0, 0, 1, 2]) } else { 0 } {
        places.push(random.below(count));
    }
    for i in (1..places.len()).rev() {
        places.swap(i, random.below(i + 1));
    }
    let mut written = |position: String, name: &str, again: bool| Written {
        position,
        name: if again && name.contains("..") { bitfield(random) } else { name.to_owned() },
        hint: hint(random, name),
    };
    let without = names[..counted].iter().map(|name| written(String::new(), name, false)).collect();
    let with = places.iter().map(|&place| written(place.to_string(), &names[place], true)).collect();
    (without, with)
}

/// One text, not split.
pub fn text(random: &mut Random, reach: Reach) -> String {
    let (without, with) = parameters(random, reach);
    let (mut without, mut with) = (without.into_iter().peekable(), with.into_iter().peekable());
    let mut text = random.pick(&LITERALS).to_owned();
    while without.peek().is_some() || with.peek().is_some() {
        let (first, second) = if random.once_in(2) { (&mut without, &mut with) } else { (&mut with, &mut without) };
        let written = first.next().or_else(|| second.next()).expect("one is left");
        text.push_str(&written.brackets());
        text.push_str(random.pick(&LITERALS));
    }
    text
}

/// A text that is an enum: pieces with bars between them, now and then more than a byte can count.
pub fn variants(random: &mut Random, reach: Reach) -> String {
    let bars = if random.once_in(12) { random.one_of(&[254, 255, 256, 300]) } else { 1 + random.below(4) };
    let pieces: Vec<String> = (0..=bars)
        .map(|_| if bars > 4 { random.pick(&["", "a", "{=u8}"]).to_owned() } else { text(random, reach).replace('|', "") })
        .collect();
    pieces.join("|")
}

/// A text with one byte gone or one too many: most often it is outside the grammar.
pub fn broken(random: &mut Random, text: &str) -> String {
    let mut chars: Vec<char> = text.chars().collect();
    let at = random.below(chars.len() + 1);
    if at < chars.len() && random.once_in(2) {
        chars.remove(at);
    } else {
        chars.insert(at, ['{', '}', '=', ':', '0', '8', '?', '#', ' '][random.below(9)]);
    }
    chars.into_iter().collect()
}
