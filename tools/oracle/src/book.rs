//! Books, as document 01 writes them.

use defmt_parser::{Fragment, Parameter, ParserMode, Type};

#[derive(Clone, Debug, PartialEq, Eq)]
pub struct Entry {
    pub index: u16,
    pub tag: &'static str,
    pub text: String,
}

#[derive(Clone, Debug, PartialEq, Eq)]
pub struct Book {
    /// The timestamp's text, where there is a clock.
    pub clock: Option<String>,
    pub entries: Vec<Entry>,
}

pub const LEVELS: [&str; 5] = ["trace", "debug", "info", "warn", "error"];
pub const OTHERS: [&str; 8] = ["prim", "derived", "bitflags", "write", "str", "timestamp", "bitflagsvalue", "println"];

impl Entry {
    pub fn has_level(&self) -> bool {
        LEVELS.contains(&self.tag)
    }
}

impl Book {
    pub fn bytes(&self) -> Vec<u8> {
        let clock = if self.clock.is_some() { "yes" } else { "no" };
        let mut lines = format!("book=1\nclock={clock}\ntimestamp={}\n", self.clock.as_deref().unwrap_or(""));
        for Entry { index, tag, text } in &self.entries {
            lines.push_str(&format!("index={index}\ntag={tag}\ntext={text}\n"));
        }
        lines.into_bytes()
    }

    pub fn find(&self, index: u16) -> Option<&Entry> {
        self.entries.iter().find(|e| e.index == index)
    }

    /// All texts that decoding may come to scan: whole ones, and the pieces of those with bars.
    fn scanned(&self) -> impl Iterator<Item = &str> {
        let entries = self.entries.iter().map(|e| &e.text);
        entries.chain(&self.clock).flat_map(|text| text.split('|').chain(text.contains('|').then_some(text.as_str())))
    }

    pub fn is_sound(&self) -> bool {
        self.scanned().all(|text| fragments(text).is_some())
    }

    /// No message of a moderate length makes the Rust abort or go on: no text reads a count of elements, or shows one format twice.
    pub fn is_harmless(&self) -> bool {
        self.scanned().all(|text| {
            let written = fragments(text).map(parameters).unwrap_or_default();
            let shown = |p: &Parameter| written.iter().filter(|q| q.index == p.index).count();
            written.iter().all(|p| match p.ty {
                Type::FormatSlice => false,
                Type::FormatArray(n) => n <= MODERATE && shown(p) == 1,
                Type::Format | Type::FormatSequence => shown(p) == 1,
                _ => true,
            })
        })
    }
}

const MODERATE: usize = 1500;

fn parameters(fragments: Vec<Fragment<'_>>) -> Vec<Parameter> {
    let parameter = |f| if let Fragment::Parameter(p) = f { Some(p) } else { None };
    fragments.into_iter().filter_map(parameter).collect()
}

pub fn fragments(text: &str) -> Option<Vec<Fragment<'_>>> {
    defmt_parser::parse(text, ParserMode::ForwardsCompatible).ok()
}

/// One parameter for each position, its bitfields merged.
pub fn by_position(text: &str) -> Option<Vec<Parameter>> {
    let written = parameters(fragments(text)?);
    let mut places: Vec<Parameter> = Vec::new();
    while let Some(first) = written.iter().find(|p| p.index == places.len()) {
        let mut merged = first.clone();
        if let Some((start, end)) = defmt_parser::get_max_bitfield_range(written.iter().filter(|p| p.index == places.len())) {
            merged.ty = Type::BitField(start..end);
        }
        places.push(merged);
    }
    Some(places)
}
