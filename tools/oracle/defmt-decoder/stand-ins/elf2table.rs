//! In place of the crate's reader of ELF files, which is not in the text: the table comes from a book of document 01. The book is taken to be
//! one; who wants to know asks `kirayotep_check_book`.

use crate::{Encoding, StringEntry, Table, TableEntry, Tag};
use anyhow::{anyhow, bail, Context as _};
use std::collections::{BTreeMap, HashMap};

/// Named by the crate's lib.rs; a book has no locations.
pub struct Location;
pub type Locations = BTreeMap<u64, Location>;

fn tag_named(name: &str) -> Result<Tag, anyhow::Error> {
    Ok(match name {
        "prim" => Tag::Prim,
        "derived" => Tag::Derived,
        "bitflags" => Tag::Bitflags,
        "write" => Tag::Write,
        "str" => Tag::Str,
        "timestamp" => Tag::Timestamp,
        "bitflagsvalue" => Tag::BitflagsValue,
        "println" => Tag::Println,
        "trace" => Tag::Trace,
        "debug" => Tag::Debug,
        "info" => Tag::Info,
        "warn" => Tag::Warn,
        "error" => Tag::Error,
        _ => bail!("no tag {name}"),
    })
}

/// A byte of room behind each text gives it an address of its own, an empty one too: `log` tells by addresses which text a frame names.
fn entry(tag: Tag, text: &str) -> TableEntry {
    let mut string = String::with_capacity(text.len() + 1);
    string.push_str(text);
    TableEntry::new(StringEntry::new(tag, string), String::new())
}

fn value<'b>(lines: &mut impl Iterator<Item = &'b str>, key: &str) -> Result<&'b str, anyhow::Error> {
    let line = lines.next().with_context(|| format!("no line {key}"))?;
    line.strip_prefix(key).and_then(|rest| rest.strip_prefix('=')).ok_or_else(|| anyhow!("{line} is no line {key}"))
}

pub fn parse_impl(book: &[u8], _check_version: bool) -> Result<Option<Table>, anyhow::Error> {
    let book = std::str::from_utf8(book)?;
    let mut lines = book.strip_suffix('\n').context("no line end")?.split('\n').peekable();
    if value(&mut lines, "book")? != "1" {
        bail!("no book of this kind");
    }
    let clock = value(&mut lines, "clock")? == "yes";
    let timestamp = value(&mut lines, "timestamp")?;
    let timestamp = clock.then(|| entry(Tag::Timestamp, timestamp));
    let mut entries = BTreeMap::new();
    while lines.peek().is_some() {
        let index = value(&mut lines, "index")?.parse()?;
        let tag = tag_named(value(&mut lines, "tag")?)?;
        entries.insert(index, entry(tag, value(&mut lines, "text")?));
    }
    Ok(Some(Table { timestamp, entries, bitflags: HashMap::new(), encoding: Encoding::Rzcobs }))
}

pub fn get_locations(_elf: &[u8], _table: &Table) -> Result<Locations, anyhow::Error> {
    bail!("a book has no locations")
}
