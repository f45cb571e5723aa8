//! Lists of sentences.

use super::numbers::{encode, refuse, Bytes, Source};
use purlquartz::{Entry, Refusal, Rest};
use std::ops::Range;

pub struct List {
    pub first: usize,
    pub entries: Vec<Entry>,
}

impl List {
    pub fn rest(&self) -> Rest {
        Rest {
            offset: self.first,
            left: self.entries.len(),
        }
    }
}

/// An entry by what it says.
#[derive(Clone, Copy)]
pub struct Item<'a> {
    pub sentence: &'a [u8],
    pub lookahead: u16,
    pub article: u32,
}

impl<'a> Item<'a> {
    pub fn of(bytes: &'a [u8], entry: &Entry) -> Item<'a> {
        Item {
            sentence: entry.symbols(bytes),
            lookahead: entry.lookahead,
            article: entry.article,
        }
    }
}

/// Reads a list for a book of so many terminals.
pub fn decode(bytes: &[u8], terminals: u16) -> Result<List, Refusal> {
    let mut source = Bytes::new(bytes);
    let count = source.next()?.within(9, 0, 128)?;
    let first = source.offset();
    let mut entries = Vec::new();
    for _ in 0..count {
        entries.push(decode_entry(&mut source, terminals)?);
    }
    match source.rest() {
        Some(place) => refuse(6, place),
        None => Ok(List { first, entries }),
    }
}

/// The bytes of a list of entries.
pub fn encode_list<'a>(items: impl ExactSizeIterator<Item = Item<'a>>) -> Vec<u8> {
    let mut bytes = Vec::new();
    encode(items.len() as u32, &mut bytes);
    for item in items {
        encode(item.sentence.len() as u32, &mut bytes);
        bytes.extend(item.sentence);
        encode(item.lookahead.into(), &mut bytes);
        encode(item.article, &mut bytes);
    }
    bytes
}

/// The entry at a rest, with the rest after it. What is read has to be an entry only of some book,
/// and a book has at most 32 terminals.
pub fn next(bytes: &[u8], rest: Rest) -> Option<(Entry, Rest)> {
    let left = rest.left.checked_sub(1)?;
    let mut source = Bytes::from(bytes, rest.offset);
    let entry = decode_entry(&mut source, 32).ok()?;
    let offset = source.offset();
    Some((entry, Rest { offset, left }))
}

fn decode_entry(source: &mut Bytes, terminals: u16) -> Result<Entry, Refusal> {
    let symbols = decode_sentence(source, terminals)?;
    let lookahead = source.next()?.within(11, 0, terminals - 1)?;
    let article = source.next()?.value;
    Ok(Entry {
        start: symbols.start,
        length: symbols.len(),
        lookahead,
        article,
    })
}

/// Reads a length and so many symbols, and says where these stand, each in one byte.
pub fn decode_sentence(source: &mut Bytes, terminals: u16) -> Result<Range<usize>, Refusal> {
    let length = source.next()?.within(8, 0, 1_000)?;
    let start = source.offset();
    for _ in 0..length {
        source.next()?.within(7, 1, terminals - 1)?;
    }
    Ok(start..source.offset())
}
