//! The entries of a list, one after another.

use crate::{next_entry, Entry, Rest};

/// The entries of a checked list, made by [`entries`](crate::entries()).
#[derive(Clone, Debug)]
pub struct Entries<'list> {
    list: &'list [u8],
    rest: Rest,
}

impl<'list> Entries<'list> {
    pub(crate) fn new(list: &'list [u8], rest: Rest) -> Self {
        Entries { list, rest }
    }
}

impl Iterator for Entries<'_> {
    type Item = Entry;

    fn next(&mut self) -> Option<Entry> {
        let (entry, rest) = next_entry(self.list, self.rest)?;
        self.rest = rest;
        Some(entry)
    }

    fn size_hint(&self) -> (usize, Option<usize>) {
        (self.rest.left, Some(self.rest.left))
    }
}

impl ExactSizeIterator for Entries<'_> {}
