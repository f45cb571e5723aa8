//! The calls of the library and of the independent implementation, side by side.
#![allow(dead_code)] // no single test uses all of it

pub mod compare;
pub mod lent;
pub mod lists;

use crate::independent::calls;
use purlquartz::*;

type Refused<T> = Result<T, Refusal>;
/// A call that writes the book of some cells to others, in one of the forms.
pub type Converter = fn(&[u16], &mut [u16]) -> Refused<usize>;
/// Takes a book, a state and a lookahead, work cells and a sentence buffer.
pub type Finder<A> = fn(&[u16], u16, u16, &mut [u16], &mut [u8]) -> Refused<A>;
/// Takes a book, two lists and bytes to write to.
pub type Joiner = fn(&[u16], &[u8], &[u8], &mut [u8]) -> Result<Joined, JoinRefusal>;
/// Takes a book, the two rows of a certificate and its sentences.
pub type Checker = fn(&[u16], &[u16], &[u16], &[u8]) -> Refused<Verdict>;

#[allow(clippy::type_complexity)] // each type is spelled as its call's
pub struct Calls {
    pub read: fn(&[u8], &mut [u16]) -> Refused<usize>,
    pub check: fn(&[u16]) -> Refused<Sizes>,
    pub to_form_1: Converter,
    pub to_form_2: Converter,
    pub write: fn(&[u16], &mut [u8]) -> Refused<usize>,
    pub run: fn(&[u16], &[u8], u16, &mut [u16]) -> Refused<Ending>,
    pub find: Finder<Found>,
    pub find_break: Finder<Break>,
    pub map: fn(&[u16], &mut [u16], &mut [u16]) -> Refused<usize>,
    pub sets: fn(&[u16], &mut [u16], &mut [u32], &mut [u32]) -> Refused<usize>,
    pub check_list: fn(&[u16], &[u8]) -> Refused<Rest>,
    pub entry: fn(&[u16], &[u8], usize) -> Refused<Option<Entry>>,
    pub entries: fn(&[u16], &[u8]) -> Refused<Vec<Entry>>,
    pub next_entry: fn(&[u8], Rest) -> Option<(Entry, Rest)>,
    pub judge: fn(&[u16], &[u8], &mut [u16], &mut [u16]) -> Refused<Judgement>,
    pub sort_list: fn(&[u16], &[u8], &mut [u8]) -> Refused<Sorted>,
    pub join_lists: Joiner,
    pub check_certificate: Checker,
}

impl Calls {
    /// The converter to form 1 or 2.
    pub fn to_form(&self, form: u16) -> Converter {
        match form {
            1 => self.to_form_1,
            2 => self.to_form_2,
            _ => panic!("there is no form {form}"),
        }
    }
}

/// Makes of each function that takes the calls two tests.
#[allow(unused_macros)] // as dead code
macro_rules! on_both {
    ($($name:ident)*) => {
        mod of_the_library {
            $(#[test] fn $name() { super::$name(&super::both::LIBRARY) })*
        }
        mod of_the_independent {
            $(#[test] fn $name() { super::$name(&super::both::INDEPENDENT) })*
        }
    };
}

/// The iterator's entries. At each of them it says how many remain.
fn collected(cells: &[u16], list: &[u8]) -> Refused<Vec<Entry>> {
    let mut entries = entries(cells, list)?;
    let mut given = Vec::new();
    let count = entries.len();
    while let Some(entry) = entries.next() {
        given.push(entry);
        assert_eq!(entries.len(), count - given.len());
    }
    assert_eq!(entries.next(), None);
    Ok(given)
}

pub const LIBRARY: Calls = Calls {
    read,
    check,
    to_form_1,
    to_form_2,
    write,
    run,
    find,
    find_break,
    map,
    sets,
    check_list,
    entry,
    entries: collected,
    next_entry,
    judge,
    sort_list,
    join_lists,
    check_certificate,
};

pub const INDEPENDENT: Calls = Calls {
    read: calls::read,
    check: calls::check,
    to_form_1: calls::to_form_1,
    to_form_2: calls::to_form_2,
    write: calls::write,
    run: calls::run,
    find: calls::find,
    find_break: calls::find_break,
    map: calls::map,
    sets: calls::sets,
    check_list: calls::check_list,
    entry: calls::entry,
    entries: calls::entries,
    next_entry: calls::next_entry,
    judge: calls::judge,
    sort_list: calls::sort_list,
    join_lists: calls::join_lists,
    check_certificate: calls::check_certificate,
};
