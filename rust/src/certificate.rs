//! Makes certificates.
//!
//! Nothing here is proved, and nothing that is made here is to be believed. It need not be: what
//! [`make`] makes goes to [`check_certificate`](crate::check_certificate()), which is proved, and
//! which accepts only the true map.

mod crossings;
mod distances;
mod tables;
mod words;

use crate::{check, check_certificate, Refusal, Verdict, LONG};
use crossings::Crossings;
use distances::distances;
use tables::Tables;
use words::Words;

/// The two rows of claims and the sentences, as [`check_certificate`](crate::check_certificate())
/// takes them.
#[derive(Clone, Debug, PartialEq, Eq)]
pub struct Certificate {
    pub crossings: Vec<u16>,
    pub pairs: Vec<u16>,
    pub sentences: Vec<u8>,
}

impl Certificate {
    /// What the library says of it.
    pub fn check(&self, cells: &[u16]) -> Result<Verdict, Refusal> {
        check_certificate(cells, &self.crossings, &self.pairs, &self.sentences)
    }
}

/// Makes a certificate for a book: least lengths of all crossings and pairs, and for each pair of
/// at most 1,000 symbols a shortest sentence, not always the first.
///
/// It is not accepted if some pair is long, and need not be if some pair is reached only past a
/// run's limits, or by few of its shortest sentences within them.
///
/// Refusals: those of [`check`](crate::check()).
pub fn make(cells: &[u16]) -> Result<Certificate, Refusal> {
    let tables = Tables::new(check(cells)?, cells);
    let mut words = Words::new(tables.terminals);
    let crossings = Crossings::new(&tables, &mut words);
    let pairs = distances(&tables, &crossings, &mut words);
    let mut sentences = Vec::new();
    for way in pairs.iter().filter(|way| way.cost < LONG) {
        put_number(way.cost, &mut sentences);
        words.spell(way.word, &mut sentences);
    }
    Ok(Certificate {
        crossings: crossings.claims(),
        pairs: pairs.iter().map(|way| way.cost).collect(),
        sentences,
    })
}

/// Writes a number below 16,384 as in a book.
fn put_number(number: u16, bytes: &mut Vec<u8>) {
    if number < 0x80 {
        bytes.push(number as u8);
    } else {
        bytes.extend([number as u8 | 0x80, (number >> 7) as u8]);
    }
}
