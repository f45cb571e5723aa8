//! Changes of a certificate, as they are asked for.

use crate::random::certificates::Pieces;
use purlquartz::certificate::Certificate;

enum Change {
    Crossing(usize, u16),
    Pair(usize, u16),
    Sentence(usize, Vec<u8>),
    Crossings(usize),
    Pairs(usize),
    Bytes(usize),
    Byte(usize, u8),
    Insert(usize, u8),
}

/// Claims and sentences are changed first, then what is made of them.
pub struct Variation {
    changes: Vec<Change>,
}

impl Variation {
    pub fn parse(text: &str) -> Result<Variation, String> {
        let mut changes = Vec::new();
        for word in text.split_whitespace() {
            let change = Change::parse(word).ok_or(format!("not a change: {word}"))?;
            changes.push(change);
        }
        Ok(Variation { changes })
    }

    pub fn apply(&self, pieces: &Pieces) -> Result<Certificate, String> {
        let outside = || "a change is outside of the certificate".to_string();
        let mut pieces = pieces.clone();
        for change in &self.changes {
            change.of_pieces(&mut pieces).ok_or_else(outside)?;
        }
        let mut certificate = pieces.certificate();
        for change in &self.changes {
            change.of_rows(&mut certificate).ok_or_else(outside)?;
        }
        Ok(certificate)
    }
}

impl Change {
    fn parse(word: &str) -> Option<Change> {
        let (kind, rest) = word.split_once(':')?;
        let count = || rest.parse().ok();
        let at = || rest.split_once('=')?.0.parse().ok();
        let value = || Some(rest.split_once('=')?.1);
        Some(match kind {
            "crossing" => Change::Crossing(at()?, value()?.parse().ok()?),
            "pair" => Change::Pair(at()?, value()?.parse().ok()?),
            "sentence" => Change::Sentence(at()?, symbols(value()?)?),
            "crossings" => Change::Crossings(count()?),
            "pairs" => Change::Pairs(count()?),
            "bytes" => Change::Bytes(count()?),
            "byte" => Change::Byte(at()?, value()?.parse().ok()?),
            "insert" => Change::Insert(at()?, value()?.parse().ok()?),
            _ => return None,
        })
    }

    /// None if there is no such claim.
    fn of_pieces(&self, pieces: &mut Pieces) -> Option<()> {
        match self {
            Change::Crossing(at, claim) => *pieces.crossings.get_mut(*at)? = *claim,
            Change::Pair(at, claim) => *pieces.pairs.get_mut(*at)? = *claim,
            Change::Sentence(at, symbols) => *pieces.sentences.get_mut(*at)? = symbols.clone(),
            _ => {}
        }
        Some(())
    }

    /// None if there is no such byte.
    fn of_rows(&self, certificate: &mut Certificate) -> Option<()> {
        let bytes = &mut certificate.sentences;
        match *self {
            Change::Crossings(count) => certificate.crossings.resize(count, 0),
            Change::Pairs(count) => certificate.pairs.resize(count, 0),
            Change::Bytes(count) => bytes.resize(count, 0),
            Change::Byte(at, value) => *bytes.get_mut(at)? = value,
            Change::Insert(at, value) if at <= bytes.len() => bytes.insert(at, value),
            Change::Insert(..) => return None,
            _ => {}
        }
        Some(())
    }
}

/// `1.2.3`, or nothing.
fn symbols(text: &str) -> Option<Vec<u8>> {
    if text.is_empty() {
        return Some(Vec::new());
    }
    text.split('.').map(|symbol| symbol.parse().ok()).collect()
}
