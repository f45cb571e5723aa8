//! Certificates in pieces, to change them.

use super::lists::{sentence, taken_sentence};
use super::Random;
use crate::independent::book::{Action, Book};
use crate::independent::numbers::{encode, Bytes, Source};
use purlquartz::certificate::{make, Certificate};
use purlquartz::{Condition, LONG, UNREACHED};

/// A certificate with a sentence for each pair. It is written down only where one is due.
#[derive(Clone)]
pub struct Pieces {
    pub crossings: Vec<u16>,
    pub pairs: Vec<u16>,
    pub sentences: Vec<Vec<u8>>,
}

impl Pieces {
    /// The pieces of a good book's true certificate.
    pub fn of(book: &Book) -> Pieces {
        let made = make(&book.cells()).expect("a good book");
        let mut source = Bytes::new(&made.sentences);
        let mut number = || source.next().expect("a number").value;
        let mut sentences = Vec::new();
        for &claim in &made.pairs {
            let due = if claim < LONG { number() } else { 0 };
            sentences.push((0..due).map(|_| number() as u8).collect());
        }
        Pieces {
            crossings: made.crossings,
            pairs: made.pairs,
            sentences,
        }
    }

    pub fn certificate(&self) -> Certificate {
        let mut sentences = Vec::new();
        for (&claim, sentence) in self.pairs.iter().zip(&self.sentences) {
            if claim < LONG {
                encode(sentence.len() as u32, &mut sentences);
                sentences.extend(sentence);
            }
        }
        Certificate {
            crossings: self.crossings.clone(),
            pairs: self.pairs.clone(),
            sentences,
        }
    }

    /// How many claims there are.
    pub fn count(&self) -> usize {
        self.crossings.len() + self.pairs.len()
    }

    /// The claim of an index, the pairs' counted on after the crossings'.
    pub fn claim(&mut self, index: usize) -> &mut u16 {
        match index.checked_sub(self.crossings.len()) {
            Some(pair) => &mut self.pairs[pair],
            None => &mut self.crossings[index],
        }
    }

    /// The pair of an index, if it is one of a pair's claim.
    pub fn pair(&self, index: usize) -> Option<usize> {
        index.checked_sub(self.crossings.len())
    }
}

/// The indices at which a true certificate can be changed so that one condition, and none before
/// it, is not met there.
pub fn weak_places(book: &Book, pieces: &Pieces, condition: Condition) -> Vec<usize> {
    let first_pair = pieces.crossings.len();
    let pairs = |is_weak: &dyn Fn(usize) -> bool| {
        let weak = (0..pieces.pairs.len()).filter(|&pair| is_weak(pair));
        weak.map(|pair| first_pair + pair).collect()
    };
    let terminals = book.terminals();
    match condition {
        Condition::Range => (0..pieces.count()).collect(),
        Condition::Roads => {
            let claims = pieces.crossings.iter().enumerate();
            let reached = claims.filter(|&(_, &claim)| claim < UNREACHED);
            reached.map(|(index, _)| index).collect()
        }
        Condition::Start => pairs(&|pair| pair < terminals),
        Condition::Transitions => {
            pairs(&|pair| pair >= terminals && pieces.pairs[pair] < UNREACHED)
        }
        Condition::Short => {
            pairs(&|pair| pieces.pairs[pair] == UNREACHED && is_left_nowhere(book, pieces, pair))
        }
        Condition::Sentences => pairs(&|pair| pieces.pairs[pair] < LONG && terminals > 1),
    }
}

/// Whether no transition leaves a pair.
fn is_left_nowhere(book: &Book, pieces: &Pieces, pair: usize) -> bool {
    let terminals = book.terminals();
    let (state, first) = (pair / terminals, pair % terminals);
    let shifts = matches!(book.action(state, first), Action::Shift(_));
    !shifts
        && (0..book.nonterminals()).all(|nonterminal| {
            let row = (state * book.nonterminals() + nonterminal) * terminals + first;
            let claims = &pieces.crossings[row * terminals..][..terminals];
            claims.iter().all(|&claim| claim == UNREACHED)
        })
}

/// Changes a true certificate so that the condition is not met at one of its weak places.
pub fn weaken(random: &mut Random, pieces: &mut Pieces, condition: Condition, index: usize) {
    match condition {
        Condition::Range => *pieces.claim(index) = random.pick(&[1_003, 1_004, 32_768, 65_535]),
        Condition::Short => *pieces.claim(index) = LONG,
        Condition::Roads | Condition::Start | Condition::Transitions => {
            *pieces.claim(index) += 1;
        }
        Condition::Sentences => {
            let pair = pieces.pair(index).expect("a pair has a sentence");
            let sentence = &mut pieces.sentences[pair];
            if sentence.is_empty() || random.percent(50) && sentence.len() < 1_000 {
                sentence.push(1);
            } else {
                sentence.pop();
            }
        }
    }
}

/// Changes some claims to others: near to them, at the ends of the range, or far out. A pair's
/// sentence stays, or becomes any other.
pub fn disturb(random: &mut Random, book: &Book, pieces: &mut Pieces) {
    let only_pairs = random.percent(30);
    for _ in 0..random.between(1, 5) {
        let first = if only_pairs {
            pieces.crossings.len()
        } else {
            0
        };
        let index = random.between(first, pieces.count() - 1);
        let claim = *pieces.claim(index);
        let near = [claim.saturating_sub(1), claim.saturating_add(1)];
        let far = [0, 0, 1, 2, 3, 1_000, 1_001, 1_002, 1_003, 65_535];
        let few = random.percent(40);
        *pieces.claim(index) = if few {
            random.pick(&near)
        } else {
            random.pick(&far)
        };
        if let Some(pair) = pieces.pair(index) {
            let length = usize::from(pieces.pairs[pair]).min(1_000);
            pieces.sentences[pair] = match random.below(4) {
                0 => sentence(random, book.sizes.terminals, length),
                1 => taken_sentence(random, book, length.min(12)),
                _ => continue,
            };
        }
    }
}

/// Changes a sentence: another pair's instead, or one more, fewer or other symbol.
pub fn disturb_sentence(random: &mut Random, book: &Book, pieces: &mut Pieces) {
    let pair = random.below(pieces.pairs.len());
    let other = random.below(pieces.pairs.len());
    let length = pieces.sentences[pair].len();
    let symbol = random.below(book.terminals()) as u8;
    match random.below(5) {
        0 => pieces.sentences.swap(pair, other),
        1 => pieces.sentences[pair] = pieces.sentences[other].clone(),
        2 => pieces.sentences[pair].push(symbol),
        3 if length > 0 => pieces.sentences[pair][random.below(length)] = symbol,
        _ => drop(pieces.sentences[pair].pop()),
    }
}
