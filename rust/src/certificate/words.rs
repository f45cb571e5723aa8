//! Words that share their parts.
//!
//! A word is never changed once it is made, so that a word made of others stays as long as it was
//! when better ones are found for these.

use crate::{LONG, UNREACHED};

/// 0 is the empty word, a terminal's number the word of that symbol; the others are joined words.
pub type Word = u32;

pub const EMPTY: Word = 0;

/// A least length so far, and a word that has it if it is at most 1,000.
#[derive(Clone, Copy)]
pub struct Way {
    pub cost: u16,
    pub word: Word,
}

impl Way {
    pub const NONE: Way = Way {
        cost: UNREACHED,
        word: EMPTY,
    };

    pub const NOTHING: Way = Way {
        cost: 0,
        word: EMPTY,
    };

    pub fn symbol(terminal: usize) -> Way {
        Way {
            cost: 1,
            word: terminal as Word,
        }
    }
}

pub struct Words {
    /// So many of the first words are the empty one and single symbols.
    symbols: usize,
    joined: Vec<[Word; 2]>,
}

impl Words {
    pub fn new(terminals: usize) -> Words {
        Words {
            symbols: terminals,
            joined: Vec::new(),
        }
    }

    /// Puts the one way after the other in place of what is there, if that costs less.
    pub fn lower(&mut self, place: &mut Way, front: Way, rest: Way) -> bool {
        let cost = sum(front.cost, rest.cost);
        if cost >= place.cost {
            return false;
        }
        let word = self.join(front.word, rest.word);
        *place = Way { cost, word };
        true
    }

    pub fn join(&mut self, front: Word, rest: Word) -> Word {
        if front == EMPTY || rest == EMPTY {
            return front | rest;
        }
        self.joined.push([front, rest]);
        (self.symbols + self.joined.len() - 1) as Word
    }

    /// Appends the symbols of a word.
    pub fn spell(&self, word: Word, bytes: &mut Vec<u8>) {
        let mut open = vec![word];
        while let Some(word) = open.pop() {
            match (word as usize).checked_sub(self.symbols) {
                Some(joined) => open.extend(self.joined[joined].iter().rev()),
                None if word == EMPTY => {}
                None => bytes.push(word as u8),
            }
        }
    }
}

/// What is over 1,000 counts as long, and what has an unreached part is unreached.
pub fn sum(one: u16, other: u16) -> u16 {
    match one == UNREACHED || other == UNREACHED {
        true => UNREACHED,
        false => (one + other).min(LONG),
    }
}
