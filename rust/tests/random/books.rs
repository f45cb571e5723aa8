//! Random books.

use super::grammars::{grammar_book, Scale, MEDIUM, SMALL};
use super::ranks::some_ranks;
use super::Random;
use crate::independent::book::{Action, Book, Production};
use purlquartz::Sizes;

/// What a random book is like. The shares of actions and gotos are percents.
#[derive(Clone, Copy, Debug)]
pub struct Taste {
    pub sizes: Sizes,
    pub longest: usize,
    pub shifts: usize,
    pub reduces: usize,
    pub gotos: usize,
}

pub fn small_book(random: &mut Random) -> Book {
    any_book(random, small_taste, SMALL)
}

pub fn medium_book(random: &mut Random) -> Book {
    any_book(random, medium_taste, MEDIUM)
}

/// A book that is wild, of a grammar, or of a grammar and disturbed.
fn any_book(random: &mut Random, taste: fn(&mut Random) -> Taste, scale: Scale) -> Book {
    if random.percent(60) {
        let taste = taste(random);
        return wild(random, taste);
    }
    let book = grammar_book(random, scale);
    let changes = random.below(5);
    disturbed(random, &book, changes)
}

/// Sizes of a book that brute force can deal with, dense or sparse.
pub fn small_taste(random: &mut Random) -> Taste {
    let sizes = Sizes {
        form: random.between(1, 2) as u16,
        terminals: random.between(1, 4) as u16,
        nonterminals: random.between(0, 3) as u16,
        states: random.between(1, 7) as u16,
        productions: random.between(0, 5) as u16,
    };
    Taste {
        sizes,
        longest: random.between(0, 4),
        shifts: random.between(5, 60),
        reduces: random.between(5, 60),
        gotos: random.between(20, 100),
    }
}

/// A book of form 2 with few states and many shifts: many pairs have several shortest sentences,
/// of which the ranks choose one.
pub fn tied_book(random: &mut Random) -> Book {
    let sizes = Sizes {
        form: 2,
        terminals: random.between(3, 6) as u16,
        nonterminals: random.between(1, 3) as u16,
        states: random.between(3, 8) as u16,
        productions: random.between(1, 5) as u16,
    };
    let taste = Taste {
        sizes,
        longest: random.between(1, 3),
        shifts: random.between(20, 60),
        reduces: random.between(10, 40),
        gotos: random.between(50, 100),
    };
    wild(random, taste)
}

/// A book where reductions break often: gotos are few, or productions longer than most stacks.
pub fn breaking_book(random: &mut Random) -> Book {
    let sizes = Sizes {
        form: random.between(1, 2) as u16,
        terminals: random.between(2, 5) as u16,
        nonterminals: random.between(1, 4) as u16,
        states: random.between(2, 9) as u16,
        productions: random.between(1, 6) as u16,
    };
    let taste = Taste {
        sizes,
        longest: random.pick(&[1, 2, 3, 5, 9, 32]),
        shifts: random.between(20, 60),
        reduces: random.between(20, 60),
        gotos: random.pick(&[5, 30, 60, 90]),
    };
    wild(random, taste)
}

/// Sizes in the middle of the limits, with productions of up to 32 symbols.
pub fn medium_taste(random: &mut Random) -> Taste {
    let sizes = Sizes {
        form: random.between(1, 2) as u16,
        terminals: random.between(2, 10) as u16,
        nonterminals: random.between(1, 8) as u16,
        states: random.between(4, 30) as u16,
        productions: random.between(2, 20) as u16,
    };
    Taste {
        sizes,
        longest: random.pick(&[2, 3, 5, 8, 32]),
        shifts: random.between(5, 60),
        reduces: random.between(5, 60),
        gotos: random.between(20, 100),
    }
}

/// Sizes up to the limits. Productions are short, or few reductions could be done.
pub fn large_taste(random: &mut Random) -> Taste {
    let sizes = Sizes {
        form: random.between(1, 2) as u16,
        terminals: random.between(16, 32) as u16,
        nonterminals: random.between(8, 32) as u16,
        states: random.between(40, 128) as u16,
        productions: random.between(30, 128) as u16,
    };
    Taste {
        sizes,
        longest: random.between(1, 3),
        shifts: random.between(5, 30),
        reduces: random.between(20, 60),
        gotos: random.between(10, 80),
    }
}

/// A book with any tables and ranks that are in range: states need not be reachable, reductions may
/// break or go on for ever.
pub fn wild(random: &mut Random, taste: Taste) -> Book {
    let mut sizes = taste.sizes;
    if sizes.nonterminals == 0 {
        sizes.productions = 0;
    }
    let productions = (0..sizes.productions).map(|_| Production {
        left: random.below(sizes.nonterminals.into()) as u16,
        length: random.between(0, taste.longest) as u16,
    });
    let productions = productions.collect();
    let ranks = some_ranks(random, sizes);
    let mut actions = Vec::new();
    for _ in 0..sizes.states {
        for terminal in 0..sizes.terminals {
            actions.push(wild_action(random, taste, sizes, terminal));
        }
    }
    let goto_count = usize::from(sizes.states) * usize::from(sizes.nonterminals);
    let gotos = (0..goto_count).map(|_| {
        let state = random.below(sizes.states.into()) as u16;
        random.percent(taste.gotos).then_some(state)
    });
    Book {
        sizes,
        productions,
        ranks,
        actions,
        gotos: gotos.collect(),
    }
}

fn wild_action(random: &mut Random, taste: Taste, sizes: Sizes, terminal: u16) -> Action {
    let roll = random.below(100);
    if roll < taste.shifts && terminal > 0 {
        return Action::Shift(random.below(sizes.states.into()) as u16);
    }
    if roll < taste.shifts + taste.reduces && sizes.productions > 0 {
        return Action::Reduce(random.below(sizes.productions.into()) as u16);
    }
    if terminal == 0 && random.percent(50) {
        return Action::Accept;
    }
    Action::Error
}

/// The book with some numbers of its tables changed to others in range.
pub fn disturbed(random: &mut Random, book: &Book, changes: usize) -> Book {
    let mut book = book.clone();
    let states = book.states();
    for _ in 0..changes {
        let state = random.below(states);
        if random.percent(70) || book.nonterminals() == 0 {
            let terminal = random.below(book.terminals());
            let taste = Taste {
                sizes: book.sizes,
                longest: 0,
                shifts: 30,
                reduces: 50,
                gotos: 0,
            };
            let action = wild_action(random, taste, book.sizes, terminal as u16);
            let at = state * book.terminals() + terminal;
            book.actions[at] = action;
        } else {
            let at = random.below(book.gotos.len());
            book.gotos[at] = random.percent(70).then_some(state as u16);
        }
    }
    book
}

/// The book with some gotos gone and some productions longer, so that reductions break.
pub fn breakable(random: &mut Random, book: &Book, changes: usize) -> Book {
    let mut book = book.clone();
    for _ in 0..changes {
        let production = random.below(book.productions.len().max(1));
        let longer = random.between(1, 3) as u16;
        match book.productions.get_mut(production) {
            Some(production) if random.percent(30) => {
                production.length = (production.length + longer).min(32);
            }
            _ => forget_goto(random, &mut book.gotos),
        }
    }
    book
}

fn forget_goto(random: &mut Random, gotos: &mut [Option<u16>]) {
    let there = (0..gotos.len()).filter(|&at| gotos[at].is_some());
    let there: Vec<usize> = there.collect();
    if !there.is_empty() {
        gotos[random.pick(&there)] = None;
    }
}
