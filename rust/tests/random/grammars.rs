//! Books of random grammars: conflicts are settled any way, so they need not be good parsers.

use super::ranks::in_any_form;
use super::Random;
use crate::grammar::{Grammar, Rule, Symbol};
use crate::independent::book::Book;
use crate::lalr;

/// The most of each in a random grammar.
#[derive(Clone, Copy)]
pub struct Scale {
    pub terminals: usize,
    pub nonterminals: usize,
    pub rules: usize,
    pub length: usize,
}

pub const SMALL: Scale = Scale {
    terminals: 4,
    nonterminals: 4,
    rules: 8,
    length: 4,
};

pub const MEDIUM: Scale = Scale {
    terminals: 10,
    nonterminals: 8,
    rules: 20,
    length: 6,
};

/// The book of a random grammar; grammars with too many states are passed over.
pub fn grammar_book(random: &mut Random, scale: Scale) -> Book {
    loop {
        let grammar = grammar(random, scale);
        if let Ok(tables) = lalr::build(&grammar) {
            return made_book(random, &tables.cells);
        }
    }
}

/// A book whose sentences have some hundred symbols, or over 1,000: each nonterminal is some copies
/// of the next one, or a few terminals instead.
pub fn long_book(random: &mut Random) -> Book {
    let levels = random.between(2, 6);
    let terminals = random.between(2, 4);
    let mut rules = vec![Rule {
        left: 0,
        right: vec![Symbol::Nonterminal(1), Symbol::Terminal(1)],
    }];
    for left in 1..=levels {
        let inner = match left < levels {
            true => Symbol::Nonterminal(left + 1),
            false => Symbol::Terminal(random.between(1, terminals - 1)),
        };
        let right = vec![inner; random.between(2, 9)];
        rules.push(Rule { left, right });
        if random.percent(25) {
            let right = vec![Symbol::Terminal(terminals - 1); random.between(0, 12)];
            rules.push(Rule { left, right });
        }
    }
    let grammar = Grammar {
        terminals: vec![String::new(); terminals],
        nonterminals: vec![String::new(); levels + 1],
        rules,
        shift_wins: true,
    };
    let tables = lalr::build(&grammar).expect("within the limits");
    made_book(random, &tables.cells)
}

/// The book of the generator's tables, which are of form 1, in any form.
fn made_book(random: &mut Random, cells: &[u16]) -> Book {
    let book = Book::from_cells(cells).expect("the generator's tables are in range");
    in_any_form(random, book)
}

fn grammar(random: &mut Random, scale: Scale) -> Grammar {
    let terminals = random.between(1, scale.terminals);
    let nonterminals = random.between(1, scale.nonterminals);
    let mut rules = Vec::new();
    for left in 0..nonterminals {
        rules.push(rule(random, scale, left, terminals, nonterminals));
    }
    while rules.len() < scale.rules && random.percent(80) {
        let left = random.below(nonterminals);
        rules.push(rule(random, scale, left, terminals, nonterminals));
    }
    Grammar {
        terminals: vec![String::new(); terminals],
        nonterminals: vec![String::new(); nonterminals],
        rules,
        shift_wins: true,
    }
}

fn rule(
    random: &mut Random,
    scale: Scale,
    left: usize,
    terminals: usize,
    nonterminals: usize,
) -> Rule {
    let length = random.between(0, scale.length);
    let mut right = Vec::new();
    for _ in 0..length {
        right.push(if terminals > 1 && random.percent(55) {
            Symbol::Terminal(random.between(1, terminals - 1))
        } else {
            Symbol::Nonterminal(random.below(nonterminals))
        });
    }
    Rule { left, right }
}
