//! The tables of a book that was checked.

use crate::Sizes;
use std::ops::Range;

#[derive(Clone, Copy)]
pub enum Action {
    Ends,
    Shift(usize),
    Reduce(usize),
}

#[derive(Clone, Copy)]
pub struct Production {
    pub left: usize,
    pub length: usize,
}

/// A *head* is a state with the terminal looked at, numbered by state, then terminal.
pub struct Tables {
    pub terminals: usize,
    pub nonterminals: usize,
    pub states: usize,
    pub productions: Vec<Production>,
    /// By head.
    pub actions: Vec<Action>,
    /// By state, then nonterminal.
    gotos: Vec<Option<usize>>,
}

impl Tables {
    pub fn new(sizes: Sizes, cells: &[u16]) -> Tables {
        let [terminals, nonterminals, states, productions] = [
            sizes.terminals,
            sizes.nonterminals,
            sizes.states,
            sizes.productions,
        ]
        .map(usize::from);
        let ranks = if sizes.form == 2 { terminals } else { 0 };
        let (rules, rest) = cells[5..].split_at(2 * productions);
        let (actions, gotos) = rest[ranks..].split_at(states * terminals);
        let production = |rule: &[u16]| Production {
            left: rule[0].into(),
            length: rule[1].into(),
        };
        Tables {
            terminals,
            nonterminals,
            states,
            productions: rules.chunks(2).map(production).collect(),
            actions: actions.iter().map(|&cell| action(cell)).collect(),
            gotos: gotos.iter().map(|&cell| state(cell)).collect(),
        }
    }

    pub fn heads(&self) -> usize {
        self.actions.len()
    }

    pub fn head(&self, state: usize, terminal: usize) -> usize {
        state * self.terminals + terminal
    }

    /// The heads of a state.
    pub fn row(&self, state: usize) -> Range<usize> {
        self.head(state, 0)..self.head(state + 1, 0)
    }

    pub fn goto(&self, state: usize, nonterminal: usize) -> Option<usize> {
        self.gotos[state * self.nonterminals + nonterminal]
    }

    /// How many crossings there are, of gotos that are there and of none.
    pub fn crossings(&self) -> usize {
        self.heads() * self.nonterminals * self.terminals
    }

    /// The index of a crossing that begins at a head.
    pub fn crossing(&self, head: usize, nonterminal: usize, following: usize) -> usize {
        let (state, first) = (head / self.terminals, head % self.terminals);
        let row = (state * self.nonterminals + nonterminal) * self.terminals + first;
        row * self.terminals + following
    }
}

/// Accept and error both end the machine.
fn action(cell: u16) -> Action {
    let cell = usize::from(cell);
    match cell {
        0 | 1 => Action::Ends,
        _ if cell % 2 == 0 => Action::Shift((cell - 2) / 2),
        _ => Action::Reduce((cell - 3) / 2),
    }
}

fn state(cell: u16) -> Option<usize> {
    usize::from(cell).checked_sub(1)
}
