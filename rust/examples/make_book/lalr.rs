//! LALR(1) tables of a grammar, as the cells of a book of form 1.
//!
//! States are the sets of kernel items of the LR(0) automaton, numbered breadth first, terminals
//! before nonterminals. Each kernel item has a set of lookaheads, one bit for each terminal, which
//! grows by propagation until nothing changes.

use super::grammar::{Grammar, Symbol};
use std::collections::HashMap;

/// The limits of a book.
const MOST_SYMBOLS: usize = 32;
const MOST_STATES: usize = 128;
const MOST_RULES: usize = 128;
const MOST_LENGTH: usize = 32;

/// A place in a right side. The rule past the last is the added start rule.
type Item = (usize, usize);

pub struct Tables {
    pub cells: Vec<u16>,
    pub states: usize,
    /// One line for each cell with more than one action.
    pub conflicts: Vec<String>,
}

pub fn build(grammar: &Grammar) -> Result<Tables, String> {
    check_limits(grammar)?;
    let firsts = Firsts::new(grammar);
    let mut automaton = Automaton::new(grammar)?;
    automaton.propagate(grammar, &firsts);
    Ok(automaton.tables(grammar, &firsts))
}

fn check_limits(grammar: &Grammar) -> Result<(), String> {
    let longest = grammar.rules.iter().map(|rule| rule.right.len()).max();
    let sizes = [
        ("terminals", grammar.terminals.len(), MOST_SYMBOLS),
        ("nonterminals", grammar.nonterminals.len(), MOST_SYMBOLS),
        ("productions", grammar.rules.len(), MOST_RULES),
        ("symbols to a production", longest.unwrap_or(0), MOST_LENGTH),
    ];
    match sizes.iter().find(|(_, size, most)| size > most) {
        Some((name, size, most)) => Err(format!("{size} {name}; a book has at most {most}")),
        None => Ok(()),
    }
}

/// Which terminals begin what a nonterminal derives, and whether it derives nothing.
struct Firsts {
    begins: Vec<u32>,
    vanishes: Vec<bool>,
}

impl Firsts {
    fn new(grammar: &Grammar) -> Firsts {
        let count = grammar.nonterminals.len();
        let mut firsts = Firsts {
            begins: vec![0; count],
            vanishes: vec![false; count],
        };
        loop {
            let mut changed = false;
            for rule in &grammar.rules {
                let (begins, vanishes) = firsts.of(&rule.right);
                let grown = firsts.begins[rule.left] | begins;
                changed |= grown != firsts.begins[rule.left];
                changed |= vanishes && !firsts.vanishes[rule.left];
                firsts.begins[rule.left] = grown;
                firsts.vanishes[rule.left] |= vanishes;
            }
            if !changed {
                return firsts;
            }
        }
    }

    fn of(&self, symbols: &[Symbol]) -> (u32, bool) {
        let mut begins = 0;
        for symbol in symbols {
            match *symbol {
                Symbol::Terminal(terminal) => return (begins | 1 << terminal, false),
                Symbol::Nonterminal(nonterminal) => {
                    begins |= self.begins[nonterminal];
                    if !self.vanishes[nonterminal] {
                        return (begins, false);
                    }
                }
            }
        }
        (begins, true)
    }
}

struct Automaton {
    /// Kernel items, ascending, by state.
    kernels: Vec<Vec<Item>>,
    /// Lookaheads of the kernel items.
    lookaheads: Vec<Vec<u32>>,
    moves: Vec<Vec<(Symbol, usize)>>,
}

fn right_side(grammar: &Grammar, rule: usize) -> &[Symbol] {
    match grammar.rules.get(rule) {
        Some(rule) => &rule.right,
        None => &[Symbol::Nonterminal(0)],
    }
}

impl Automaton {
    fn new(grammar: &Grammar) -> Result<Automaton, String> {
        let start = vec![(grammar.rules.len(), 0)];
        let mut automaton = Automaton {
            kernels: vec![start.clone()],
            lookaheads: Vec::new(),
            moves: Vec::new(),
        };
        let mut numbers = HashMap::from([(start, 0)]);
        let mut state = 0;
        while state < automaton.kernels.len() {
            let mut moves = Vec::new();
            for (symbol, kernel) in successors(grammar, &automaton.kernels[state]) {
                let fresh = automaton.kernels.len();
                let number = *numbers.entry(kernel.clone()).or_insert(fresh);
                if number == fresh {
                    automaton.kernels.push(kernel);
                }
                moves.push((symbol, number));
            }
            automaton.moves.push(moves);
            state += 1;
        }
        if state > MOST_STATES {
            return Err(format!("{state} states; a book has at most {MOST_STATES}"));
        }
        let lookaheads = automaton.kernels.iter().map(|kernel| vec![0; kernel.len()]);
        automaton.lookaheads = lookaheads.collect();
        Ok(automaton)
    }

    /// Lets lookaheads flow along the moves until they grow no more.
    fn propagate(&mut self, grammar: &Grammar, firsts: &Firsts) {
        self.lookaheads[0][0] = 1;
        let mut open: Vec<usize> = (0..self.kernels.len()).rev().collect();
        while let Some(state) = open.pop() {
            let items = self.closure(grammar, firsts, state);
            for (symbol, next) in self.moves[state].clone() {
                let mut grown = false;
                for (&(rule, place), &lookaheads) in &items {
                    if right_side(grammar, rule).get(place) == Some(&symbol) {
                        let kernel = &self.kernels[next];
                        let at = kernel.binary_search(&(rule, place + 1));
                        let kept = &mut self.lookaheads[next][at.expect("moved on")];
                        grown |= *kept | lookaheads != *kept;
                        *kept |= lookaheads;
                    }
                }
                if grown {
                    open.push(next);
                }
            }
        }
    }

    /// All items of a state with their lookaheads.
    fn closure(&self, grammar: &Grammar, firsts: &Firsts, state: usize) -> HashMap<Item, u32> {
        let mut items = HashMap::new();
        let mut open = Vec::new();
        for (&item, &lookaheads) in self.kernels[state].iter().zip(&self.lookaheads[state]) {
            items.insert(item, lookaheads);
            open.push(item);
        }
        while let Some((rule, place)) = open.pop() {
            let right = right_side(grammar, rule);
            let Some(&Symbol::Nonterminal(nonterminal)) = right.get(place) else {
                continue;
            };
            let (mut following, vanishes) = firsts.of(&right[place + 1..]);
            if vanishes {
                following |= items[&(rule, place)];
            }
            for (number, rule) in grammar.rules.iter().enumerate() {
                if rule.left == nonterminal {
                    let fresh = !items.contains_key(&(number, 0));
                    let kept = items.entry((number, 0)).or_insert(0);
                    if fresh || *kept | following != *kept {
                        *kept |= following;
                        open.push((number, 0));
                    }
                }
            }
        }
        items
    }

    fn tables(&self, grammar: &Grammar, firsts: &Firsts) -> Tables {
        let counts = [
            grammar.terminals.len(),
            grammar.nonterminals.len(),
            self.kernels.len(),
            grammar.rules.len(),
        ];
        let mut cells = vec![1];
        cells.extend(counts.map(|count| count as u16));
        for rule in &grammar.rules {
            cells.extend([rule.left as u16, rule.right.len() as u16]);
        }
        let mut conflicts = Vec::new();
        for state in 0..self.kernels.len() {
            let row = self.action_row(grammar, firsts, state, &mut conflicts);
            cells.extend(row);
        }
        for state in 0..self.kernels.len() {
            cells.extend(self.goto_row(grammar, state));
        }
        Tables {
            cells,
            states: self.kernels.len(),
            conflicts,
        }
    }

    /// Where several actions meet, the shift is written if there is one, else the earliest rule.
    fn action_row(
        &self,
        grammar: &Grammar,
        firsts: &Firsts,
        state: usize,
        conflicts: &mut Vec<String>,
    ) -> Vec<u16> {
        let mut offers = vec![Vec::new(); grammar.terminals.len()];
        for &(symbol, next) in &self.moves[state] {
            if let Symbol::Terminal(terminal) = symbol {
                offers[terminal].push(2 + 2 * next as u16);
            }
        }
        let mut items: Vec<_> = self.closure(grammar, firsts, state).into_iter().collect();
        items.sort();
        for ((rule, place), lookaheads) in items {
            if place == right_side(grammar, rule).len() {
                let start = rule == grammar.rules.len();
                let action = if start { 1 } else { 3 + 2 * rule as u16 };
                for (terminal, offer) in offers.iter_mut().enumerate() {
                    if lookaheads >> terminal & 1 == 1 {
                        offer.push(action);
                    }
                }
            }
        }
        for (terminal, offer) in offers.iter().enumerate() {
            let shift = offer.first().is_some_and(|action| action % 2 == 0);
            let settled = grammar.shift_wins && shift && offer.len() == 2;
            if offer.len() > 1 && !settled {
                let name = &grammar.terminals[terminal];
                conflicts.push(format!("state {state} under {name}: actions {offer:?}"));
            }
        }
        let chosen = offers.iter().map(|offer| offer.first().copied());
        chosen.map(|action| action.unwrap_or(0)).collect()
    }

    fn goto_row(&self, grammar: &Grammar, state: usize) -> Vec<u16> {
        let mut row = vec![0; grammar.nonterminals.len()];
        for &(symbol, next) in &self.moves[state] {
            if let Symbol::Nonterminal(nonterminal) = symbol {
                row[nonterminal] = next as u16 + 1;
            }
        }
        row
    }
}

/// The kernels that a state leads to, terminals before nonterminals, each kind ascending.
fn successors(grammar: &Grammar, kernel: &[Item]) -> Vec<(Symbol, Vec<Item>)> {
    let items = bare_closure(grammar, kernel);
    let terminals = (0..grammar.terminals.len()).map(Symbol::Terminal);
    let nonterminals = (0..grammar.nonterminals.len()).map(Symbol::Nonterminal);
    let mut found = Vec::new();
    for symbol in terminals.chain(nonterminals) {
        let moved = items.iter().filter(|&&(rule, place)| {
            let right = right_side(grammar, rule);
            right.get(place) == Some(&symbol)
        });
        let mut moved: Vec<Item> = moved.map(|&(rule, place)| (rule, place + 1)).collect();
        moved.sort();
        if !moved.is_empty() {
            found.push((symbol, moved));
        }
    }
    found
}

fn bare_closure(grammar: &Grammar, kernel: &[Item]) -> Vec<Item> {
    let mut items = kernel.to_vec();
    let mut added = vec![false; grammar.nonterminals.len()];
    let mut at = 0;
    while at < items.len() {
        let (rule, place) = items[at];
        at += 1;
        let right = right_side(grammar, rule);
        if let Some(&Symbol::Nonterminal(nonterminal)) = right.get(place) {
            if !std::mem::replace(&mut added[nonterminal], true) {
                let rules = grammar.rules.iter().enumerate();
                let rules = rules.filter(|(_, rule)| rule.left == nonterminal);
                items.extend(rules.map(|(number, _)| (number, 0)));
            }
        }
    }
    items
}
