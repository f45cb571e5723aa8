//! Reductions that break, by another book.
//!
//! For the reductions of one state a book is made in which a further state, `broken`, is reached
//! with a terminal next exactly by the sequences with which the reduction of that state and
//! terminal breaks. Each nonterminal has a twin there, and the state reduces to the twins. The goto
//! under a twin is that under its nonterminal, or `broken` where that is none. Below state 0 stand
//! so many further states that no reduction of the state takes them all off. They have no goto but
//! those under the twins, to `broken`, so that any other reduction breaks as it did.
//!
//! What the finder says of `broken` is then the answer. The book may be over a book's limits.

use super::book::{Action, Book, Production};
use super::reach::distances;
use super::summaries::Summaries;
use super::words::Words;
use purlquartz::{Break, Found, Sizes};
use std::ops::Range;

/// The answers for pairs of one state, each with its sentence or nothing.
pub fn find_breaks(book: &Book, state: usize, lookaheads: Range<usize>) -> Vec<(Break, Vec<u8>)> {
    let twinned = Twinned::new(book, state);
    let summaries = Summaries::new(&twinned.book);
    let distances = distances(&summaries, twinned.start);
    let mut words = Words::new(&summaries, &distances);
    let answers = lookaheads.map(|terminal| {
        let (found, sentence) = words.answer(summaries.head(twinned.broken, terminal));
        (as_break(found), sentence)
    });
    answers.collect()
}

fn as_break(found: Found) -> Break {
    match found {
        Found::Unreached => Break::None,
        Found::Long => Break::Long,
        Found::Sentence(length) => Break::Sentence(length),
    }
}

/// Whether any reduction of the state breaks with any sequence.
pub fn has_break(book: &Book, state: usize) -> bool {
    let is_reduce = |terminal| matches!(book.action(state, terminal), Action::Reduce(_));
    if !(0..book.terminals()).any(is_reduce) {
        return false;
    }
    let twinned = Twinned::new(book, state);
    let summaries = Summaries::new(&twinned.book);
    let distances = distances(&summaries, twinned.start);
    let mut heads = (0..book.terminals()).map(|terminal| summaries.head(twinned.broken, terminal));
    heads.any(|head| distances[head].is_some())
}

/// The book with twins for the reductions of one state.
struct Twinned {
    book: Book,
    start: usize,
    broken: usize,
}

impl Twinned {
    fn new(book: &Book, state: usize) -> Twinned {
        let mut twinned = book.clone();
        let longest = reduce_to_twins(&mut twinned, state);
        // An empty production pushes the states below state 0, one upon another.
        let push = Action::Reduce(twinned.productions.len() as u16);
        let left = 2 * book.sizes.nonterminals;
        twinned.productions.push(Production { left, length: 0 });
        let terminals = book.terminals();
        twinned.actions.extend(vec![Action::Error; terminals]);
        twinned.actions.extend(vec![push; terminals * longest]);
        twinned.gotos = twinned_gotos(book, longest);
        let broken = book.states();
        twinned.sizes = Sizes {
            nonterminals: left + 1,
            states: (broken + 1 + longest) as u16,
            productions: twinned.productions.len() as u16,
            ..book.sizes
        };
        Twinned {
            book: twinned,
            start: if longest > 0 { broken + longest } else { 0 },
            broken,
        }
    }
}

/// Makes the state reduce to the twins, and answers how long its longest production is.
fn reduce_to_twins(book: &mut Book, state: usize) -> usize {
    let terminals = book.terminals();
    let mut longest = 0;
    for action in &mut book.actions[state * terminals..][..terminals] {
        if let Action::Reduce(production) = *action {
            let Production { left, length } = book.productions[usize::from(production)];
            let left = left + book.sizes.nonterminals;
            *action = Action::Reduce(book.productions.len() as u16);
            book.productions.push(Production { left, length });
            longest = longest.max(length.into());
        }
    }
    longest
}

/// The gotos of the book's states, of `broken`, then of so many states below state 0, the one right
/// below it first. In each row the last is the one that pushes the state above.
fn twinned_gotos(book: &Book, below: usize) -> Vec<Option<u16>> {
    let nonterminals = book.nonterminals();
    let broken = book.sizes.states;
    let mut gotos = Vec::new();
    for state in 0..book.states() {
        let row = &book.gotos[state * nonterminals..][..nonterminals];
        gotos.extend(row);
        gotos.extend(row.iter().map(|goto| Some(goto.unwrap_or(broken))));
        gotos.push(None);
    }
    gotos.extend(vec![None; 2 * nonterminals + 1]);
    for depth in 0..below {
        let above = match depth {
            0 => 0,
            _ => broken + depth as u16,
        };
        gotos.extend(vec![None; nonterminals]);
        gotos.extend(vec![Some(broken); nonterminals]);
        gotos.push(Some(above));
    }
    gotos
}
