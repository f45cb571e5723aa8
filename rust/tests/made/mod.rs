//! Books and lists made by hand, and books of grammars.
#![allow(dead_code)] // no single test uses all of it

use crate::grammar::Grammar;
use crate::independent::book::{Action, Book, Production};
use crate::independent::numbers::MOST_NUMBER;
use crate::lalr;
use crate::random::lists::{line, Line};
use purlquartz::Sizes;

/// The book of a grammar without conflicts.
pub fn grammar_book(text: &str) -> Book {
    let grammar = Grammar::parse(text).expect("a good grammar");
    let tables = lalr::build(&grammar).expect("within the limits");
    assert_eq!(tables.conflicts, Vec::<String>::new());
    Book::from_cells(&tables.cells).expect("in range")
}

/// The book of form 1 with these tables, written as in its cells.
pub fn hand_book(
    sizes: [u16; 4],
    productions: &[[u16; 2]],
    actions: &[u16],
    gotos: &[u16],
) -> Book {
    let [terminals, nonterminals, states, count] = sizes;
    let mut cells = vec![1, terminals, nonterminals, states, count];
    cells.extend(productions.concat());
    cells.extend(actions);
    cells.extend(gotos);
    Book::from_cells(&cells).expect("a good book")
}

/// The specification's list for Bracket, with article 0 in each entry: one for each state, by rising
/// state.
pub fn bracket_lines() -> Vec<Line> {
    let sentences: [&[u8]; 6] = [&[], &[1], &[2], &[1], &[2, 1], &[2, 1, 3]];
    let lines = sentences.into_iter().zip([0, 1, 0, 3, 0, 1]);
    lines.map(|(symbols, next)| line(symbols, next)).collect()
}

/// Lists that are refused for Bracket, by which number and at which place.
pub const REFUSED_LISTS: [(&[u8], u16, usize); 22] = [
    (&[], 1, 0),
    (&[0x80, 0], 2, 0),
    (&[0x81, 1], 9, 0),
    (&[0x81, 0x80, 4], 9, 0),
    (&[1, 0xe9, 7], 8, 1),
    (&[1, 0x80, 0x80, 4], 8, 1),
    (&[1, 1, 4, 0, 0], 7, 2),
    (&[1, 1, 0, 0, 0], 7, 2),
    (&[1, 1, 0x81, 0x80, 4, 0, 0], 7, 2),
    (&[1, 0, 4, 0], 11, 2),
    (&[1, 0, 0x80, 0x80, 4, 0], 11, 2),
    // The article number: missing, cut short, padded, of four bytes.
    (&[1, 0, 0], 1, 3),
    (&[1, 0, 0, 0x80], 1, 3),
    (&[1, 0, 0, 0xff, 0xff], 1, 3),
    (&[1, 0, 0, 0x80, 0], 2, 3),
    (&[1, 0, 0, 0xff, 0xff, 0], 2, 3),
    (&[1, 0, 0, 0x80, 0x80, 0x80, 1], 2, 3),
    (&[1, 0, 0, 0xff, 0xff, 0x7f, 0], 6, 6),
    // After another fault of the entry, and before one of the next.
    (&[1, 0, 4, 0x80, 0], 11, 2),
    (&[2, 0, 0, 0x80, 0, 0xe9, 7], 2, 3),
    // The first entry is passed; in the last list the second repeats the first.
    (&[2, 0, 1, 0, 0, 4, 0], 11, 5),
    (&[2, 0, 0, 0, 0, 0, 0, 0], 6, 7),
];

/// 128 states, each 37 after the one before it, that follow one another by 1, the last by itself;
/// by 2 each is followed by itself. With the end mark next the even states fail in error, and the
/// odd ones break a reduction.
pub fn ladder() -> Book {
    let mut actions = vec![0; 128 * 3];
    for step in 0..128 {
        let state = rung(step);
        let next = rung((step + 1).min(127));
        let failing = 3 * (state as u16 % 2);
        let row = [failing, 2 + 2 * next as u16, 2 + 2 * state as u16];
        actions[3 * state..][..3].copy_from_slice(&row);
    }
    hand_book([3, 1, 128, 1], &[[0, 1]], &actions, &[0; 128])
}

/// The state of the ladder after so many times 1.
fn rung(step: usize) -> usize {
    37 * step % 128
}

/// For each state of the ladder the shortest line that fails there, by rising state.
pub fn ladder_lines() -> Vec<Line> {
    let mut lines: Vec<Line> = (0..128).map(|step| line(&[1; 127][..step], 0)).collect();
    lines.sort_by_key(|line| rung(line.sentence.len()));
    lines
}

/// The lines made longer by 2, which leaves a state of the ladder as it is.
pub fn lengthened(mut lines: Vec<Line>, length: usize) -> Vec<Line> {
    for line in &mut lines {
        line.sentence.resize(length, 2);
    }
    lines
}

/// The lines with the highest article numbers, each another, the first line the highest.
pub fn highly_numbered(mut lines: Vec<Line>) -> Vec<Line> {
    for (line, article) in lines.iter_mut().zip((0..=MOST_NUMBER).rev()) {
        line.article = article;
    }
    lines
}

/// The book of a grammar of x and y whose start is a nonterminal, then y. Each nonterminal is the
/// one below it, twice; what the lowest, a0, is, is given.
pub fn doubling(last: &str, levels: usize) -> Book {
    let mut text = format!("terminals: x y\nstart -> a{levels} y\n");
    for level in (1..=levels).rev() {
        text += &format!("a{level} -> a{0} a{0}\n", level - 1);
    }
    grammar_book(&(text + last))
}

/// The book of a grammar of x and y whose only sentence is 1,000 times x, then y. Its nonterminals
/// are start, c, b and a, each ten times the next one or x.
pub fn thousand() -> Book {
    let ten = |name: &str| [name; 10].join(" ");
    let [whole, part, piece] = ["b", "a", "x"].map(ten);
    grammar_book(&format!(
        "terminals: x y\nstart -> c y\nc -> {whole}\nb -> {part}\na -> {piece}\n"
    ))
}

/// A book whose stack grows with each symbol by 33 states, and never shrinks: state 0 goes on only
/// with 1 next, states 1 to 32 go on by nothing, state 33 takes in terminal t, which is passed only
/// with t + 1 next, and leads to state 1 again. With 31 next state 33 is the 1,024th state, and what
/// it does then is given.
pub fn growing(last: Action) -> Book {
    let mut actions = vec![Action::Error; 65 * 32];
    let mut gotos = vec![None; 65 * 2];
    actions[1] = Action::Reduce(0);
    gotos[0] = Some(1);
    for state in 1..33 {
        actions[state * 32 + 1..][..31].fill(Action::Reduce(0));
        gotos[state * 2] = Some(state as u16 + 1);
    }
    for terminal in 1..31 {
        let taken = 33 + terminal;
        actions[33 * 32 + terminal] = Action::Shift(taken as u16);
        actions[taken * 32 + terminal + 1] = Action::Reduce(1);
    }
    actions[33 * 32 + 31] = last;
    gotos[33 * 2] = Some(64);
    gotos[33 * 2 + 1] = Some(1);
    Book {
        sizes: Sizes {
            form: 1,
            terminals: 32,
            nonterminals: 2,
            states: 65,
            productions: 2,
        },
        productions: vec![
            Production { left: 0, length: 0 },
            Production { left: 1, length: 1 },
        ],
        ranks: (0..32).collect(),
        actions,
        gotos,
    }
}

/// The state that a state shifts a terminal to.
pub fn shifted(book: &Book, state: usize, terminal: usize) -> usize {
    match book.action(state, terminal) {
        Action::Shift(next) => next.into(),
        other => panic!("{other:?} in state {state} under {terminal}"),
    }
}

/// The state that nonterminals lead to one after another from state 0.
pub fn after(book: &Book, nonterminals: &[usize]) -> usize {
    let goto = |state, &nonterminal: &usize| book.goto(state, nonterminal).expect("a goto");
    nonterminals.iter().fold(0, goto)
}

/// The book without the goto of a state under a nonterminal.
pub fn without_goto(book: &Book, state: usize, nonterminal: usize) -> Book {
    let mut book = book.clone();
    let at = state * book.nonterminals() + nonterminal;
    book.gotos[at] = None;
    book
}
