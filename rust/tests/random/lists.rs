//! Random sentences and lists of them, good and damaged.

use super::bytes::{damaged, widened};
use super::Random;
use crate::independent::book::{Action, Book};
use crate::independent::breaks::find_breaks;
use crate::independent::calls::{failing_state, find_all};
use crate::independent::list::{self, Item};
use crate::independent::machine::run;
use crate::independent::numbers::{decoded, encoded, MOST_NUMBER};
use purlquartz::{Break, Ending, Found};

/// A sentence, its lookahead and the article number of its message.
#[derive(Clone, Debug, PartialEq, Eq, PartialOrd, Ord)]
pub struct Line {
    pub sentence: Vec<u8>,
    pub lookahead: u16,
    pub article: u32,
}

impl Line {
    pub fn with_article(&self, article: u32) -> Line {
        Line {
            article,
            ..self.clone()
        }
    }
}

/// With article 0.
pub fn line(sentence: &[u8], lookahead: u16) -> Line {
    Line {
        sentence: sentence.to_vec(),
        lookahead,
        article: 0,
    }
}

/// The first and the last article numbers of each width, and those next to the end of 16 bits.
pub const ARTICLES: [u32; 8] = [0, 127, 128, 16_383, 16_384, 65_535, 65_536, MOST_NUMBER];

/// An article number of any width.
pub fn article(random: &mut Random) -> u32 {
    let most = random.pick(&[127, 16_383, 65_535, MOST_NUMBER]);
    let any = random.between(0, most as usize) as u32;
    let known = random.pick(&ARTICLES);
    random.pick(&[any, known])
}

/// The lines with any article numbers.
pub fn with_articles(random: &mut Random, mut lines: Vec<Line>) -> Vec<Line> {
    for line in &mut lines {
        line.article = article(random);
    }
    lines
}

/// The lines with the same article number in each.
pub fn all_with_article(lines: &[Line], article: u32) -> Vec<Line> {
    let lines = lines.iter().map(|line| line.with_article(article));
    lines.collect()
}

/// At most 128 lines, each with an article number that no other has, in one, two and three bytes by
/// turns, below 65,536 and above.
pub fn numbered(mut lines: Vec<Line>) -> Vec<Line> {
    for (at, line) in (0..128).zip(&mut lines) {
        let choices = [at, 128 + at, 16_384 + at, 65_536 + at, MOST_NUMBER - at];
        line.article = choices[at as usize % 5];
    }
    lines
}

/// Any symbols.
pub fn sentence(random: &mut Random, terminals: u16, length: usize) -> Vec<u8> {
    if terminals < 2 {
        return Vec::new();
    }
    let symbol = |_| random.between(1, usize::from(terminals) - 1) as u8;
    (0..length).map(symbol).collect()
}

/// Symbols that the machine takes in, as far as such are met.
pub fn taken_sentence(random: &mut Random, book: &Book, length: usize) -> Vec<u8> {
    let mut sentence = Vec::new();
    let terminals = book.terminals();
    while terminals > 1 && sentence.len() < length {
        let tries = (0..4).map(|_| random.between(1, terminals - 1));
        let tries: Vec<usize> = tries.collect();
        let taken = tries.into_iter().find(|&symbol| {
            let (ending, _) = run(book, &sentence, symbol as u16);
            matches!(ending, Ending::Passed(_))
        });
        match taken {
            Some(symbol) => sentence.push(symbol as u8),
            None => break,
        }
    }
    sentence
}

/// For each state with a failing pair one sentence that fails there, by rising state.
pub fn covering(random: &mut Random, book: &Book) -> Vec<Line> {
    one_a_state(random, &found_lines(book))
}

/// The same for each state that fails in error.
pub fn covering_errors(random: &mut Random, book: &Book) -> Vec<Line> {
    one_a_state(random, &error_lines(book))
}

/// For each state one of its lines, if there are any, with any article number.
fn one_a_state(random: &mut Random, states: &[Vec<Line>]) -> Vec<Line> {
    let there = states.iter().filter(|lines| !lines.is_empty());
    let chosen = there.map(|lines| lines[random.below(lines.len())].clone());
    let chosen = chosen.collect();
    with_articles(random, chosen)
}

/// For each state the found sentences that fail there.
fn found_lines(book: &Book) -> Vec<Vec<Line>> {
    let errors = error_lines(book).into_iter().enumerate();
    let lines = errors.map(|(state, errors)| [errors, breaks(book, state)].concat());
    lines.collect()
}

/// The same of those that fail in error.
fn error_lines(book: &Book) -> Vec<Vec<Line>> {
    let answers = find_all(book);
    let states = answers.chunks(book.terminals()).enumerate();
    states
        .map(|(state, found)| errors(book, state, found))
        .collect()
}

/// For each state sentences that fail there: the found ones, and others that are met, most of them
/// longer.
pub fn failing_lines(random: &mut Random, book: &Book) -> Vec<Vec<Line>> {
    let mut states = found_lines(book);
    for _ in 0..4 * book.states() {
        let length = random.below(12);
        let sentence = taken_sentence(random, book, length);
        let lookahead = random.below(book.terminals()) as u16;
        if let Ok(state) = failing_state(book, &sentence, lookahead) {
            states[state].push(line(&sentence, lookahead));
        }
    }
    states
}

/// Two lists of lines for some of the states each; as a rule as good as the lines are.
pub fn two_lists(random: &mut Random, book: &Book, failing: &[Vec<Line>]) -> [Vec<Line>; 2] {
    [(); 2].map(|()| {
        let mut lines = one_a_state(random, failing);
        let share = random.pick(&[50, 80, 100]);
        lines.retain(|_| random.percent(share));
        match random.percent(30) {
            true => varied(random, book, lines),
            false => lines,
        }
    })
}

/// The found sentences of a state that fail in error, one for each lookahead.
fn errors(book: &Book, state: usize, answers: &[(Found, Vec<u8>)]) -> Vec<Line> {
    let mut lines = Vec::new();
    for (terminal, (found, sentence)) in answers.iter().enumerate() {
        let is_error = book.action(state, terminal) == Action::Error;
        if is_error && matches!(found, Found::Sentence(_)) {
            lines.push(line(sentence, terminal as u16));
        }
    }
    lines
}

/// The found sentences with which reductions of a state break, one for each lookahead.
fn breaks(book: &Book, state: usize) -> Vec<Line> {
    let answers = find_breaks(book, state, 0..book.terminals());
    let mut lines = Vec::new();
    for (terminal, (found, sentence)) in answers.iter().enumerate() {
        if matches!(found, Break::Sentence(_)) {
            lines.push(line(sentence, terminal as u16));
        }
    }
    lines
}

/// A list near to a covering one.
pub fn lines(random: &mut Random, book: &Book) -> Vec<Line> {
    let lines = covering(random, book);
    varied(random, book, lines)
}

/// The lines as they are, or with one dropped, doubled, added or changed; as a rule in the same
/// order, or else with two exchanged, or in any order. A doubled line has the same article number
/// or another.
pub fn varied(random: &mut Random, book: &Book, mut lines: Vec<Line>) -> Vec<Line> {
    let any = random.below(lines.len() + 1);
    let length = random.between(0, 6);
    let terminals = book.sizes.terminals;
    let extra = sentence(random, terminals, length);
    let lookahead = random.below(terminals.into()) as u16;
    let article = article(random);
    match random.below(6) {
        0 if any < lines.len() => drop(lines.remove(any)),
        1 if any < lines.len() => {
            let at = random.pick(&[any, lines.len()]);
            lines.insert(at, lines[any].clone());
            lines[at].article = random.pick(&[lines[at].article, article]);
        }
        2 if lines.len() < 128 => lines.insert(any, line(&extra, lookahead)),
        3 if any < lines.len() => lines[any].lookahead = lookahead,
        4 if any < lines.len() => lines[any].sentence.extend(extra),
        _ => {}
    }
    lines.truncate(128);
    disordered(random, &mut lines);
    lines
}

fn disordered(random: &mut Random, lines: &mut [Line]) {
    match random.below(6) {
        0 | 1 => random.shuffle(lines),
        2 if !lines.is_empty() => lines.swap(random.below(lines.len()), random.below(lines.len())),
        _ => {}
    }
}

/// The list of some of the lines, in this order.
pub fn list_of(lines: &[Line], order: &[usize]) -> Vec<u8> {
    let lines: Vec<Line> = order.iter().map(|&at| lines[at].clone()).collect();
    encode_list(&lines)
}

pub fn encode_list(lines: &[Line]) -> Vec<u8> {
    let items = lines.iter().map(|line| Item {
        sentence: &line.sentence,
        lookahead: line.lookahead,
        article: line.article,
    });
    list::encode_list(items)
}

/// The list's bytes with one thing made wrong, as a rule.
pub fn damaged_list(random: &mut Random, lines: &[Line], terminals: u16) -> Vec<u8> {
    let mut lines = lines.to_vec();
    let any = random.below(lines.len().max(1));
    match random.below(10) {
        0 => lines.resize(random.between(129, 300), line(&[], 0)),
        1 if !lines.is_empty() => {
            let length = random.between(1_001, 1_200);
            lines[any].sentence = sentence(random, terminals, length);
        }
        2 if !lines.is_empty() => {
            let symbol = random.pick(&[0, terminals as u8, 127, 128, 255]);
            let at = random.below(lines[any].sentence.len() + 1);
            lines[any].sentence.insert(at, symbol);
        }
        3 if !lines.is_empty() => {
            lines[any].lookahead = random.pick(&[terminals, 127, 128, 65_535]);
        }
        // Such a number takes four bytes.
        4 if !lines.is_empty() => lines[any].article = random.pick(&[MOST_NUMBER + 1, 1 << 24]),
        5 => return wide_list(random, &lines),
        _ => return damaged(random, &encode_list(&lines)),
    }
    encode_list(&lines)
}

/// The list's bytes with one number over 65,535.
pub fn wide_list(random: &mut Random, lines: &[Line]) -> Vec<u8> {
    let numbers = decoded(&encode_list(lines));
    encoded(&widened(random, &numbers))
}
