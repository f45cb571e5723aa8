//! Compares every call of the library with the independent implementation, on random books, lists
//! and sentences, good and damaged: answers, refusals with their places, and all lent memory.
//! Seeds are fixed, so that every run makes the same comparisons. `certificate.rs` does this for
//! certificates.

mod both;
#[allow(dead_code)]
#[path = "../examples/make_book/grammar.rs"]
mod grammar;
mod independent;
#[allow(dead_code)]
#[path = "../examples/make_book/lalr.rs"]
mod lalr;
mod random;
mod shipped;

use both::compare::{self, Outcome, Outcomes};
use both::lent::Lent;
use both::{Calls, INDEPENDENT, LIBRARY};
use independent::book::{Action, Book};
use independent::machine::run;
use independent::numbers::encoded;
use purlquartz::*;
use random::books::{
    breakable, breaking_book, large_taste, medium_book, small_book, tied_book, wild,
};
use random::bytes::{damaged, damaged_cells, widened};
use random::grammars::long_book;
use random::lists::{
    covering, damaged_list, encode_list, failing_lines, line, lines, sentence, taken_sentence,
    two_lists, varied, wide_list, Line,
};
use random::ranks::{in_every_order, ranked, unranked};
use random::Random;
use shipped::{shipped, SHIPPED};
use std::collections::BTreeMap;

/// How often each answer was seen, so that no test passes for want of cases.
#[derive(Default)]
struct Tally {
    seen: BTreeMap<(&'static str, String), usize>,
}

impl Tally {
    fn note(&mut self, call: &'static str, outcome: Outcome, book: &[u16]) {
        match outcome {
            Ok(word) => *self.seen.entry((call, word)).or_default() += 1,
            Err(difference) => panic!("{difference}\nbook {book:?}"),
        }
    }

    fn note_each(&mut self, call: &'static str, outcomes: Outcomes, book: &[u16]) {
        match outcomes {
            Ok(words) => words
                .into_iter()
                .for_each(|word| self.note(call, Ok(word), book)),
            Err(difference) => self.note(call, Err(difference), book),
        }
    }

    /// Each of the answers, named in one string, was seen at least five times.
    fn expect(&self, call: &'static str, words: &str) {
        for word in words.split(' ') {
            let times = self.seen.get(&(call, word.to_string())).copied();
            assert!(times.unwrap_or(0) >= 5, "{call} {word}: {times:?}");
        }
    }

    /// Each of the answers was seen, and no other.
    fn expect_only(&self, call: &'static str, words: &str) {
        self.expect(call, words);
        let others = self.seen.keys().filter(|(seen, _)| *seen == call);
        let mut others = others.filter(|(_, word)| !words.split(' ').any(|known| known == word));
        assert_eq!(others.next(), None);
    }
}

/// A small book; every twentieth round a medium one.
fn some_book(random: &mut Random, round: usize) -> Book {
    match round % 20 {
        0 => medium_book(random),
        _ => small_book(random),
    }
}

/// The cells of the book; sometimes damaged.
fn some_cells(random: &mut Random, book: &Book) -> Vec<u16> {
    match random.percent(15) {
        true => damaged_cells(random, book),
        false => book.cells(),
    }
}

/// A count to lend: as a rule enough, or more; sometimes one short, or none.
fn some_count(random: &mut Random, needed: usize) -> usize {
    match random.below(12) {
        0 => needed.saturating_sub(1),
        1 => random.below(needed + 1),
        2 | 3 => needed + random.below(40),
        _ => needed,
    }
}

fn lend<T: Copy + From<u8>>(random: &mut Random, needed: usize) -> Lent<T> {
    let count = some_count(random, needed);
    Lent::random(random, count)
}

/// A number below the bound; sometimes not.
fn some_number(random: &mut Random, bound: u16) -> u16 {
    match random.below(12) {
        0 => bound + random.below(3) as u16,
        1 => random.pick(&[255, 256, 65_535]),
        _ => random.below(bound.into()) as u16,
    }
}

#[test]
fn books_in_bytes() {
    let mut random = Random::new(11);
    let mut tally = Tally::default();
    for round in 0..30_000 {
        let book = some_book(&mut random, round);
        let (bytes, count) = (book.bytes(), book.cells().len());
        let cells = lend(&mut random, count);
        tally.note(
            "read",
            compare::read(&LIBRARY, &bytes, &cells),
            &book.cells(),
        );
        let bad_cells = damaged_cells(&mut random, &book);
        for bytes in [damaged(&mut random, &bytes), encoded(&bad_cells)] {
            tally.note(
                "read",
                compare::read(&LIBRARY, &bytes, &cells),
                &book.cells(),
            );
        }
    }
    tally.expect("read", " 1 2 3 4 5 16 14 15 6 12");
}

/// A number over 65,535 has the refusal of its place, also where its low 16 bits are in range.
#[test]
fn wide_numbers_in_books() {
    let mut random = Random::new(22);
    let mut tally = Tally::default();
    for round in 0..30_000 {
        let book = some_book(&mut random, round);
        let cells = book.cells();
        let lent = lend(&mut random, cells.len());
        let numbers: Vec<u32> = cells.iter().map(|&cell| cell.into()).collect();
        let bytes = encoded(&widened(&mut random, &numbers));
        let outcome = compare::read(&LIBRARY, &bytes, &lent);
        tally.note("read", outcome, &cells);
    }
    tally.expect_only("read", "3 4 5 16 14 15");
}

#[test]
fn books_in_cells() {
    let mut random = Random::new(12);
    let mut tally = Tally::default();
    for round in 0..30_000 {
        let book = some_book(&mut random, round);
        let bytes = lend(&mut random, book.bytes().len());
        let good = book.cells();
        tally.note("check", compare::check(&LIBRARY, &good), &good);
        tally.note("write", compare::write(&LIBRARY, &good, &bytes), &good);
        let bad = damaged_cells(&mut random, &book);
        tally.note("check", compare::check(&LIBRARY, &bad), &bad);
        tally.note("write", compare::write(&LIBRARY, &bad, &bytes), &bad);
    }
    tally.expect("check", "Sizes 1 3 4 5 16 14 15 6");
    tally.expect("write", " 1 3 4 5 16 14 15 6 12");
}

/// Both converters of cells that are the book's, or near to them. Lent are just enough for the
/// book, one too few, and more than enough.
fn compare_converters(random: &mut Random, tally: &mut Tally, book: &Book, cells: &[u16]) {
    for (form, call) in [(1, "to_form_1"), (2, "to_form_2")] {
        let enough = unranked(book).in_form(form).cells().len();
        let more = enough + random.between(1, 40);
        for count in [enough, enough - 1, more] {
            let lent = Lent::random(random, count);
            let outcome = compare::to_form(&LIBRARY, form, cells, &lent);
            tally.note(call, outcome, cells);
        }
    }
}

#[test]
fn converters() {
    let mut random = Random::new(20);
    let mut tally = Tally::default();
    for round in 0..15_000 {
        let book = some_book(&mut random, round);
        compare_converters(&mut random, &mut tally, &book, &book.cells());
        let bad = damaged_cells(&mut random, &book);
        compare_converters(&mut random, &mut tally, &book, &bad);
    }
    tally.expect("to_form_1", " 1 3 4 5 16 14 15 6 17 12");
    tally.expect("to_form_2", " 1 3 4 5 16 14 15 6 12");
}

/// A sentence: any, one that the machine takes in, a very long one, or a refused one.
fn some_sentence(random: &mut Random, book: &Book) -> Vec<u8> {
    let length = random.below(12);
    let terminals = book.sizes.terminals;
    match random.below(12) {
        0..=3 => sentence(random, terminals, length),
        4..=7 => taken_sentence(random, book, length),
        8 => vec![1; random.pick(&[999, 1_000, 1_001, 1_300])],
        9 => {
            let length = random.between(900, 1_100);
            sentence(random, terminals, length)
        }
        _ => {
            let mut bad = sentence(random, terminals, length);
            let at = random.below(bad.len() + 1);
            bad.insert(at, random.pick(&[0, terminals as u8, 128, 255]));
            bad
        }
    }
}

#[test]
fn runs() {
    let mut random = Random::new(13);
    let mut tally = Tally::default();
    for _ in 0..15_000 {
        let book = small_book(&mut random);
        let cells = some_cells(&mut random, &book);
        for _ in 0..8 {
            let sentence = some_sentence(&mut random, &book);
            let lookahead = some_number(&mut random, book.sizes.terminals);
            let stack = lend(&mut random, STACK_CELLS);
            let outcome = compare::run(&LIBRARY, &cells, &sentence, lookahead, &stack);
            tally.note("run", outcome, &cells);
        }
    }
    let endings = "Accepted Error Broken Passed Deep Spinning";
    tally.expect("run", endings);
    tally.expect("run", "1 3 4 5 16 14 15 6 7 8 11 13");
}

/// As a rule a pair whose action is reduce, if there is any.
fn some_reduction(random: &mut Random, book: &Book) -> Option<(u16, u16)> {
    let terminals = book.terminals();
    let pairs = (0..book.actions.len()).filter(|&at| matches!(book.actions[at], Action::Reduce(_)));
    let pairs: Vec<usize> = pairs.collect();
    if pairs.is_empty() || random.percent(30) {
        return None;
    }
    let at = random.pick(&pairs);
    Some(((at / terminals) as u16, (at % terminals) as u16))
}

/// Both finders, map and sets of one book, with lent memory that is sometimes too short.
fn compare_finder(
    random: &mut Random,
    tally: &mut Tally,
    book: &Book,
    cells: &[u16],
    finds: usize,
) {
    let states = book.states();
    for _ in 0..finds {
        let state = some_number(random, book.sizes.states);
        let lookahead = some_number(random, book.sizes.terminals);
        let work = lend(random, book.sizes.work_cells());
        let buffer = lend(random, SENTENCE_BYTES);
        let pair = (state, lookahead);
        let outcome = compare::find(&LIBRARY, cells, pair, &work, &buffer);
        tally.note("find", outcome, cells);
        let pair = some_reduction(random, book).unwrap_or(pair);
        let outcome = compare::find_break(&LIBRARY, cells, pair, &work, &buffer);
        tally.note("find_break", outcome, cells);
    }
    let work = lend(random, book.sizes.work_cells());
    let map = lend(random, book.sizes.map_cells());
    tally.note("map", compare::map(&LIBRARY, cells, &work, &map), cells);
    let work = lend(random, book.sizes.work_cells());
    let (sets, sizes) = (lend(random, states), lend(random, states));
    let outcome = compare::sets(&LIBRARY, cells, &work, &sets, &sizes);
    tally.note("sets", outcome, cells);
}

fn compare_each_pair(random: &mut Random, tally: &mut Tally, book: &Book) {
    let work = Lent::random(random, book.sizes.work_cells() + 5);
    let buffer = Lent::random(random, SENTENCE_BYTES + 3);
    let outcomes = compare::find_each(&LIBRARY, book, &work, &buffer);
    tally.note_each("find", outcomes, &book.cells());
    let outcomes = compare::find_each_break(&LIBRARY, book, &work, &buffer);
    tally.note_each("find_break", outcomes, &book.cells());
}

#[test]
fn finder_of_small_books() {
    let mut random = Random::new(14);
    let mut tally = Tally::default();
    for _ in 0..20_000 {
        let book = small_book(&mut random);
        let cells = some_cells(&mut random, &book);
        compare_finder(&mut random, &mut tally, &book, &cells, 3);
        compare_each_pair(&mut random, &mut tally, &book);
    }
    tally.expect("find", "Sentence Unreached 1 3 4 5 16 14 15 6 10 11 12 13");
    tally.expect("find_break", "Sentence None 1 3 4 5 16 14 15 6 10 11 12 13");
    tally.expect("map", " 1 3 4 5 16 14 15 6 12 13");
    tally.expect("sets", " 1 3 4 5 16 14 15 6 12 13");
}

#[test]
fn finder_of_books_with_many_ties() {
    let mut random = Random::new(21);
    let mut tally = Tally::default();
    for _ in 0..5_000 {
        let book = tied_book(&mut random);
        compare_each_pair(&mut random, &mut tally, &book);
    }
    tally.expect("find", "Sentence Unreached");
    tally.expect("find_break", "Sentence None");
}

#[test]
fn finder_of_books_that_break() {
    let mut random = Random::new(24);
    let mut tally = Tally::default();
    for _ in 0..5_000 {
        let book = breaking_book(&mut random);
        compare_each_pair(&mut random, &mut tally, &book);
        compare_finder(&mut random, &mut tally, &book, &book.cells(), 2);
    }
    tally.expect("find_break", "Sentence None 10 11 12 13");
}

#[test]
fn finder_of_medium_books() {
    let mut random = Random::new(15);
    let mut tally = Tally::default();
    for _ in 0..1_500 {
        let book = medium_book(&mut random);
        compare_finder(&mut random, &mut tally, &book, &book.cells(), 4);
    }
    tally.expect("find", "Sentence Unreached 10 11 12 13");
    tally.expect("find_break", "Sentence None 10 11 12 13");
    tally.expect("map", " 12 13");
    tally.expect("sets", " 12 13");
}

#[test]
fn books_of_long_sentences() {
    let mut random = Random::new(18);
    let mut tally = Tally::default();
    for _ in 0..300 {
        let book = long_book(&mut random);
        let cells = book.cells();
        compare_finder(&mut random, &mut tally, &book, &cells, 8);
        let list = encode_list(&lines(&mut random, &book));
        compare_list(&mut random, &mut tally, &book, &cells, &list);
    }
    tally.expect("find", "Sentence Long Unreached");
    tally.expect("judge", "Complete Uncovered Repeat Wrong OutOfOrder");
    tally.expect("sort_list", "List Repeat Wrong 12");
}

/// The same books with reductions that break: many only after some hundred symbols, or over 1,000.
#[test]
fn breaks_after_long_sentences() {
    let mut random = Random::new(25);
    let mut tally = Tally::default();
    for _ in 0..400 {
        let book = long_book(&mut random);
        let changes = random.between(1, 3);
        let book = breakable(&mut random, &book, changes);
        compare_each_pair(&mut random, &mut tally, &book);
        let cells = book.cells();
        compare_finder(&mut random, &mut tally, &book, &cells, 8);
        let list = encode_list(&lines(&mut random, &book));
        compare_list(&mut random, &mut tally, &book, &cells, &list);
    }
    tally.expect("find_break", "Sentence Long None");
    tally.expect("judge", "Complete Uncovered Repeat Wrong OutOfOrder");
    tally.expect("sort_list", "List Repeat Wrong 12");
}

#[test]
fn finder_of_shipped_books() {
    let mut random = Random::new(16);
    let mut tally = Tally::default();
    for name in ["arithmetic", "pattern", "json", "statements"] {
        let book = shipped(name);
        compare_each_pair(&mut random, &mut tally, &book);
        compare_each_pair(&mut random, &mut tally, &turned_round(&book));
    }
    let program = shipped("program");
    for book in [turned_round(&program), program] {
        compare_finder(&mut random, &mut tally, &book, &book.cells(), 60);
    }
    tally.expect("find", "Sentence Unreached");
    tally.expect("find_break", "None");
}

/// Some gotos are gone, and some productions are longer.
#[test]
fn breaks_of_shipped_books() {
    let mut random = Random::new(26);
    let mut tally = Tally::default();
    for name in ["bracket", "double_ranked", "arithmetic", "pattern", "json"] {
        let shipped = shipped(name);
        for _ in 0..20 {
            let changes = random.between(1, 6);
            let book = breakable(&mut random, &shipped, changes);
            compare_each_pair(&mut random, &mut tally, &book);
            compare_finder(&mut random, &mut tally, &book, &book.cells(), 5);
        }
    }
    let program = breakable(&mut random, &shipped("program"), 20);
    compare_finder(&mut random, &mut tally, &program, &program.cells(), 60);
    tally.expect("find_break", "Sentence None");
}

/// The book in form 2 with the highest terminal first.
fn turned_round(book: &Book) -> Book {
    ranked(book, (0..book.sizes.terminals).rev().collect())
}

/// The two books of the specification, and four made of them so that reductions may break, in form
/// 1, and in form 2 with their ranks in every order.
#[test]
fn every_order_of_ranks() {
    let mut random = Random::new(23);
    let mut tally = Tally::default();
    let mut books = Vec::from(["bracket", "double"].map(shipped));
    for changes in [1, 2] {
        let broken = books[..2]
            .iter()
            .map(|book| breakable(&mut random, book, changes));
        books.extend(broken.collect::<Vec<_>>());
    }
    for book in books {
        for book in [in_every_order(&book), vec![book]].concat() {
            let cells = book.cells();
            compare_each_pair(&mut random, &mut tally, &book);
            compare_finder(&mut random, &mut tally, &book, &cells, 8);
            compare_converters(&mut random, &mut tally, &book, &cells);
            let list = encode_list(&lines(&mut random, &book));
            compare_list(&mut random, &mut tally, &book, &cells, &list);
        }
    }
    tally.expect("find", "Sentence Unreached");
    tally.expect("find_break", "Sentence None");
    tally.expect("to_form_1", "17");
}

#[test]
fn finder_of_large_books() {
    let mut random = Random::new(19);
    let mut tally = Tally::default();
    for _ in 0..12 {
        let taste = large_taste(&mut random);
        let book = wild(&mut random, taste);
        compare_finder(&mut random, &mut tally, &book, &book.cells(), 2);
    }
    tally.expect("map", "");
}

/// Any offset, as a rule within the list, and any count of entries left.
fn some_rest(random: &mut Random, list: &[u8]) -> Rest {
    let offset = match random.below(8) {
        0 => random.pick(&[list.len() + 1, 65_536, usize::MAX - 1, usize::MAX]),
        _ => random.below(list.len() + 1),
    };
    let left = random.pick(&[0, 1, 2, 127, 128, 129, usize::MAX]);
    Rest { offset, left }
}

/// Checks one list in every way.
fn compare_list(random: &mut Random, tally: &mut Tally, book: &Book, cells: &[u16], list: &[u8]) {
    tally.note(
        "check_list",
        compare::check_list(&LIBRARY, cells, list),
        cells,
    );
    let index = random.below(8);
    tally.note("entry", compare::entry(&LIBRARY, cells, list, index), cells);
    let index = random.pick(&[0, 127, 128, usize::MAX]);
    tally.note("entry", compare::entry(&LIBRARY, cells, list, index), cells);
    tally.note("entries", compare::entries(&LIBRARY, cells, list), cells);
    for _ in 0..4 {
        let rest = some_rest(random, list);
        let outcome = compare::next_entry(&LIBRARY, list, rest);
        tally.note("next_entry", outcome, cells);
    }
    let work = lend(random, book.sizes.work_cells());
    let stack = lend(random, STACK_CELLS);
    let outcome = compare::judge(&LIBRARY, cells, list, &work, &stack);
    tally.note("judge", outcome, cells);
    let bytes = lend(random, list.len());
    let outcome = compare::sort_list(&LIBRARY, cells, list, &bytes);
    tally.note("sort_list", outcome, cells);
}

#[test]
fn lists() {
    let mut random = Random::new(17);
    let mut tally = Tally::default();
    for _ in 0..30_000 {
        let book = small_book(&mut random);
        let cells = some_cells(&mut random, &book);
        let lines = lines(&mut random, &book);
        let list = encode_list(&lines);
        compare_list(&mut random, &mut tally, &book, &cells, &list);
        let list = damaged_list(&mut random, &lines, book.sizes.terminals);
        compare_list(&mut random, &mut tally, &book, &cells, &list);
    }
    tally.expect("check_list", "Rest 1 2 3 4 5 16 14 15 6 7 8 9 11");
    tally.expect("entry", "Some None 1 2 3 4 5 16 14 15 6 7 8 9 11");
    tally.expect("entries", " 1 2 3 4 5 16 14 15 6 7 8 9 11");
    tally.expect("next_entry", "Some None");
    tally.expect("judge", "Complete Uncovered Repeat Wrong OutOfOrder");
    tally.expect("judge", "1 2 3 4 5 16 14 15 6 7 8 9 11 13");
    tally.expect("sort_list", "List Repeat Wrong");
    tally.expect("sort_list", "1 2 3 4 5 16 14 15 6 7 8 9 11 12");
}

/// An article number over 65,535 is read, and any other number refused by its place.
#[test]
fn wide_numbers_in_lists() {
    let mut random = Random::new(40);
    let mut tally = Tally::default();
    for _ in 0..15_000 {
        let book = small_book(&mut random);
        let cells = book.cells();
        let lines = lines(&mut random, &book);
        let list = wide_list(&mut random, &lines);
        compare_list(&mut random, &mut tally, &book, &cells, &list);
    }
    tally.expect_only("check_list", "Rest 7 8 9 11");
    tally.expect_only("entry", "Some None 7 8 9 11");
    tally.expect("judge", "Complete Uncovered Repeat Wrong OutOfOrder");
    tally.expect("judge", "7 8 9 11 13");
    tally.expect_only("sort_list", "List Repeat Wrong 7 8 9 11 12");
}

/// Many lists for each book.
#[test]
fn lists_of_shipped_books() {
    let mut random = Random::new(28);
    let mut tally = Tally::default();
    for name in SHIPPED {
        let shipped = shipped(name);
        let changed = breakable(&mut random, &shipped, 6);
        for book in [shipped, changed] {
            let covering = covering(&mut random, &book);
            for _ in 0..60 {
                let lines = varied(&mut random, &book, covering.clone());
                let list = encode_list(&lines);
                compare_list(&mut random, &mut tally, &book, &book.cells(), &list);
            }
        }
    }
    tally.expect("judge", "Complete Uncovered Repeat Wrong OutOfOrder");
    tally.expect("sort_list", "List Repeat Wrong 12");
}

/// Lists for books where reductions break: many entries end as broken, and many states have no
/// other failing pair.
#[test]
fn lists_of_books_that_break() {
    let mut random = Random::new(27);
    let mut tally = Tally::default();
    let mut broken = 0;
    for round in 0..8_000 {
        let book = match round % 2 {
            0 => breaking_book(&mut random),
            _ => {
                let book = small_book(&mut random);
                breakable(&mut random, &book, 3)
            }
        };
        let lines = lines(&mut random, &book);
        broken += usize::from(lines.iter().any(|line| ends_broken(&book, line)));
        let list = encode_list(&lines);
        compare_list(&mut random, &mut tally, &book, &book.cells(), &list);
    }
    assert!(broken > 3_000);
    tally.expect("judge", "Complete Uncovered Repeat Wrong OutOfOrder");
    tally.expect("sort_list", "List Repeat Wrong 12");
}

/// Whether the run of an entry ends as broken with the whole sentence in.
fn ends_broken(book: &Book, line: &Line) -> bool {
    let (ending, _) = run(book, &line.sentence, line.lookahead);
    matches!(ending, Ending::Broken(stop) if usize::from(stop.taken) == line.sentence.len())
}

/// Two lists joined, so many times, either of which may be damaged.
fn compare_joinings(
    random: &mut Random,
    tally: &mut Tally,
    book: &Book,
    cells: &[u16],
    times: usize,
) {
    let failing = failing_lines(random, book);
    for _ in 0..times {
        let lists = two_lists(random, book, &failing);
        let [first, second] = lists.map(|lines| match random.percent(15) {
            true => damaged_list(random, &lines, book.sizes.terminals),
            false => encode_list(&lines),
        });
        let mut enough = vec![0; first.len() + second.len()];
        let needed = match (INDEPENDENT.join_lists)(cells, &first, &second, &mut enough) {
            Ok(Joined::List(count)) => count,
            _ => enough.len(),
        };
        let bytes = lend(random, needed);
        let outcome = compare::join_lists(&LIBRARY, cells, [&first, &second], &bytes);
        tally.note("join_lists", outcome, cells);
    }
}

const JOINED: &str = "List 12 FirstRepeat FirstWrong FirstOutOfOrder \
                      SecondRepeat SecondWrong SecondOutOfOrder";

#[test]
fn two_lists_of_small_books() {
    let mut random = Random::new(29);
    let mut tally = Tally::default();
    for _ in 0..15_000 {
        let book = small_book(&mut random);
        let cells = some_cells(&mut random, &book);
        compare_joinings(&mut random, &mut tally, &book, &cells, 3);
    }
    tally.expect("join_lists", JOINED);
    tally.expect("join_lists", "1 3 4 5 16 14 15 6");
    for number in [1, 2, 6, 7, 8, 9, 11] {
        let words = format!("First{number} Second{number}");
        tally.expect("join_lists", &words);
    }
}

#[test]
fn two_lists_of_books_that_break() {
    let mut random = Random::new(30);
    let mut tally = Tally::default();
    for _ in 0..4_000 {
        let book = breaking_book(&mut random);
        compare_joinings(&mut random, &mut tally, &book, &book.cells(), 3);
    }
    tally.expect("join_lists", JOINED);
}

/// Many lists for each book.
#[test]
fn two_lists_of_larger_books() {
    let mut random = Random::new(31);
    let mut tally = Tally::default();
    let mut books: Vec<Book> = SHIPPED.into_iter().map(shipped).collect();
    for _ in 0..50 {
        books.push(long_book(&mut random));
        books.push(medium_book(&mut random));
    }
    for book in books {
        let changed = breakable(&mut random, &book, 6);
        for book in [book, changed] {
            compare_joinings(&mut random, &mut tally, &book, &book.cells(), 60);
        }
    }
    tally.expect("join_lists", JOINED);
}

/// The comparison must notice a wrong map, a wrong place, and writes where there should be none.
mod faults {
    use super::*;

    fn bracket() -> Vec<u16> {
        shipped("bracket").cells()
    }

    fn compare_map(subject: &Calls) -> Outcome {
        let (work, map) = (Lent::holding(&[7; 900]), Lent::holding(&[7; 30]));
        compare::map(subject, &bracket(), &work, &map)
    }

    fn one_too_long(cells: &[u16], work: &mut [u16], map: &mut [u16]) -> Result<usize, Refusal> {
        let answer = (INDEPENDENT.map)(cells, work, map);
        map[5] += 1;
        answer
    }

    fn cell_after_map(cells: &[u16], work: &mut [u16], map: &mut [u16]) -> Result<usize, Refusal> {
        let answer = (INDEPENDENT.map)(cells, work, map);
        map[24] = 0;
        answer
    }

    fn work_left(cells: &[u16], work: &mut [u16], map: &mut [u16]) -> Result<usize, Refusal> {
        let answer = (INDEPENDENT.map)(cells, work, map);
        work[863] = 1;
        answer
    }

    #[test]
    fn a_wrong_map_is_noticed() {
        assert!(compare_map(&INDEPENDENT).is_ok());
        for map in [one_too_long, cell_after_map, work_left] {
            let subject = Calls { map, ..INDEPENDENT };
            assert!(compare_map(&subject).is_err());
        }
    }

    fn wrong_place(cells: &[u16]) -> Result<Sizes, Refusal> {
        (INDEPENDENT.check)(cells).map_err(|refusal| Refusal {
            place: refusal.place + 1,
            ..refusal
        })
    }

    #[test]
    fn a_wrong_place_is_noticed() {
        let subject = Calls {
            check: wrong_place,
            ..INDEPENDENT
        };
        assert!(compare::check(&subject, &bracket()).is_ok());
        assert!(compare::check(&subject, &bracket()[..20]).is_err());
    }

    /// The sentence as if the terminals' numbers were their ranks.
    fn find_by_number(
        cells: &[u16],
        state: u16,
        lookahead: u16,
        work: &mut [u16],
        buffer: &mut [u8],
    ) -> Result<Found, Refusal> {
        let cells = unranked(&Book::from_cells(cells)?).cells();
        (INDEPENDENT.find)(&cells, state, lookahead, work, buffer)
    }

    #[test]
    fn a_wrong_order_is_noticed() {
        let subject = Calls {
            find: find_by_number,
            ..INDEPENDENT
        };
        let (work, buffer) = (Lent::holding(&[7; 800]), Lent::holding(&[7; 1_000]));
        let each = |book: &Book| compare::find_each(&subject, book, &work, &buffer);
        assert!(each(&shipped("double")).is_ok());
        assert!(each(&shipped("double_ranked")).is_err());
    }

    /// No reduction breaks.
    fn never(
        cells: &[u16],
        state: u16,
        lookahead: u16,
        work: &mut [u16],
        buffer: &mut [u8],
    ) -> Result<Break, Refusal> {
        let before = buffer.to_vec();
        (INDEPENDENT.find_break)(cells, state, lookahead, work, buffer)?;
        buffer.copy_from_slice(&before);
        Ok(Break::None)
    }

    /// Whatever reaches a reduction breaks it.
    fn whenever_reached(
        cells: &[u16],
        state: u16,
        lookahead: u16,
        work: &mut [u16],
        buffer: &mut [u8],
    ) -> Result<Break, Refusal> {
        let before = buffer.to_vec();
        let answer = (INDEPENDENT.find_break)(cells, state, lookahead, work, buffer)?;
        if answer == Break::None {
            return Ok(answer);
        }
        buffer.copy_from_slice(&before);
        match (INDEPENDENT.find)(cells, state, lookahead, work, buffer)? {
            Found::Sentence(length) => Ok(Break::Sentence(length)),
            Found::Unreached | Found::Long => Ok(answer),
        }
    }

    /// A byte after the sentence is written.
    fn byte_after_sentence(
        cells: &[u16],
        state: u16,
        lookahead: u16,
        work: &mut [u16],
        buffer: &mut [u8],
    ) -> Result<Break, Refusal> {
        let answer = (INDEPENDENT.find_break)(cells, state, lookahead, work, buffer)?;
        if let Break::Sentence(length) = answer {
            buffer[length] = 0;
        }
        Ok(answer)
    }

    /// Bracket, and the same without a goto, in which only `2 1` breaks.
    #[test]
    fn a_wrong_break_is_noticed() {
        let book = shipped("bracket");
        let mut broken = book.clone();
        broken.gotos[2] = None;
        let (work, buffer) = (Lent::holding(&[7; 900]), Lent::holding(&[7; 1_000]));
        let each = |calls: &Calls, book| compare::find_each_break(calls, book, &work, &buffer);
        assert!(each(&INDEPENDENT, &broken).is_ok());
        for find_break in [never, whenever_reached, byte_after_sentence] {
            let subject = Calls {
                find_break,
                ..INDEPENDENT
            };
            assert!(each(&subject, &book).is_ok());
            assert!(each(&subject, &broken).is_err());
            let one = compare::find_break(&subject, &broken.cells(), (1, 3), &work, &buffer);
            assert!(one.is_err());
        }
    }

    fn sort_bracket(subject: &Calls, lines: &[Line]) -> Outcome {
        let bytes = Lent::holding(&[7; 20]);
        compare::sort_list(subject, &bracket(), &encode_list(lines), &bytes)
    }

    fn left_as_it_is(_: &[u16], list: &[u8], bytes: &mut [u8]) -> Result<Sorted, Refusal> {
        bytes[..list.len()].copy_from_slice(list);
        Ok(Sorted::List(list.len()))
    }

    fn byte_after_list(cells: &[u16], list: &[u8], bytes: &mut [u8]) -> Result<Sorted, Refusal> {
        let answer = (INDEPENDENT.sort_list)(cells, list, bytes);
        bytes[list.len()] = 0;
        answer
    }

    /// Also where there is no result.
    fn byte_in_any_case(cells: &[u16], list: &[u8], bytes: &mut [u8]) -> Result<Sorted, Refusal> {
        bytes[0] = list[0];
        (INDEPENDENT.sort_list)(cells, list, bytes)
    }

    /// Each entry gets the article number that stood in its place, which takes one byte.
    fn articles_left(cells: &[u16], list: &[u8], bytes: &mut [u8]) -> Result<Sorted, Refusal> {
        let given = (INDEPENDENT.entries)(cells, list)?;
        let answer = (INDEPENDENT.sort_list)(cells, list, bytes)?;
        if let Sorted::List(count) = answer {
            let sorted = (INDEPENDENT.entries)(cells, &bytes[..count])?;
            for (given, sorted) in given.into_iter().zip(sorted) {
                bytes[sorted.start + sorted.length + 1] = given.article as u8;
            }
        }
        Ok(answer)
    }

    /// Entries in the states 0 and 2 in either order, and twice the one.
    #[test]
    fn a_wrong_sorting_is_noticed() {
        let [start, open] = [line(&[], 0).with_article(5), line(&[2], 0)];
        let lists = [[0, 1], [1, 0], [1, 1]].map(|order| {
            let lines = order.map(|at| [&start, &open][at].clone());
            lines.to_vec()
        });
        let noticed = |sort_list| {
            let subject = Calls {
                sort_list,
                ..INDEPENDENT
            };
            lists
                .each_ref()
                .map(|lines| sort_bracket(&subject, lines).is_err())
        };
        assert_eq!(noticed(INDEPENDENT.sort_list), [false, false, false]);
        assert_eq!(noticed(left_as_it_is), [false, true, true]);
        assert_eq!(noticed(byte_after_list), [true, true, true]);
        assert_eq!(noticed(byte_in_any_case), [false, false, true]);
        assert_eq!(noticed(articles_left), [false, true, false]);
    }

    type Entered = Result<Option<Entry>, Refusal>;

    fn article_of_16_bits(cells: &[u16], list: &[u8], index: usize) -> Entered {
        let mut entry = (INDEPENDENT.entry)(cells, list, index)?;
        if let Some(entry) = &mut entry {
            entry.article %= 65_536;
        }
        Ok(entry)
    }

    #[test]
    fn a_wrong_article_is_noticed() {
        let subject = Calls {
            entry: article_of_16_bits,
            ..INDEPENDENT
        };
        let noticed = [65_535, 65_536, 2_097_151].map(|article| {
            let list = encode_list(&[line(&[], 0).with_article(article)]);
            compare::entry(&subject, &bracket(), &list, 0).is_err()
        });
        assert_eq!(noticed, [false, true, true]);
    }

    type Joining = Result<Joined, JoinRefusal>;

    fn the_second_first(cells: &[u16], one: &[u8], other: &[u8], bytes: &mut [u8]) -> Joining {
        (INDEPENDENT.join_lists)(cells, other, one, bytes)
    }

    fn the_first_alone(cells: &[u16], one: &[u8], _: &[u8], bytes: &mut [u8]) -> Joining {
        (INDEPENDENT.join_lists)(cells, one, one, bytes)
    }

    fn byte_after_joined(cells: &[u16], one: &[u8], other: &[u8], bytes: &mut [u8]) -> Joining {
        let answer = (INDEPENDENT.join_lists)(cells, one, other, bytes);
        bytes[19] = 0;
        answer
    }

    /// Also where there is no result.
    fn count_in_any_case(cells: &[u16], one: &[u8], other: &[u8], bytes: &mut [u8]) -> Joining {
        bytes[0] = 1;
        (INDEPENDENT.join_lists)(cells, one, other, bytes)
    }

    /// Lists of one entry: the same, one with another article number, another of equal length, a
    /// shorter one, and a wrong one.
    #[test]
    fn a_wrong_joining_is_noticed() {
        let start = line(&[], 0);
        let lists = [
            [start.clone(), start.clone()],
            [start.clone(), start.with_article(1)],
            [start.clone(), line(&[], 3)],
            [line(&[2, 1], 1), line(&[1], 1)],
            [line(&[], 1), start],
        ];
        let lists = lists.map(|lines| lines.map(|line| encode_list(&[line])));
        let noticed = |join_lists| {
            let subject = Calls {
                join_lists,
                ..INDEPENDENT
            };
            let bytes = Lent::holding(&[7; 20]);
            lists.each_ref().map(|[first, second]| {
                compare::join_lists(&subject, &bracket(), [first, second], &bytes).is_err()
            })
        };
        assert_eq!(noticed(INDEPENDENT.join_lists), [false; 5]);
        let at_equal_length = [false, true, true, false, true];
        assert_eq!(noticed(the_second_first), at_equal_length);
        let at_the_shorter = [false, false, false, true, false];
        assert_eq!(noticed(the_first_alone), at_the_shorter);
        assert_eq!(noticed(byte_after_joined), [true; 5]);
        let at_the_fault = [false, false, false, false, true];
        assert_eq!(noticed(count_in_any_case), at_the_fault);
    }

    fn cell_after_book(cells: &[u16], lent: &mut [u16]) -> Result<usize, Refusal> {
        let answer = (INDEPENDENT.to_form_2)(cells, lent);
        lent[43] = 0;
        answer
    }

    fn ranks_left_out(cells: &[u16], lent: &mut [u16]) -> Result<usize, Refusal> {
        let book = unranked(&Book::from_cells(cells)?);
        (INDEPENDENT.to_form_1)(&book.cells(), lent)
    }

    #[test]
    fn a_wrong_converter_is_noticed() {
        let subject = Calls {
            to_form_1: ranks_left_out,
            to_form_2: cell_after_book,
            ..INDEPENDENT
        };
        let book = shipped("bracket");
        let convert = |calls: &Calls, form, cells: &[u16]| {
            let lent = Lent::holding(&[7; 50]);
            compare::to_form(calls, form, cells, &lent)
        };
        assert!(convert(&subject, 1, &book.in_form(2).cells()).is_ok());
        assert!(convert(&subject, 1, &turned_round(&book).cells()).is_err());
        assert!(convert(&INDEPENDENT, 2, &book.cells()).is_ok());
        assert!(convert(&subject, 2, &book.cells()).is_err());
    }

    #[test]
    fn a_write_past_the_lent_cells_is_noticed() {
        use both::lent::Memory;
        let good = Lent::holding(&[1u16, 2, 3]);
        let mut harmed = good.clone();
        assert!(good.difference(&harmed).is_none());
        harmed.harm_guard(9);
        assert!(harmed.difference(&good).is_some());
    }
}
