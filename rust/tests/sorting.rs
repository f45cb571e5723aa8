//! Lists in state order: entries that are out of order beside other faults, lists that are sorted,
//! and what holds of every sorted list, on random and shipped books. Each is asked of the library
//! and of the independent implementation.

#[macro_use]
mod both;
#[allow(dead_code)]
#[path = "../examples/make_book/grammar.rs"]
mod grammar;
mod independent;
#[allow(dead_code)]
#[path = "../examples/make_book/lalr.rs"]
mod lalr;
mod made;
mod random;
mod shipped;

use both::lists::{is_fault, judge, lines_of, sort, sort_into, states, UNTOUCHED};
use both::Calls;
use independent::book::Book;
use made::{bracket_lines, highly_numbered, ladder, ladder_lines, lengthened};
use purlquartz::*;
use random::books::{breakable, breaking_book, medium_book, small_book};
use random::grammars::long_book;
use random::lists::{
    all_with_article, covering, encode_list, line, lines, list_of, numbered, varied, with_articles,
    Line,
};
use random::{every_order, Random};
use shipped::{shipped, SHIPPED};

on_both! {
    every_order_of_brackets_list
    the_entry_directly_before
    wrong_before_out_of_order
    out_of_order_before_repeat
    broken_entries
    no_entry_and_one
    every_state_of_128
    faults_among_128
    longest_list
    refused_in_order
    laws_of_random_lists
    laws_where_reductions_break
    laws_of_long_sentences
    laws_of_shipped_books
}

/// The index of the first number that is lower than the one before it.
fn first_descent(numbers: &[usize]) -> Option<usize> {
    (1..numbers.len()).find(|&at| numbers[at] < numbers[at - 1])
}

fn every_order_of_brackets_list(calls: &Calls) {
    let book = shipped("bracket");
    let orders = every_order(6);
    assert_eq!(orders.len(), 720);
    for lines in [bracket_lines(), numbered(bracket_lines())] {
        let sorted = encode_list(&lines);
        for order in &orders {
            let given = list_of(&lines, order);
            let judgement = match first_descent(order) {
                Some(entry) => Judgement::OutOfOrder { entry },
                None => Judgement::Complete,
            };
            assert_eq!(judge(calls, &book, &given), judgement);
            assert_eq!(sort(calls, &book, &given), Ok(sorted.clone()));
        }
    }
}

/// A higher state than that of some earlier entry will not do; nor need every entry be there.
fn the_entry_directly_before(calls: &Calls) {
    let book = shipped("bracket");
    let lines = bracket_lines();
    for (order, entry) in [([3, 5, 4], 2), ([5, 0, 4], 1), ([0, 5, 1], 2)] {
        let given = list_of(&lines, &order);
        let out_of_order = Judgement::OutOfOrder { entry };
        assert_eq!(judge(calls, &book, &given), out_of_order);
        let mut order = order;
        order.sort();
        assert_eq!(sort(calls, &book, &given), Ok(list_of(&lines, &order)));
    }
    let given = list_of(&lines, &[1, 3, 5]);
    let uncovered = Judgement::Uncovered { state: 0 };
    assert_eq!(judge(calls, &book, &given), uncovered);
    assert_eq!(sort(calls, &book, &given), Ok(given));
}

/// How a list is judged and what its sorting says. The sorting does not know out of order.
fn faulty(calls: &Calls, book: &Book, list: &[u8], judgement: Judgement, fault: Sorted) {
    assert_eq!(judge(calls, book, list), judgement, "{list:?}");
    assert_eq!(sort(calls, book, list), Err(fault), "{list:?}");
}

/// Beside Bracket's lines, 6 is passed in state 0, 7 is accepted, and 8 is not taken in whole.
fn wrong_before_out_of_order(calls: &Calls) {
    let book = shipped("bracket");
    let mut lines = bracket_lines();
    lines.extend([line(&[], 1), line(&[1], 0), line(&[1, 1], 0)]);
    let stop = |state, symbol, taken| Stop {
        state,
        symbol,
        taken,
    };
    let endings = [
        Ending::Passed(stop(0, 1, 0)),
        Ending::Accepted(stop(3, 0, 1)),
        Ending::Error(stop(1, 1, 1)),
    ];
    for (wrong, ending) in (6..).zip(endings) {
        let told = |order: &[usize], judgement, entry| {
            let fault = Sorted::Wrong { entry, ending };
            faulty(calls, &book, &list_of(&lines, order), judgement, fault);
        };
        let judged = |entry| Judgement::Wrong { entry, ending };
        let out_of_order = |entry| Judgement::OutOfOrder { entry };
        told(&[wrong], judged(0), 0);
        told(&[wrong, 1, 0], judged(0), 0);
        told(&[0, 1, 2, 3, 4, 5, wrong], judged(6), 6);
        // Its ending may be in a lower state than the entry before, or in the same.
        told(&[4, wrong], judged(1), 1);
        told(&[0, 3, wrong, 2], judged(2), 2);
        told(&[0, 1, wrong, 1], judged(2), 2);
        // Out of order, then wrong.
        told(&[1, 0, wrong], out_of_order(1), 2);
        told(&[5, 4, 3, 2, 1, 0, wrong], out_of_order(1), 6);
        // With a repeat in between the sorting tells that one.
        let fault = Sorted::Repeat { entry: 1 };
        let given = list_of(&lines, &[0, 0, wrong]);
        faulty(calls, &book, &given, Judgement::Repeat { entry: 1 }, fault);
        let fault = Sorted::Repeat { entry: 2 };
        let given = list_of(&lines, &[1, 0, 1, wrong]);
        faulty(calls, &book, &given, out_of_order(1), fault);
    }
}

/// Beside Bracket's lines, 6 fails in state 0 as well, 7 in state 1 and 8 in state 5.
fn out_of_order_before_repeat(calls: &Calls) {
    let book = shipped("bracket");
    let mut lines = bracket_lines();
    lines.extend([line(&[], 3), line(&[1], 2), line(&[2, 1, 3], 2)]);
    let told = |order: &[usize], judgement, entry| {
        let fault = Sorted::Repeat { entry };
        faulty(calls, &book, &list_of(&lines, order), judgement, fault);
    };
    let repeat = |entry| Judgement::Repeat { entry };
    let out_of_order = |entry| Judgement::OutOfOrder { entry };
    // Right after the other: no lower state.
    told(&[0, 6], repeat(1), 1);
    told(&[6, 0, 1], repeat(1), 1);
    told(&[0, 0, 1, 0], repeat(1), 1);
    told(&[0, 1, 2, 3, 4, 5, 8], repeat(6), 6);
    told(&[0, 1, 2, 3, 4, 8, 5], repeat(6), 6);
    // Both at once.
    told(&[0, 1, 6], out_of_order(2), 2);
    told(&[0, 1, 2, 3, 4, 5, 6], out_of_order(6), 6);
    told(&[0, 1, 2, 3, 4, 5, 7], out_of_order(6), 6);
    told(&[5, 0, 8], out_of_order(1), 2);
    // One before the other.
    told(&[1, 0, 6], out_of_order(1), 2);
    told(&[1, 7, 0], repeat(1), 1);
    told(&[5, 4, 3, 2, 1, 0, 8], out_of_order(1), 6);
    told(&[5, 4, 3, 2, 1, 0, 6], out_of_order(1), 6);
}

/// An entry that ends as broken has its state like any other.
fn broken_entries(calls: &Calls) {
    let book = made::without_goto(&shipped("bracket"), 2, 0);
    let mut lines = bracket_lines();
    lines.push(line(&[2, 1], 3)); // breaks in state 1
    let sorted = list_of(&lines, &[0, 6, 2, 3]);
    assert_eq!(judge(calls, &book, &sorted), Judgement::Complete);
    for order in every_order(4) {
        let order: Vec<usize> = order.into_iter().map(|at| [0, 6, 2, 3][at]).collect();
        let given = list_of(&lines, &order);
        assert_eq!(sort(calls, &book, &given), Ok(sorted.clone()));
    }
    let given = list_of(&lines, &[0, 2, 6, 3]);
    let out_of_order = Judgement::OutOfOrder { entry: 2 };
    assert_eq!(judge(calls, &book, &given), out_of_order);
    let given = list_of(&lines, &[0, 2, 6, 1]);
    let fault = Sorted::Repeat { entry: 3 };
    faulty(calls, &book, &given, out_of_order, fault);
}

fn no_entry_and_one(calls: &Calls) {
    let book = shipped("bracket");
    assert_eq!(sort(calls, &book, &[0]), Ok(vec![0]));
    let uncovered = Judgement::Uncovered { state: 0 };
    assert_eq!(judge(calls, &book, &[0]), uncovered);
    for (state, line) in bracket_lines().into_iter().enumerate() {
        let given = encode_list(&[line]);
        let state = u16::from(state == 0);
        let uncovered = Judgement::Uncovered { state };
        assert_eq!(judge(calls, &book, &given), uncovered);
        assert_eq!(sort(calls, &book, &given), Ok(given));
    }
}

fn every_state_of_128(calls: &Calls) {
    let book = ladder();
    let lines = numbered(ladder_lines());
    let sorted = encode_list(&lines);
    assert_eq!(judge(calls, &book, &sorted), Judgement::Complete);
    let sorts = |given: &[Line], entry| {
        let given = encode_list(given);
        let out_of_order = Judgement::OutOfOrder { entry };
        assert_eq!(judge(calls, &book, &given), out_of_order);
        assert_eq!(sort(calls, &book, &given), Ok(sorted.clone()));
    };
    // By length: 0, 37, 74, 111, then 20; or else 91, then 54.
    let mut given = lines.clone();
    given.sort();
    sorts(&given, 4);
    given.reverse();
    sorts(&given, 1);
    let mut given = lines.clone();
    given.reverse();
    sorts(&given, 1);
    for at in 1..128 {
        let mut given = lines.clone();
        given.swap(at - 1, at);
        sorts(&given, at);
        let mut given = lines.clone();
        given.rotate_left(at);
        sorts(&given, 128 - at);
    }
    assert_eq!(sort(calls, &book, &sorted), Ok(sorted));
}

fn faults_among_128(calls: &Calls) {
    let book = ladder();
    let lines = ladder_lines();
    // All symbols are in, and the next one would be taken in as well.
    let passed = line(&[], 1);
    let ending = Ending::Passed(Stop {
        state: 0,
        symbol: 1,
        taken: 0,
    });
    let with = |at: usize, line: &Line| {
        let mut given = lines.clone();
        given[at] = line.clone();
        encode_list(&given)
    };
    for entry in [0, 1, 64, 127] {
        let wrong = Judgement::Wrong { entry, ending };
        let fault = Sorted::Wrong { entry, ending };
        faulty(calls, &book, &with(entry, &passed), wrong, fault);
    }
    let repeat = Judgement::Repeat { entry: 127 };
    let fault = Sorted::Repeat { entry: 127 };
    faulty(calls, &book, &with(127, &lines[126]), repeat, fault);
    let out_of_order = Judgement::OutOfOrder { entry: 127 };
    faulty(calls, &book, &with(127, &lines[0]), out_of_order, fault);
    let out_of_order = Judgement::OutOfOrder { entry: 1 };
    faulty(calls, &book, &with(0, &lines[127]), out_of_order, fault);
    let mut given = lines.clone();
    given.remove(5);
    let uncovered = Judgement::Uncovered { state: 5 };
    let sorted = encode_list(&given);
    assert_eq!(judge(calls, &book, &sorted), uncovered);
    given.reverse();
    assert_eq!(sort(calls, &book, &encode_list(&given)), Ok(sorted));
}

/// 128 entries of 1,000 symbols, with article numbers of three bytes.
fn longest_list(calls: &Calls) {
    let book = ladder();
    let mut lines = highly_numbered(lengthened(ladder_lines(), 1_000));
    let sorted = encode_list(&lines);
    assert_eq!(sorted.len(), MOST_LIST_BYTES);
    assert_eq!(judge(calls, &book, &sorted), Judgement::Complete);
    Random::new(41).shuffle(&mut lines);
    let given = encode_list(&lines);
    let judged = judge(calls, &book, &given);
    assert!(matches!(judged, Judgement::OutOfOrder { .. }));
    assert_eq!(sort(calls, &book, &given), Ok(sorted));
}

/// The book's refusals, then the list's, both before any fault; 12 after it.
fn refused_in_order(calls: &Calls) {
    let cells = shipped("bracket").cells();
    let refused = |cells: &[u16], list: &[u8], room: usize, number, place| {
        let refusal = Err(Refusal { number, place });
        let untouched = vec![UNTOUCHED; room];
        let answer = sort_into(calls, cells, list, room);
        assert_eq!(answer, (refusal, untouched), "{list:?}");
    };
    let list = encode_list(&bracket_lines());
    let longer = [&list[..], &[0]].concat();
    refused(&cells[..38], &list, 27, 1, 38);
    refused(&cells[..38], &longer, 0, 1, 38);
    refused(&[&cells[..], &[0]].concat(), &[], 0, 6, 39);
    for room in [0, 99] {
        refused(&cells, &list[..25], room, 1, 25);
        refused(&cells, &list[..26], room, 1, 26);
        refused(&cells, &longer, room, 6, 27);
        for (list, number, place) in made::REFUSED_LISTS {
            refused(&cells, list, room, number, place);
        }
    }
    for room in [0, 1, 26] {
        refused(&cells, &list, room, 12, 0);
    }
    refused(&cells, &[0], 0, 12, 0);
    let fault = |list: &[u8]| sort_into(calls, &cells, list, 0).0;
    let repeat = Sorted::Repeat { entry: 1 };
    assert_eq!(fault(&[2, 0, 0, 0, 0, 0, 0]), Ok(repeat));
    assert!(matches!(
        fault(&[1, 0, 1, 0]),
        Ok(Sorted::Wrong { entry: 0, .. })
    ));
}

/// How often lists were sorted, those that were in order before counted apart, and how often each
/// fault was told.
#[derive(Debug, Default)]
struct Tally {
    in_order: usize,
    sorted: usize,
    repeat: usize,
    wrong: usize,
}

impl Tally {
    fn expect(&self, least: usize) {
        let counts = [self.in_order, self.sorted, self.repeat, self.wrong];
        assert!(counts.into_iter().all(|count| count >= least), "{self:?}");
    }
}

/// The entries of a list, in an order that does not depend on theirs.
fn content(calls: &Calls, book: &Book, list: &[u8]) -> Vec<Line> {
    let mut lines = lines_of(calls, book, list);
    lines.sort();
    lines
}

/// What holds of every list, be it sorted or not, whatever its article numbers.
fn laws(calls: &Calls, random: &mut Random, tally: &mut Tally, book: &Book, mut lines: Vec<Line>) {
    let list = encode_list(&lines);
    let judgement = judge(calls, book, &list);
    let sorting = sort(calls, book, &list);
    match &sorting {
        Ok(sorted) => {
            sorted_laws(calls, book, &list, sorted);
            let in_order = *sorted == list;
            let out_of_order = matches!(judgement, Judgement::OutOfOrder { .. });
            assert_eq!(in_order, !out_of_order, "{judgement:?}");
            tally.in_order += usize::from(in_order);
            tally.sorted += usize::from(!in_order);
        }
        Err(fault) => {
            tell_alike(judgement, *fault);
            tally.repeat += usize::from(matches!(fault, Sorted::Repeat { .. }));
            tally.wrong += usize::from(matches!(fault, Sorted::Wrong { .. }));
        }
    }
    let others = encode_list(&with_articles(random, lines.clone()));
    assert_eq!(judge(calls, book, &others), judgement);
    let [one, other] = [&list, &others].map(|list| sorted_lines(calls, book, list));
    assert_eq!(one, other);
    for _ in 0..3 {
        random.shuffle(&mut lines);
        let shuffled = sort(calls, book, &encode_list(&lines));
        match &sorting {
            Ok(_) => assert_eq!(shuffled, sorting),
            Err(_) => assert!(shuffled.is_err()),
        }
    }
}

/// The lines of a list in state order, but for their article numbers, or the fault.
fn sorted_lines(calls: &Calls, book: &Book, list: &[u8]) -> Result<Vec<Line>, Sorted> {
    let sorted = sort(calls, book, list)?;
    Ok(all_with_article(&lines_of(calls, book, &sorted), 0))
}

/// The same entries, in order; without a fault; and sorting again changes nothing.
fn sorted_laws(calls: &Calls, book: &Book, list: &[u8], sorted: &[u8]) {
    assert_eq!(content(calls, book, sorted), content(calls, book, list));
    let states = states(calls, book, sorted);
    assert!(
        states.windows(2).all(|pair| pair[0] < pair[1]),
        "{states:?}"
    );
    let judgement = judge(calls, book, sorted);
    assert!(!is_fault(judgement), "{judgement:?}");
    assert_eq!(sort(calls, book, sorted), Ok(sorted.to_vec()));
}

/// The judgement tells the sorting's fault, unless an entry is out of order before it; or, if the
/// fault is a repeat, at it.
fn tell_alike(judgement: Judgement, fault: Sorted) {
    match (judgement, fault) {
        (Judgement::OutOfOrder { entry }, Sorted::Repeat { entry: later }) => {
            assert!(entry <= later)
        }
        (Judgement::OutOfOrder { entry }, Sorted::Wrong { entry: later, .. }) => {
            assert!(entry < later)
        }
        (Judgement::Repeat { entry }, _) => assert_eq!(fault, Sorted::Repeat { entry }),
        (Judgement::Wrong { entry, ending }, _) => {
            assert_eq!(fault, Sorted::Wrong { entry, ending })
        }
        told => panic!("{told:?}"),
    }
}

fn laws_of_random_lists(calls: &Calls) {
    let mut random = Random::new(42);
    let mut tally = Tally::default();
    for round in 0..2_000 {
        let book = match round % 20 {
            0 => medium_book(&mut random),
            _ => small_book(&mut random),
        };
        let lines = lines(&mut random, &book);
        laws(calls, &mut random, &mut tally, &book, lines);
    }
    tally.expect(100);
}

fn laws_where_reductions_break(calls: &Calls) {
    let mut random = Random::new(43);
    let mut tally = Tally::default();
    for _ in 0..1_000 {
        let book = breaking_book(&mut random);
        let lines = lines(&mut random, &book);
        laws(calls, &mut random, &mut tally, &book, lines);
    }
    tally.expect(50);
}

/// Most entries are longer than 127 symbols, so that their lengths take two bytes.
fn laws_of_long_sentences(calls: &Calls) {
    let mut random = Random::new(44);
    let mut tally = Tally::default();
    for _ in 0..60 {
        let book = long_book(&mut random);
        let covering = covering(&mut random, &book);
        for _ in 0..5 {
            let lines = varied(&mut random, &book, covering.clone());
            laws(calls, &mut random, &mut tally, &book, lines);
        }
    }
    tally.expect(10);
}

/// As they are, and with some gotos gone and some productions longer.
fn laws_of_shipped_books(calls: &Calls) {
    let mut random = Random::new(45);
    let mut tally = Tally::default();
    for name in SHIPPED {
        let shipped = shipped(name);
        let changed = breakable(&mut random, &shipped, 4);
        for book in [shipped, changed] {
            let covering = covering(&mut random, &book);
            for _ in 0..15 {
                let lines = varied(&mut random, &book, covering.clone());
                laws(calls, &mut random, &mut tally, &book, lines);
            }
        }
    }
    tally.expect(10);
}
