//! Two lists joined: which entries are taken, whose fault or refusal is told, and what holds of
//! every joined list, on random and shipped books. Each is asked of the library and of the
//! independent implementation.

#[macro_use]
mod both;
#[allow(dead_code)]
#[path = "../examples/make_book/grammar.rs"]
mod grammar;
mod independent;
#[allow(dead_code)]
#[path = "../examples/make_book/lalr.rs"]
mod lalr;
mod made;
mod random;
mod shipped;

use both::lists::{is_fault, join, join_into, judge, lines_of, sort, states, TOO_SHORT, UNTOUCHED};
use both::Calls;
use independent::book::Book;
use independent::calls::judge_cover;
use made::{bracket_lines, highly_numbered, ladder, ladder_lines, lengthened};
use purlquartz::*;
use random::books::{breakable, breaking_book, medium_book, small_book};
use random::grammars::long_book;
use random::lists::{
    all_with_article, encode_list, failing_lines, line, list_of, numbered, two_lists,
    with_articles, Line,
};
use random::ranks::unranked;
use random::Random;
use shipped::{shipped, SHIPPED};
use std::collections::BTreeMap;

on_both! {
    brackets_list_split_in_every_way
    the_first_lists_at_equal_length
    the_shorter_of_either_list
    lengths_of_one_byte_and_two
    counts_of_one_byte_and_two
    longest_lists
    broken_entries
    faults_of_either_list
    refused_in_order
    too_short_after_a_fault
    laws_of_random_lists
    laws_where_reductions_break
    laws_of_long_sentences
    laws_of_shipped_books
}

/// The numbers below a count whose bit is set.
fn members(set: usize, count: usize) -> Vec<usize> {
    (0..count).filter(|at| set >> at & 1 == 1).collect()
}

/// The lines of a list where its bit is set, and else of another.
fn mixed(set: usize, lines: &[Line], others: &[Line]) -> Vec<u8> {
    let mut mixed = others.to_vec();
    for at in members(set, lines.len()) {
        mixed[at] = lines[at].clone();
    }
    encode_list(&mixed)
}

/// Each entry in one of the lists, in both, or in none.
fn brackets_list_split_in_every_way(calls: &Calls) {
    let book = shipped("bracket");
    let lines = numbered(bracket_lines());
    for (one, other) in (0..64).flat_map(|one| (0..64).map(move |other| (one, other))) {
        let [first, second, either] =
            [one, other, one | other].map(|set| list_of(&lines, &members(set, 6)));
        assert_eq!(join(calls, &book, &first, &second), Ok(either.clone()));
        let judgement = match (!(one | other)).trailing_zeros() as u16 {
            6.. => Judgement::Complete,
            state => Judgement::Uncovered { state },
        };
        assert_eq!(judge(calls, &book, &either), judgement);
    }
}

/// Bracket's states 0, 1, 2 and 5 fail with another lookahead as well; the lines of 3 and 4 differ
/// in their article numbers alone.
fn the_first_lists_at_equal_length(calls: &Calls) {
    let book = shipped("bracket");
    let lines = numbered(bracket_lines());
    let mut others = highly_numbered(bracket_lines());
    for (state, lookahead) in [(0, 3), (1, 2), (2, 3), (5, 2)] {
        others[state].lookahead = lookahead;
    }
    let whole = encode_list(&others);
    for set in 0..64 {
        let part = list_of(&lines, &members(set, 6));
        let joined = join(calls, &book, &part, &whole);
        assert_eq!(joined, Ok(mixed(set, &lines, &others)));
        assert_eq!(join(calls, &book, &whole, &part), Ok(whole.clone()));
    }
}

/// All states of Bracket but 0 have a longer line. Its article number is 0, so that it takes fewer
/// bytes than the shorter one.
fn the_shorter_of_either_list(calls: &Calls) {
    let book = shipped("bracket");
    let short = highly_numbered(bracket_lines().split_off(1));
    let longer: [(&[u8], u16); 5] = [
        (&[2, 1], 1),
        (&[2, 2], 0),
        (&[2, 1, 3], 3),
        (&[2, 2, 1], 0),
        (&[2, 2, 1, 3], 1),
    ];
    let long = longer.map(|(sentence, lookahead)| line(sentence, lookahead));
    let shortest = encode_list(&short);
    for set in 0..32 {
        let first = mixed(set, &short, &long);
        let second = mixed(!set, &short, &long);
        let joined = join(calls, &book, &first, &second);
        assert_eq!(joined, Ok(shortest.clone()));
        // A longer line is taken where there is no other.
        let part = list_of(&short, &members(set, 5));
        let whole = encode_list(&long);
        for [one, other] in [[&part, &whole], [&whole, &part]] {
            assert_eq!(join(calls, &book, one, other), Ok(first.clone()));
        }
    }
}

/// A length takes two bytes from 128 on, but only symbols count. All these lines fail in the last
/// state that the ladder comes to, which 1 and 2 lead to again.
fn lengths_of_one_byte_and_two(calls: &Calls) {
    let book = ladder();
    let list = |symbol, length| {
        let mut sentence = vec![1; 127];
        sentence.resize(length, symbol);
        let article = 65_536 * u32::from(symbol) - 1;
        encode_list(&[line(&sentence, 0).with_article(article)])
    };
    let lengths = [127, 128, 129, 255, 256, 257, 383, 384, 999, 1_000];
    for one in lengths {
        for other in lengths {
            let [first, second] = [list(1, one), list(2, other)];
            let joined = join(calls, &book, &first, &second);
            assert_eq!(joined, Ok(if other < one { second } else { first }));
        }
    }
}

/// Any two of lists with no entry, one, 64, 127 and 128.
fn counts_of_one_byte_and_two(calls: &Calls) {
    let book = ladder();
    let lines = numbered(ladder_lines());
    let all = u128::MAX;
    let even = all / 3;
    let sets = [0, 1, 1 << 127, all >> 64, all << 64, even, !even];
    let sets = [&sets[..], &[all >> 1, all << 1, !(1 << 63), all]].concat();
    let list = |set: u128| {
        let members: Vec<usize> = (0..128).filter(|at| set >> at & 1 == 1).collect();
        list_of(&lines, &members)
    };
    for &one in &sets {
        for &other in &sets {
            let joined = join(calls, &book, &list(one), &list(other));
            assert_eq!(joined, Ok(list(one | other)));
        }
    }
}

/// 128 entries of 1,000 symbols, or one less, with article numbers of three bytes.
fn longest_lists(calls: &Calls) {
    let book = ladder();
    let lines = highly_numbered(ladder_lines());
    let lines = |length| lengthened(lines.clone(), length);
    let [long, short] = [1_000, 999].map(|length| encode_list(&lines(length)));
    assert_eq!(long.len(), MOST_LIST_BYTES);
    for [first, second] in [[&long, &short], [&short, &long], [&short, &short]] {
        assert_eq!(join(calls, &book, first, second), Ok(short.clone()));
    }
    assert_eq!(join(calls, &book, &long, &long), Ok(long));
}

/// Without a goto, `2 1` breaks in state 1 with 3 next, and fails there in error with 1 next.
fn broken_entries(calls: &Calls) {
    let book = made::without_goto(&shipped("bracket"), 2, 0);
    let mut lines = bracket_lines();
    lines.extend([line(&[2, 1], 3), line(&[2, 1], 1)]);
    for (first, second, joined) in [
        (&[0, 6, 2, 3][..], &[0, 7][..], &[0, 6, 2, 3][..]),
        (&[0, 7], &[0, 6, 2, 3], &[0, 7, 2, 3]),
        (&[6, 2], &[0, 1, 3], &[0, 1, 2, 3]),
        (&[0, 1, 3], &[6, 2], &[0, 1, 2, 3]),
        (&[0, 2], &[6, 3], &[0, 6, 2, 3]),
    ] {
        let [first, second, joined] = [first, second, joined].map(|order| list_of(&lines, order));
        assert_eq!(join(calls, &book, &first, &second), Ok(joined.clone()));
        assert_eq!(judge(calls, &book, &joined), Judgement::Complete);
    }
}

/// Lists for Bracket with each fault and with none, and how they are judged.
fn judged_lists() -> Vec<(Vec<u8>, Judgement)> {
    let mut lines = bracket_lines();
    // In state 0 6 fails as well, and 7 is passed; 8 is accepted, and 9 is not taken in whole.
    lines.extend([line(&[], 3), line(&[], 1), line(&[1], 0), line(&[1, 1], 0)]);
    let stop = |state, symbol, taken| Stop {
        state,
        symbol,
        taken,
    };
    let wrong = |entry, ending| Judgement::Wrong { entry, ending };
    let repeat = |entry| Judgement::Repeat { entry };
    let out_of_order = |entry| Judgement::OutOfOrder { entry };
    let judged = [
        (&[][..], Judgement::Uncovered { state: 0 }),
        (&[0, 1, 3, 5], Judgement::Uncovered { state: 2 }),
        (&[0, 1, 2, 3, 4, 5], Judgement::Complete),
        (&[0, 0], repeat(1)),
        (&[0, 6, 7], repeat(1)),
        (&[0, 1, 2, 3, 4, 5, 5], repeat(6)),
        (&[1, 0], out_of_order(1)),
        (&[0, 1, 6], out_of_order(2)),
        (&[0, 1, 2, 3, 5, 4, 9], out_of_order(5)),
        (&[7], wrong(0, Ending::Passed(stop(0, 1, 0)))),
        (&[0, 3, 8], wrong(2, Ending::Accepted(stop(3, 0, 1)))),
        (&[4, 9, 4, 0], wrong(1, Ending::Error(stop(1, 1, 1)))),
    ];
    let lists = judged.map(|(order, judgement)| (list_of(&lines, order), judgement));
    lists.to_vec()
}

/// Any two of these lists.
fn faults_of_either_list(calls: &Calls) {
    let book = shipped("bracket");
    let lists = judged_lists();
    for (first, one) in &lists {
        assert_eq!(judge(calls, &book, first), *one);
        for (second, other) in &lists {
            let joined = join(calls, &book, first, second);
            let told = first_fault([*one, *other]);
            assert_eq!(joined.err(), told, "{first:?} {second:?}");
        }
    }
}

/// What joining tells of two lists of these judgements, if one has a fault.
fn first_fault(judgements: [Judgement; 2]) -> Option<Joined> {
    let lists = [Which::First, Which::Second].into_iter().zip(judgements);
    let mut faults = lists.filter(|(_, judgement)| is_fault(*judgement));
    faults
        .next()
        .map(|(list, judgement)| Joined::Fault { list, judgement })
}

/// The book's refusals, then the first list's, then the second's, all before any fault.
fn refused_in_order(calls: &Calls) {
    let cells = shipped("bracket").cells();
    let refused = |cells: &[u16], lists: [&[u8]; 2], room, list, number, place| {
        let refusal = Refusal { number, place };
        let refusal = Err(JoinRefusal { list, refusal });
        let answer = join_into(calls, cells, lists, room);
        assert_eq!(answer, (refusal, vec![UNTOUCHED; room]), "{lists:?}");
    };
    let good = encode_list(&bracket_lines());
    let longer = [&good[..], &[0]].concat();
    let bad = [(&good[..26], 1, 26), (&longer, 6, 27)];
    let bad = [&bad[..], &made::REFUSED_LISTS].concat();
    let accepted = judged_lists();
    for &(list, number, place) in &bad {
        for room in [0, 99] {
            refused(&cells[..38], [list, &good], room, None, 1, 38);
            refused(&cells[..38], [&good, list], room, None, 1, 38);
            for &(other, ..) in &bad {
                let lists = [list, other];
                refused(&cells, lists, room, Some(Which::First), number, place);
            }
            for (other, _) in &accepted {
                let lists = [list, other];
                refused(&cells, lists, room, Some(Which::First), number, place);
                let lists = [other, list];
                refused(&cells, lists, room, Some(Which::Second), number, place);
            }
        }
    }
}

/// 12 comes after any fault, and is of no list.
fn too_short_after_a_fault(calls: &Calls) {
    let cells = shipped("bracket").cells();
    let good = encode_list(&bracket_lines());
    for (first, one) in &judged_lists() {
        let told = match first_fault([*one, Judgement::Complete]) {
            Some(fault) => Ok(fault),
            None => Err(JoinRefusal {
                list: None,
                refusal: TOO_SHORT,
            }),
        };
        for room in [0, 26] {
            let answer = join_into(calls, &cells, [first, &good], room);
            assert_eq!(answer, (told, vec![UNTOUCHED; room]));
        }
    }
}

/// How often joined lists were complete and uncovered, whose faults were told, and of states that
/// both lists cover whose line was shorter; or, as long, had another article number alone, or was
/// another in some other way.
#[derive(Debug, Default)]
struct Tally {
    joined: [usize; 2],
    faults: [usize; 2],
    shorter: [usize; 2],
    as_long: [usize; 2],
}

impl Tally {
    fn note_as_long(&mut self, one: &Line, other: &Line) {
        let is_another = one.with_article(other.article) != *other;
        self.as_long[usize::from(is_another)] += usize::from(one != other);
    }

    fn expect(&self, least: usize) {
        let counts = [self.joined, self.faults, self.shorter, self.as_long].concat();
        let mut counts = counts.into_iter();
        assert!(counts.all(|count| count >= least), "{self:?}");
    }
}

/// What holds of every two lists, whatever their article numbers, and of a book in either form.
fn laws(calls: &Calls, random: &mut Random, tally: &mut Tally, book: &Book, lists: [Vec<Line>; 2]) {
    let others = lists.clone().map(|lines| with_articles(random, lines));
    let [lists, others] = [lists, others].map(|lists| lists.map(|lines| encode_list(&lines)));
    let [one, other] = [&lists, &others].map(|lists| joined_lines(calls, book, lists));
    assert_eq!(one, other);
    let [first, second] = lists;
    let joined = join(calls, book, &first, &second);
    for form in [1, 2] {
        let book = unranked(book).in_form(form);
        assert_eq!(join(calls, &book, &first, &second), joined);
    }
    match first_fault([&first, &second].map(|list| judge(calls, book, list))) {
        None => {
            let joined = joined.expect("no fault");
            joined_laws(calls, tally, book, [&first, &second], &joined);
        }
        Some(fault) => {
            assert_eq!(joined, Err(fault));
            let second = matches!(fault, Joined::Fault { list, .. } if list == Which::Second);
            tally.faults[usize::from(second)] += 1;
        }
    }
}

/// The lines of two lists joined, but for their article numbers, or the fault.
fn joined_lines(calls: &Calls, book: &Book, lists: &[Vec<u8>; 2]) -> Result<Vec<Line>, Joined> {
    let joined = join(calls, book, &lists[0], &lists[1])?;
    Ok(all_with_article(&lines_of(calls, book, &joined), 0))
}

/// The joined list has the shorter lines and no others, in order, and is judged by the states that
/// either list covers. Of one list alone joining makes that list, and sorting leaves it as it is.
fn joined_laws(calls: &Calls, tally: &mut Tally, book: &Book, lists: [&[u8]; 2], joined: &[u8]) {
    let by_state = shorter_lines(tally, lists.map(|list| by_state(calls, book, list)));
    let lines: Vec<Line> = by_state.values().cloned().collect();
    let covered: Vec<usize> = by_state.into_keys().collect();
    assert_eq!(lines_of(calls, book, joined), lines);
    assert_eq!(states(calls, book, joined), covered);
    let judgement = judge(calls, book, joined);
    assert_eq!(judgement, judge_cover(book, &covered));
    tally.joined[usize::from(judgement == Judgement::Complete)] += 1;
    for list in [lists[0], lists[1], joined] {
        for [first, second] in [[list, list], [list, &[0]], [&[0], list]] {
            assert_eq!(join(calls, book, first, second), Ok(list.to_vec()));
        }
    }
    assert_eq!(sort(calls, book, joined), Ok(joined.to_vec()));
}

fn by_state(calls: &Calls, book: &Book, list: &[u8]) -> BTreeMap<usize, Line> {
    let states = states(calls, book, list).into_iter();
    states.zip(lines_of(calls, book, list)).collect()
}

/// For each state the line with fewer symbols, at equal length the first list's.
fn shorter_lines(
    tally: &mut Tally,
    [first, second]: [BTreeMap<usize, Line>; 2],
) -> BTreeMap<usize, Line> {
    let mut lines = first;
    for (state, other) in second {
        let Some(one) = lines.get(&state) else {
            lines.insert(state, other);
            continue;
        };
        let [length, of_other] = [one, &other].map(|line| line.sentence.len());
        let is_shorter = of_other < length;
        match length == of_other {
            true => tally.note_as_long(one, &other),
            false => tally.shorter[usize::from(is_shorter)] += 1,
        }
        if is_shorter {
            lines.insert(state, other);
        }
    }
    lines
}

/// The laws for some lists of a book.
fn laws_of_book(calls: &Calls, random: &mut Random, tally: &mut Tally, book: &Book, rounds: usize) {
    let failing = failing_lines(random, book);
    for _ in 0..rounds {
        let lists = two_lists(random, book, &failing);
        laws(calls, random, tally, book, lists);
    }
}

fn laws_of_random_lists(calls: &Calls) {
    let mut random = Random::new(51);
    let mut tally = Tally::default();
    for round in 0..1_000 {
        let book = match round % 20 {
            0 => medium_book(&mut random),
            _ => small_book(&mut random),
        };
        laws_of_book(calls, &mut random, &mut tally, &book, 2);
    }
    tally.expect(100);
}

fn laws_where_reductions_break(calls: &Calls) {
    let mut random = Random::new(52);
    let mut tally = Tally::default();
    for _ in 0..500 {
        let book = breaking_book(&mut random);
        laws_of_book(calls, &mut random, &mut tally, &book, 2);
    }
    tally.expect(50);
}

/// Most found lines are longer than 127 symbols, so that their lengths take two bytes.
fn laws_of_long_sentences(calls: &Calls) {
    let mut random = Random::new(53);
    let mut tally = Tally::default();
    for _ in 0..60 {
        let book = long_book(&mut random);
        laws_of_book(calls, &mut random, &mut tally, &book, 5);
    }
    tally.expect(10);
}

/// As they are, and with some gotos gone and some productions longer.
fn laws_of_shipped_books(calls: &Calls) {
    let mut random = Random::new(54);
    let mut tally = Tally::default();
    for name in SHIPPED {
        let shipped = shipped(name);
        let changed = breakable(&mut random, &shipped, 4);
        for book in [shipped, changed] {
            laws_of_book(calls, &mut random, &mut tally, &book, 12);
        }
    }
    tally.expect(10);
}
